"""The checks of tools/check-pages, one a module. Each has `faults`, which gives what is wrong in one line each."""
