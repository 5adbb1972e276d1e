"""The checks of tools/check-docs, one a module. Each has `faults`, which gives a file and what is wrong with it."""
