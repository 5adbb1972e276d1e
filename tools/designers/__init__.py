"""The tools of a designer that tools/olap-tools runs: after a no, split, wide, keep, sql, bands. Each asks the program, and proves nothing."""
