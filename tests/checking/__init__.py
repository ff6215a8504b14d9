"""What `desk check` tells, row by row: each module has one kind of row, and the functions that ask the program."""
