"""What `desk check --tables` tells, row by row: each module of rows has one kind of tables, and `scan` knows nothing of the program."""
