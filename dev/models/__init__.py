"""Models of tables and runs, with which tests compare the program."""
