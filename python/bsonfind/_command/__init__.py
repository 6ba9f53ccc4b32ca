"""The command line: its arguments, and what is printed."""
