"""What `explore.py` stands on: running the program, reading held runs, and following orders of turns."""
