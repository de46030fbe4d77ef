"""The Python programs around `wire_up`: the recorder and the reporter, and what both need."""
# That of the program too.
VERSION = "0.1.0"
