"""The formats and rules of docs/ in Python, independent of the program."""
