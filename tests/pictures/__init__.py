"""The pictures of docs/pictures, and their comparison with runs of the program."""
