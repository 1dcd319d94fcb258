"""What holds the program and its pictures to what the pages say (README.md)."""
