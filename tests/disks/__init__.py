"""Disks, made from the tables of docs/DISK.md, independent of the program."""
