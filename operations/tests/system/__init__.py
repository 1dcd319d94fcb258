"""Tests of installed files, of folders that are filled, and of disk sizes."""
