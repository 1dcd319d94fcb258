"""Tests of crashes at any call of the program on a file."""
