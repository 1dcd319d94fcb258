"""Bugs that are planted one at a time, and that tests must notice (test_planted.py). bugs/ has the tables."""
