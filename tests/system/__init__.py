"""Tests of the program at the edges of its system, and of its companions."""
