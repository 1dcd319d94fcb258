"""Tests of scripts and requests whose reads and writes fail."""
