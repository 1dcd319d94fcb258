"""Tests of the commands against models of a few lines, with simulated sources and histories (tests/README.md)."""
