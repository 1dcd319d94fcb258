"""Measurements of the built program, run by `python3 -m bench.NAME` (docs/keepers/BENCH.md)."""
