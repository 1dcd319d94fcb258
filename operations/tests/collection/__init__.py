"""Tests of collections of several sources: settings, site and runs of `ropepeach` (operations/docs/OPERATING.md)."""
