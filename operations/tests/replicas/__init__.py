"""Tests of a source on a replicated store of three machines, which die in turn (operations/docs/REPLICAS.md)."""
