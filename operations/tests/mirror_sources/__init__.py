"""Tests of `ropepeach mirror` and `ropepeach check` with sources of any software."""
