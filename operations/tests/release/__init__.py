"""Tests of `make release`: the short form makes no large artifact, the long form makes all of them twice."""
