"""Tests of the package `http`: requests, transfers and responses, against a server of raw bytes."""
