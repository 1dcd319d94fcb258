"""Tests of the program with changed, cut, spliced and random disks, scripts and requests."""
