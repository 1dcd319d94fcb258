"""Tests of the image for containers, made of the tested packages, under runc and systemd-nspawn (tests/README.md)."""
