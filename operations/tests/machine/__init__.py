"""Tests on a whole booted machine: Debian of its registry with the packages, in systemd-nspawn (tests/README.md)."""
