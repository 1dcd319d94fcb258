"""Tests that build the Python package and the Debian packages in a minimal Debian."""
