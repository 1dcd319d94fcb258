"""The worked rows, and the tests that run them."""
