"""`ropepeach health`: the state of a source, for monitoring."""
