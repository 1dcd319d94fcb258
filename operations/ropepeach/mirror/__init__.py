"""`ropepeach mirror` and `ropepeach check`: a folder that follows a source."""
