"""`ropepeach fill`: a source that follows a folder."""
