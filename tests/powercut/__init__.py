"""Power cuts below real file systems."""
