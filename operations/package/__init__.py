"""The installed files, and their Debian packages."""
