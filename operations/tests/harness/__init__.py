"""Shared parts of the pytest tests: runs of the command, a fake HTTP server, and a fake source on it."""
