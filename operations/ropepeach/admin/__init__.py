"""Sources of this machine: `new`, `remove`, `backup`, `restore`, `site`, `why` and `takeover`."""

# The user that runs the units of sources.
USER = "ropepeach"
