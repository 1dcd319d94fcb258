"""What surrounds the proved program: the command `ropepeach`, units, site, packages, and their checks (README.md)."""
