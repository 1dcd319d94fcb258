"""The image for containers (OCI): a small Debian with the two packages, in one layer.

`make image` makes it with Debian's own tools.
"""
