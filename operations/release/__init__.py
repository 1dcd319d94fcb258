"""The artifacts of a release."""
