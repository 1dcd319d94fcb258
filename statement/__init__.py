"""The printed statement of each promise, and the check of its tables (`make statement`)."""
