"""HTTP requests, and the limits on them."""
