"""The sources of crates/ as plain Rust: `python3 -m rust` (rust/README.md)."""
