"""The gate: what `make test`, `make quick`, `make long` and `make build` run (docs/keepers/GATE.md)."""
