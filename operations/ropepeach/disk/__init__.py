"""The file of a source: `ropepeach look` and `ropepeach size`."""
