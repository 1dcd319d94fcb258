//! Nothing: the sources name the kit's `jiff_core` in their proofs alone.
