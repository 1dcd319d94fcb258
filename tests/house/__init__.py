"""Checks of the repository itself: its folders, its pages, its set-up and its proofs by hand."""
