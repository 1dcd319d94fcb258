"""Tests of the page of a source in headless Chromium and Firefox, through nginx's site (operations/docs/PAGE.md)."""
