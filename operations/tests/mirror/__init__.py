"""Tests of mirrors whose sources change and are killed meanwhile."""
