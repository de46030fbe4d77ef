"""Tests of patterns: `check --pattern` and `expand`."""
