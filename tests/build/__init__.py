"""Tests of `build/` and of what is installed."""
