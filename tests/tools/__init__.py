"""Tests of what the Python programs share."""
