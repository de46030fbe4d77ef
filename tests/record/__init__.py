"""Tests of `wire_up-record` and of what it preloads."""
