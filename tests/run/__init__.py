"""Tests of `wire_up-run`."""
