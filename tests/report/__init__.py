"""Tests of `wire_up-report`."""
