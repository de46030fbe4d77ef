"""Tests of the commands of `wire_up`."""
