"""Tests of `check --portable`, and of the axioms of libraries."""
