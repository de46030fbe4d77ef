"""Random plans, patterns and programs, and what a soak holds for each."""
