"""From a plan to a pattern: one script for all ranks of a role, whatever their number."""
