"""Programs that hold answers to real launchers and libraries; no tests."""
