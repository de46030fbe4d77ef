"""MPICH's test suite, recorded program by program: what `make record-suite` calls."""
