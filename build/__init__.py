"""What `make` calls: proofs, builds, the gate, and the measuring."""
