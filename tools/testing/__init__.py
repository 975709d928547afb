"""Runs the tests that need no proofs: those of the crates, of the tools, and the examples."""
