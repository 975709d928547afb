"""Proves the crates below the program, several side by side, and builds it."""
