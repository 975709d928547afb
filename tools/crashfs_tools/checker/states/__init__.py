"""The crash states of a trace: which there are, and their files in a directory."""
