"""What the recorder and the checker share: the program, traces, trees, and the end of a run."""
