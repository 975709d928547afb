"""What the failing states have in common: the calls that were in the wrong order, and advice."""
