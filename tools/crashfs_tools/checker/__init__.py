"""crashfs-check: a recovery is run in each crash state of a trace."""
