"""Real file systems: a session is made again on them, and the disk after a crash is read."""
