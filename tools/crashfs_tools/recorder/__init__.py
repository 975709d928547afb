"""crashfs-record: what a program does to a directory becomes a trace."""
