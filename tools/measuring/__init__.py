"""What the command `measure` does: benchmark programs that are built, servers, and their memory."""
