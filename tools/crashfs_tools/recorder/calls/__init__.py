"""The system calls that the recorder translates, by what they change."""
