"""What the gate needs in addition to `rt ci`: times, the tools' tests, and its last lines."""
