"""What `tools/lint` looks at: Python, words, layout, and pages that are made from the sources."""
