"""The interface for programs and tests; its names are those of the package itself."""
