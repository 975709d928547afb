#!/usr/bin/env -S python3 -S
"""Runs the second reading as a program, by this file's path or as a module."""

import os
import sys

if not __package__:
    # Run by its path: what it imports is found from the folder of the whole package.
    sys.path[0] = os.path.dirname(os.path.dirname(os.path.dirname(os.path.abspath(__file__))))

from crashfs_tools.reading.main import main  # noqa: E402  # after the path

if __name__ == '__main__':
    sys.exit(main(sys.argv[1:]))
