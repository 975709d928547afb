"""The tests of crashfs-record and crashfs-check.

Most of them wait for processes that they start. So `unittest discover` runs several at once, and
tells what came of them in their order. Classes here have no setUpClass, which that would leave out.
"""

from __future__ import annotations

import os
import unittest
from typing import Optional

from .several import SeveralAtOnce, tests_of


def load_tests(loader: unittest.TestLoader, _: object, pattern: Optional[str]) -> SeveralAtOnce:
    """What `unittest discover` asks this package for."""
    folder = os.path.dirname(__file__)
    found = loader.discover(folder, pattern or 'test*.py', os.path.dirname(folder))
    return SeveralAtOnce(tests_of(found))
