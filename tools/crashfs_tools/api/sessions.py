"""Calls a function that is recorded, in a Python of its own."""

from __future__ import annotations

import importlib
import importlib.machinery
import importlib.util
import os
import sys
from functools import reduce
from pathlib import Path
from typing import Any, List

from .recordings import LINES


def acknowledge(line: str) -> None:
    """Writes an acknowledged line, which may be empty, to the descriptor that crashfs-record
    follows, in one write. ValueError if it has a line feed, or a surrogate that isn't that of a
    byte: then nothing is written. OSError in a process without the descriptor, as after it was
    closed."""
    if '\n' in line:
        raise ValueError('an acknowledged line has no line feed')
    os.write(LINES, f'{line}\n'.encode('utf-8', 'surrogateescape'))


def main(arguments: List[str]) -> None:
    """Calls a session's function with the current directory and acknowledge(). The arguments are
    the path of its file, its module, its name with dots, and the list that becomes sys.path. What
    the import or the function raises ends this Python with a traceback; what the function returns
    is dropped."""
    path, module, name, *sys.path = arguments
    session: Any = reduce(getattr, name.split('.'), load_module(path, module))
    session(Path.cwd(), acknowledge)


def load_module(path: str, name: str) -> object:
    """Imports the module of a file: by its name, if that finds this file; else by load_file(), as
    for a script that ran as `__main__`. If the name finds another file, that has run too. What the
    import raises is passed on, except a ModuleNotFoundError of the import by name: then the file is
    tried."""
    try:
        module = importlib.import_module(name)
        # The `__main__` of this Python has no file.
        module_path = getattr(module, '__file__', None) or ''
        if os.path.realpath(module_path) == os.path.realpath(path):
            return module
    except ModuleNotFoundError:
        pass
    return load_file(path)


def load_file(path: str) -> object:
    """Imports a file as a module without a package, which is in sys.modules under the file's name
    without its ending, also after a failure. OSError if the file can't be read; what its code
    raises is passed on."""
    loader = importlib.machinery.SourceFileLoader(Path(path).stem, path)
    spec = importlib.util.spec_from_file_location(loader.name, path, loader=loader)
    assert spec is not None
    module = importlib.util.module_from_spec(spec)
    sys.modules[spec.name] = module
    loader.exec_module(module)
    return module
