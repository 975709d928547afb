"""What the commands share: the command line's two halves, --version, running a command of this
package by its module, finding COMMAND and saying how it ended, the lines that a command prints of
itself, and the statuses that others read."""

from __future__ import annotations

import argparse
import errno
import io
import os
import shutil
import signal
import sys
from contextlib import redirect_stdout
from importlib import import_module
from typing import Any, Collection, Dict, List, NoReturn, Optional, Tuple

from crashfs_tools import VERSION

from .streams import flushed_output

# The folder that has this package.
LIBRARY = os.path.dirname(os.path.dirname(os.path.dirname(os.path.realpath(__file__))))
# How every file of text is read and written.
TEXT: Dict[str, Any] = {'encoding': 'utf-8', 'errors': 'surrogateescape', 'newline': '\n'}

# The exit statuses of crashfs-record if it wrote a trace: whole, not whole, or whole with notes.
TRACE_WHOLE, TRACE_NOT_WHOLE, TRACE_NOTED = 0, 3, 4
# Those of crashfs-check; NOT_ALL_TRIED is also that of a state without an answer.
NONE_FAILS, SOME_FAIL, NOT_ALL_TRIED = 0, 1, 3
# The status of a text that could not be printed.
NOT_PRINTED = 3
# No line is longer: a fault may name a number of millions of digits. A path has 4,096 bytes.
LINE_CHARACTERS = 8192
# What failed if an OSError with one of these numbers names no file: fork(2) or pipe(2).
FAILED_CALLS = {
    errno.EAGAIN: 'a process can not be started',
    errno.ENOMEM: 'a process can not be started',
    errno.EMFILE: 'a pipe can not be opened',
    errno.ENFILE: 'a pipe can not be opened',
}


class Refused(Exception):
    """Bad input, which ends a command: the line, or the few lines, that the user sees."""


def write_text(path: str, text: str) -> None:
    """Writes a text into the file at a path, in place of what it has. OSError if it can't be
    written: a part may be."""
    with open(path, 'w', **TEXT) as file:
        file.write(text)


def parse_number(text: str) -> Optional[int]:
    """The number of a text that has only decimal digits. None for any other text, and for one with
    so many digits (over 4,300) that Python doesn't take it for a number."""
    try:
        return int(text) if text.isdecimal() else None
    except ValueError:
        return None


def parse_positive_number(text: str) -> Optional[float]:
    """The number of a text, as float() reads it, if it is above 0; `inf` is too. None for any other
    text."""
    try:
        number = float(text)
    except ValueError:
        return None
    return number if number > 0 else None


def split_command(words: List[str]) -> Tuple[List[str], List[str]]:
    """The words before the first `--`, and the words after it, which are COMMAND. Without `--` all
    words are before it, and COMMAND is empty."""
    if '--' not in words:
        return words, []
    separator = words.index('--')
    return words[:separator], words[separator + 1 :]


def parse_command_line(
    parser: argparse.ArgumentParser, words: List[str], recorder_options: Collection[str] = ()
) -> Tuple[argparse.Namespace, List[str]]:
    """The options that a parser reads from the words before the first `--`, and COMMAND, the words
    after it; COMMAND may be empty. A wrong word (status 2), --help and --version (status 0) end the
    program by SystemExit, after the text is printed. The text about a wrong word that is one of
    recorder_options says that it is an option of crashfs-record. If the text of --help or --version
    can't be printed, the status is NOT_PRINTED."""
    own_words, command = split_command(words)
    help_text = io.StringIO()
    try:
        with redirect_stdout(help_text):
            values, unknown_words = parser.parse_known_args(own_words)
    except SystemExit:
        if help_text.getvalue():
            print_help(parser.prog, help_text.getvalue())
        raise
    for name in (word.partition('=')[0] for word in unknown_words):
        if name in recorder_options:
            parser.error(f'{name} is an option of crashfs-record')
    if unknown_words and not command and not unknown_words[0].startswith('-'):
        parser.error(f'put -- before COMMAND ({unknown_words[0]})')
    if unknown_words:
        parser.error(f'unrecognized arguments: {" ".join(unknown_words)}')
    return values, command


def print_help(program: str, text: str) -> None:
    """Prints the text of --help or --version. If it can't be printed, prints a line on standard
    error, and raises SystemExit with NOT_PRINTED: argparse itself would end with a traceback, or be
    silent."""
    try:
        with flushed_output():
            print(text, end='')
    except OSError as error:
        print_line(program, f'{error.filename}: {error.strerror}')
        raise SystemExit(NOT_PRINTED) from error


def version_text(command: str) -> str:
    """The text of --version for a command. Only a release has the module `built`, with its commit
    and its kit; without it the text says that this is no release."""
    try:
        built = import_module('crashfs_tools.built')
    except ModuleNotFoundError:
        return f'{command} {VERSION} (not a release)'
    return f'{command} {VERSION} (commit {built.COMMIT}, kit {built.KIT})'


def code_to_run(module: str) -> str:
    """Code for `python -c` that calls the main() of a module of this package, such as
    `recorder.main`, with the words after the code. The status is the one that main() returns; for
    None it is 0."""
    return (
        f'import sys; sys.path.insert(0, {LIBRARY!r}); '
        f'from crashfs_tools.{module} import main; sys.exit(main(sys.argv[1:]))'
    )


def with_program_path(command: List[str]) -> List[str]:
    """COMMAND, which must not be empty, with the absolute path of its program: so it can be started
    in another directory. A name with a slash is a path from this directory; any other is looked up
    in PATH. Refused if the program isn't found, or may not be executed."""
    name = command[0]
    path = shutil.which(name)
    if path is None:
        is_there = '/' in name and os.path.exists(name)
        hint = f' (use ./{name})' if os.path.isfile(name) else ''
        raise Refused(f'{name}: ' + ('not executable' if is_there else f'command not found{hint}'))
    return [os.path.abspath(path)] + command[1:]


def relative_path_arguments(command: List[str]) -> List[str]:
    """COMMAND's arguments that are relative paths of existing files or directories, seen from this
    directory: a COMMAND that runs in another directory doesn't find these by them. COMMAND may be
    empty."""
    return [word for word in command[1:] if not os.path.isabs(word) and os.path.exists(word)]


def end_process(status: int) -> NoReturn:
    """Ends this process with a status, once its output is written or can't be. It skips what Python
    and the caller's program would do at the end: to free the memory of a check would take as long
    as to try ten states."""
    try:
        for stream in filter(None, (sys.stdout, sys.stderr)):
            stream.flush()
    finally:
        os._exit(status)


def ending_text(status: int) -> str:
    """How a process ended, as `was ended by SIGKILL` or `ended with status 1`, from its status as
    Popen has it: negative for a signal."""
    return f'ended with status {status}' if status >= 0 else f'was ended by {signal_text(-status)}'


def signal_text(number: int) -> str:
    """The name of a signal, or `signal 40` for one that has no name, as most real-time signals."""
    try:
        return signal.Signals(number).name
    except ValueError:
        return f'signal {number}'


def last_line(output: str) -> str:
    """The last line of a program's output that isn't blank; an empty text if there is none. Blanks
    at both ends of the output are left out."""
    lines = output.strip().splitlines()
    return lines[-1] if lines else ''


def error_text(error: OSError, unnamed_file: str) -> str:
    """An OSError that has a number, as a text: the file that it names, and why. If it names none,
    the text begins with what failed as in FAILED_CALLS or, for other numbers, with unnamed_file:
    the file that was written or read."""
    subject = error.filename or FAILED_CALLS.get(error.errno or 0, unnamed_file)
    return f'{subject}: {error.strerror}'


def print_line(program: str, text: str) -> None:
    """Prints a line on standard error at once, after the program's name; shorten() cuts a long
    text. Line feeds and control characters are printed as they are: a caller uses
    escape_unprintable() before. If the line can't be written, nothing happens."""
    if sys.stderr is None:
        return
    try:
        print(f'{program}: {shorten(text)}', file=sys.stderr, flush=True)
    except OSError:
        pass


def shorten(text: str) -> str:
    """The same text if it has at most LINE_CHARACTERS. Else its beginning and its end, of half so
    many characters each, with ` ... ` between them."""
    half = LINE_CHARACTERS // 2
    return text if len(text) <= LINE_CHARACTERS else f'{text[:half]} ... {text[-half:]}'
