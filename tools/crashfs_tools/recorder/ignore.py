"""Finds the paths that --ignore leaves out, by the rules of .gitignore. `?` and sets match a
character, but in git a byte: they differ for characters beyond ASCII."""

from __future__ import annotations

import os
import re
from dataclasses import dataclass
from typing import Dict, Iterable, List, Set, Tuple

from crashfs_tools.common.entry import ancestors_and_path


@dataclass(frozen=True)
class Rule:
    """A pattern of --ignore as a regular expression, which matches whole paths without the first
    slash. is_of_directories means that the pattern has a slash at its end: it matches directories
    only. is_negated means that the pattern begins with `!`: a path that it matches is kept,
    whatever earlier patterns match."""

    regex: re.Pattern[str]
    is_negated: bool
    is_of_directories: bool

    @staticmethod
    def parse(pattern: str) -> Rule:
        """The rule of a pattern. ValueError for one that has an empty name, such as `a//b`, or a
        set without an end, an unknown class, or a backslash at its end. A pattern without a slash,
        or with one only at its end, matches at any depth; any other matches whole paths. Blanks,
        and a `#` at the beginning, are ordinary characters."""
        is_negated = pattern.startswith('!')
        body = pattern[1:] if is_negated else pattern
        names = body.strip('/')
        # A slash in a set ends no name.
        if not names or '//' in names and '[' not in names:
            raise ValueError(f'`{pattern}` has an empty name')
        is_of_directories = body.endswith('/')
        body = body.rstrip('/')
        is_anchored = '/' in body
        regex = ('' if is_anchored else '(?:.*/)?') + translate_pattern(body.lstrip('/'))
        return Rule(
            re.compile(regex, re.S), is_negated=is_negated, is_of_directories=is_of_directories
        )


# A character of a set, a range of characters by its first and last one, or a class of POSIX.
ITEM = re.compile(
    r'\[:(?P<name>[^\]]*):\]|(?P<first>\\.|.)(?:-(?P<last>\\.|[^\]\\]))?',
    re.S,
)
# The classes as git has them, which takes a form feed as no space.
CLASSES = {
    'alnum': 'a-zA-Z0-9',
    'alpha': 'a-zA-Z',
    'blank': ' \\t',
    'cntrl': '\\x00-\\x1f\\x7f',
    'digit': '0-9',
    'graph': '!-~',
    'lower': 'a-z',
    'print': ' -~',
    'punct': '!-/:-@\\[-`{-~',
    'space': ' \\t\\n\\r',
    'upper': 'A-Z',
    'xdigit': '0-9a-fA-F',
}


def translate_pattern(pattern: str) -> str:
    """A pattern, without `!` and without a slash at either end, as a regular expression. ValueError
    as in translate_piece()."""
    regex, position = '', 0
    while position < len(pattern):
        piece_regex, position = translate_piece(pattern, position)
        regex += piece_regex
    return regex


def translate_piece(pattern: str, position: int) -> Tuple[str, int]:
    """The piece that begins at a position of a pattern, as a regular expression, and the position
    after that piece. `?` and sets match no slash; a character after a backslash is an ordinary one.
    ValueError for a backslash at the end, and as in translate_set()."""
    if pattern[position] == '*':
        return translate_stars(pattern, position)
    if pattern[position] == '[':
        return translate_set(pattern, position)
    if pattern[position] == '?':
        return '[^/]', position + 1
    if pattern[position] == '\\':
        position += 1
    if position == len(pattern):
        raise ValueError(f'{pattern} ends in a backslash')
    return re.escape(pattern[position]), position + 1


def translate_stars(pattern: str, position: int) -> Tuple[str, int]:
    """All stars from a position of a pattern on, in the form of translate_piece(). Two or more
    stars that are a whole name of the pattern match any number of names, each with the slash after
    it, or, at the pattern's end and before an escaped slash, any characters. Other stars match what
    one star does: any characters but a slash."""
    after_stars = pattern[position:].lstrip('*')
    end = len(pattern) - len(after_stars)
    is_first_in_name = position == 0 or pattern[position - 1] == '/'
    is_last_in_name = not after_stars or after_stars.startswith(('/', '\\/'))
    is_whole_name = is_first_in_name and is_last_in_name
    if end - position == 1 or not is_whole_name:
        return '[^/]*', end
    return ('(?:.*/)?', end + 1) if after_stars[:1] == '/' else ('.*', end)


def translate_set(pattern: str, position: int) -> Tuple[str, int]:
    """The set of characters at a position of a pattern, in the form of translate_piece(). A `]`
    that is the set's first character belongs to the set. ValueError for a set without an end, or
    with an unknown class."""
    start = position + 1
    is_negated = pattern[start : start + 1] in ('!', '^')
    if is_negated:
        start += 1
    end, items = start, ''
    while end == start or pattern[end : end + 1] != ']':
        item = ITEM.match(pattern, end)
        if item is None:
            raise ValueError(f'{pattern}: the set {pattern[position:]} has no end')
        items += translate_item(pattern, item)
        end = item.end()
    negation = '^' if is_negated else ''
    return f'(?!/)[{negation}{items}]', end + 1


def translate_item(pattern: str, item: re.Match[str]) -> str:
    """An item of a set, by the match of ITEM, as a part of a regular expression's set. Of a range
    in the wrong order, as `z-a`, only the first character counts, as in git. ValueError, with the
    whole pattern, for an unknown class."""
    if item['name'] is not None:
        if item['name'] not in CLASSES:
            raise ValueError(f'{pattern}: {item[0]} is no class of letters')
        return CLASSES[item['name']]
    # Without a backslash before it.
    first, last = item['first'][-1], (item['last'] or '')[-1:]
    return re.escape(first) + (f'-{re.escape(last)}' if first < last else '')


class IgnoreRules:
    """All patterns of --ignore. The last one that matches a path decides, and what is below an
    ignored directory is ignored, too. `answers` has what was returned for a path, and for those
    above it; nothing is kept if there are no patterns. removed_files has paths that patterns of
    directories don't match, though nothing is there. The root is never ignored, as its syncs are
    needed."""

    def __init__(self, patterns: List[str], top: str) -> None:
        """Parses the patterns; ValueError as Rule.parse(). `top` is the directory on the disk, to
        see which paths are files; it need not be there."""
        self.rules = [Rule.parse(pattern) for pattern in patterns]
        self.top = top
        self.answers: Dict[str, bool] = {}
        self.removed_files: Set[str] = set()

    def add_removed_files(self, paths: Iterable[str]) -> None:
        """Adds those of some paths at which nothing is now to removed_files. Call it with the paths
        at which files were during the session. An earlier answer for such a path is dropped."""
        for path in set(paths):
            if not os.path.lexists(self.top + path):
                self.removed_files.add(path)
                self.answers.pop(path, None)

    def __call__(self, path: str) -> bool:
        """Whether a path, which begins with `/`, or a directory above it is ignored. Patterns of
        directories look at the disk when the path is first asked for, and match a path at which
        nothing is, unless removed_files has it. That answer is kept, even if something else is
        there later."""
        if not self.rules or path in self.answers:
            return self.answers.get(path, False)
        is_ignored = False
        for ancestor in ancestors_and_path(path):
            if ancestor not in self.answers:
                self.answers[ancestor] = is_ignored or self.is_ignored_itself(ancestor)
            is_ignored = self.answers[ancestor]
        return is_ignored

    def is_ignored_itself(self, path: str) -> bool:
        """Whether the last pattern that matches a path doesn't begin with `!`; False if none does,
        and for the root. Directories above the path don't count. A pattern of directories looks at
        the disk."""
        relative_path, is_ignored = path.strip('/'), False
        if not relative_path:
            return False
        for rule in self.rules:
            may_match = not rule.is_of_directories or not self.is_file(path)
            if may_match and rule.regex.fullmatch(relative_path):
                is_ignored = not rule.is_negated
        return is_ignored

    def is_file(self, path: str) -> bool:
        """Whether a path is a plain file on the disk now, or a link to one, or among removed_files.
        False if nothing else is known of it: patterns of directories match such a path too."""
        return path in self.removed_files or os.path.isfile(self.top + path)
