#!/usr/bin/env python3
"""Opens the store that a crash left, and compares it with the acknowledged lines on standard input.
Each acknowledged put and snapshot must be there; one more put may be."""

import sys
from typing import Dict, List

from session import text_of
from store import Damaged, Value, recovered


def fault_of(lines: List[str]) -> str:
    """What is wrong with the store in the current directory, or nothing."""
    try:
        values, newest = recovered()
    except Damaged as error:
        return f'corrupt: {error}'
    puts: Dict[str, Value] = {}
    count = 0
    for kind, *words in map(str.split, lines):
        if kind == 'snapshot' and newest < int(words[0]):
            return 'lost: a snapshot'
        if kind == 'put':
            count = int(words[1])
            puts[words[0]] = Value(count, text_of(count, int(words[2])))
    for key, value in puts.items():
        if values.get(key, Value(0, '')).number < value.number:
            return 'lost: a value'
    for key, value in values.items():
        if value != puts.get(key) and value.number != count + 1:
            return 'wrong: a value that was not stored'
    return ''


def main() -> int:
    fault = fault_of(sys.stdin.read().splitlines())
    if fault:
        print(fault)
    return 1 if fault else 0


if __name__ == '__main__':
    sys.exit(main())
