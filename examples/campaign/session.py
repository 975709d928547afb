#!/usr/bin/env python3
"""Some puts and now and then a snapshot, drawn by CRASHFS_SEED. Each is acknowledged."""

import os
import random

from store import Store, Value

KEYS = 'abcde'


def text_of(number: int, size: int) -> str:
    """The text that the put of this number stores."""
    return f'{number} '.ljust(size, '.')


def main() -> None:
    draw = random.Random(int(os.environ.get('CRASHFS_SEED', '0')))
    store = Store()
    for number in range(1, draw.randint(6, 16)):
        if draw.random() < 0.005:
            print('snapshot', store.snapshot(), flush=True)
        size = draw.randint(700, 1500) if draw.random() < 0.005 else draw.randint(20, 80)
        key = draw.choice(KEYS)
        store.put(key, Value(number, text_of(number, size)))
        print('put', key, number, size, flush=True)


if __name__ == '__main__':
    main()
