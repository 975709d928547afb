#!/usr/bin/python3
"""Stores pairs of words by LMDB, each in a transaction, and acknowledges each; or prints all. With
-w first the data is written through a mapping."""

import sys

import lmdb

words = sys.argv[1:]
is_mapped = words[:1] == ['-w']
environment = lmdb.open('.', map_size=1 << 20, writemap=is_mapped)
if words == ['all']:
    with environment.begin() as transaction:
        for key, value in transaction.cursor():
            print(key.decode(), value.decode())
else:
    pairs = words[1:] if is_mapped else words
    for key, value in zip(pairs[::2], pairs[1::2]):
        with environment.begin(write=True) as transaction:
            transaction.put(key.encode(), value.encode())
        print(key, value, flush=True)
environment.close()
