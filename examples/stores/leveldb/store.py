#!/usr/bin/python3
"""Stores pairs of words by LevelDB, each with a sync, and acknowledges each; or prints all."""

import sys

import plyvel

database = plyvel.DB('db', create_if_missing=True)
if sys.argv[1:] == ['all']:
    for key, value in database:
        print(key.decode(), value.decode())
else:
    for key, value in zip(sys.argv[1::2], sys.argv[2::2]):
        database.put(key.encode(), value.encode(), sync=True)
        print(key, value, flush=True)
database.close()
