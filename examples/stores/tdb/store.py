#!/usr/bin/python3
"""Stores pairs of words by TDB, each in a transaction, and acknowledges each; or prints all. The
first word says how the file is opened: mapped, plain (without a mapping) or all."""

import os
import sys

import tdb

words = sys.argv[1:]
flags = tdb.DEFAULT if words[0] == 'mapped' else tdb.NOMMAP
database = tdb.Tdb('rows.tdb', 0, flags, os.O_RDWR | os.O_CREAT, 0o644)
if words == ['all']:
    for key in database:
        print(key.decode(), database.get(key).decode())
else:
    for key, value in zip(words[1::2], words[2::2]):
        database.transaction_start()
        database.store(key.encode(), value.encode())
        database.transaction_commit()
        print(key, value, flush=True)
database.close()
