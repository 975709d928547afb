#!/usr/bin/env python3
"""Checks a store that several clients write at once: clients.py CLIENTS STORE [ARG]..

CLIENTS are letters, such as `ab`. Client a stores the rows a1, a2, a3 .., and waits for each to be
acknowledged by a line such as `a1 is stored`. The store prints its rows."""

import subprocess
import sys

clients, store = sys.argv[1], sys.argv[2:]
acknowledged = [line.split()[0] for line in sys.stdin]
ran = subprocess.run(store, stdin=subprocess.DEVNULL, stdout=subprocess.PIPE, text=True)
if ran.returncode != 0:
    sys.exit('refused: the store does not open')
found = set(ran.stdout.split())


def rows_of(client, count):
    return {f'{client}{number}' for number in range(1, count + 1)}


for client in clients:
    count = sum(row.startswith(client) for row in acknowledged)
    mine = {row for row in found if row.startswith(client)}
    if rows_of(client, count) - mine:
        sys.exit('lost: an acknowledged row is not there')
    if mine - rows_of(client, count + 1):
        sys.exit('wrong: a row that its client had not begun to store is there')
if any(row[0] not in clients for row in found):
    sys.exit('wrong: a row of no client is there')
