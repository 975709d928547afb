#!/usr/bin/env python3
"""Checks a queue that delivers each item at least once: queue.py ITEMS QUEUE [ARG]..

ITEMS are the items of the session, in order, such as `a b c`. The queue prints the items that it
would deliver. Lines `queued a` and `done a` acknowledge that an item is in the queue, and that it
was dealt with."""

import subprocess
import sys

items, queue = sys.argv[1].split(), sys.argv[2:]
lines = [line.split() for line in sys.stdin]
queued = [item for word, item in lines if word == 'queued']
done = {item for word, item in lines if word == 'done'}
ran = subprocess.run(queue, stdin=subprocess.DEVNULL, stdout=subprocess.PIPE, text=True)
if ran.returncode != 0:
    sys.exit('refused: the queue does not open')
found = set(ran.stdout.split())
if set(queued) - done - found:
    sys.exit('lost: an item that was queued and not done is not there')
if found - set(items[: len(queued) + 1]):
    sys.exit('wrong: an item that was not queued yet is there')
