#!/usr/bin/env python3
"""Whether the store recovers what it must, in a crash state: check.py STORE BEFORE KEY=VALUE..

BEFORE is how many of these puts the store had before it was recorded.
"""
import os
import subprocess
import sys

store, before, *words = sys.argv[1:]
puts = [word for word in words if word != 'compact']
acknowledged = int(before) + int(os.environ['CRASHFS_SAYS'])


def rows_after(count):
    return dict(word.split('=') for word in puts[:count])


ran = subprocess.run([store], stdin=subprocess.DEVNULL, stdout=subprocess.PIPE, text=True)
if ran.returncode != 0:
    sys.exit('refused: the store does not open')
lines = ran.stdout.splitlines()
found = dict(line.split('=') for line in lines)
if len(lines) > len(found):
    sys.exit('wrong: a key has two rows')
if found in (rows_after(acknowledged), rows_after(acknowledged + 1)):
    sys.exit(0)
if any(key not in found for key in rows_after(acknowledged)):
    sys.exit('lost: an acknowledged row is not there')
sys.exit('wrong: neither the acknowledged rows nor those and the next')
