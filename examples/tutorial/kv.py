#!/usr/bin/env python3
"""A toy store: a log of records, each with its checksum.

kv.py KEY=VALUE..   stores each, and prints a line when it is stored; `compact` rewrites the log
kv.py               recovers, and prints the rows
"""
import os
import sys
import zlib

LOG, NEW = 'data.log', 'data.new'


def sync(path):
    """Makes the content of a file durable, or the names in a directory."""
    descriptor = os.open(path, os.O_RDONLY)
    os.fsync(descriptor)
    os.close(descriptor)


def record(key, value):
    row = f'{key}={value}'
    return f'{zlib.crc32(row.encode()):08x} {row}\n'.encode()


def recover():
    """The rows of the log. A torn record at its end was never acknowledged, and is cut off."""
    rows, good = {}, 0
    with open(LOG, 'ab+') as log:
        log.seek(0)
        for line in log:
            key, _, value = line[9:-1].decode(errors='replace').partition('=')
            if line != record(key, value):
                break
            rows[key] = value
            good += len(line)
        if good < os.path.getsize(LOG):
            log.truncate(good)
    sync('.')
    return rows


def put(key, value):
    with open(LOG, 'ab') as log:
        log.write(record(key, value))
    sync(LOG)


def compact(rows):
    """Writes the rows to a new log, and moves it over the old one."""
    with open(NEW, 'wb') as log:
        log.writelines(record(key, value) for key, value in rows.items())
    sync(NEW)
    os.rename(NEW, LOG)


def main(words):
    rows = recover()
    for word in words:
        key, _, value = word.partition('=')
        if word == 'compact':
            compact(rows)
        else:
            put(key, value)
            rows[key] = value
            print(f'{word} is stored', flush=True)
    if not words:
        for key, value in rows.items():
            print(f'{key}={value}')


if __name__ == '__main__':
    main(sys.argv[1:])
