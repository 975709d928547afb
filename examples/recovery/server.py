#!/usr/bin/env python3
"""Starts a server in a crash state, and asks it for the rows: server.py SERVER [ARG]..

The server takes its port as the last argument. Its answer to `get KEY` is a line with the value,
and to `count` one with the number of rows. A line `a=1 is stored` acknowledges a row."""

import os
import socket
import subprocess
import sys
import time

acknowledged = dict(line.split()[0].split('=') for line in sys.stdin)
port = 20000 + int(os.environ['CRASHFS_STATE'].replace('/', '')) % 10000
server = subprocess.Popen([*sys.argv[1:], str(port)], stdin=subprocess.DEVNULL)


def connected():
    while True:
        try:
            return socket.create_connection(('127.0.0.1', port))
        except OSError:
            if server.poll() is not None:
                sys.exit('refused: the server does not start')
            time.sleep(0.01)


with connected() as connection, connection.makefile('rw') as stream:

    def answer(request):
        print(request, file=stream, flush=True)
        return stream.readline().rstrip('\n')

    for key, value in acknowledged.items():
        if answer(f'get {key}') != value:
            sys.exit('lost: an acknowledged row is not there')
    if int(answer('count')) > len(acknowledged) + 1:
        sys.exit('wrong: more than one row that was not acknowledged is there')
