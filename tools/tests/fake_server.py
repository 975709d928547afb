#!/usr/bin/env -S python3 -S
"""A server for the tests of `measure`: `serve .. --listen ADDR ..`, or `ADDR CONNECTIONS KEEPING`.

It answers each message but the first by its type alone, refuses writes behind the first ten, and
keeps 16 MB for each connection.
"""

import socketserver
import struct
import sys

# None for `.. ADDR CONNECTIONS full`.
WRITES = 0 if sys.argv[-1] == 'full' else 10
KEPT = 1 << 24
TVERSION, TWRITE, RERROR = 100, 118, 107
# What it answers for 9P2000: another one for `.. ADDR CONNECTIONS unknown`.
VERSION = b'\x07\x00unknown' if sys.argv[-1] == 'unknown' else b'\x06\x009P2000'


class Connection(socketserver.StreamRequestHandler):
    written = 0

    def handle(self):
        self.kept = KEPT * b'x'
        while True:
            head = self.rfile.read(7)
            if len(head) < 7:
                return
            size, kind, tag = struct.unpack('<IBH', head)
            asked = self.rfile.read(size - 7)
            if kind == TWRITE:
                self.written += 1
            refused = kind == TWRITE and self.written > WRITES
            fields = struct.pack('<H', 2) + b'no' if refused else b''
            if kind == TVERSION:
                fields = asked.replace(b'\x06\x009P2000', VERSION)
            reply = RERROR if refused else kind + 1
            self.wfile.write(struct.pack('<IBH', 7 + len(fields), reply, tag) + fields)


class Server(socketserver.ThreadingTCPServer):
    allow_reuse_address = True
    daemon_threads = True
    request_queue_size = 64


def main(words):
    address = words[words.index('--listen') + 1] if words[0] == 'serve' else words[0]
    host, port = address.rsplit(':', 1)
    with Server((host, int(port)), Connection) as server:
        print(f'listening {address}', flush=True)
        server.serve_forever()


if __name__ == '__main__':
    main(sys.argv[1:])
