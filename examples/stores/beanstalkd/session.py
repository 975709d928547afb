#!/usr/bin/python3
"""Puts jobs into a beanstalkd whose binlog is in the current directory, and acknowledges each; or
prints all jobs that it hands out (all)."""

import os
import socket
import subprocess
import sys
import time

SIZE = 1500
name = f'/tmp/beanstalkd-{os.getpid()}'
words = ['beanstalkd', '-b', '.', '-f', '0', '-s', '4096', '-l', f'unix:{name}']
server = subprocess.Popen(words, stdout=subprocess.DEVNULL, stderr=subprocess.DEVNULL)


def connected() -> socket.socket:
    while server.poll() is None:
        made = socket.socket(socket.AF_UNIX)
        try:
            made.connect(name)
            return made
        except OSError:
            time.sleep(0.01)
    print('beanstalkd does not start')
    sys.exit(1)


try:
    client = connected()
    stream = client.makefile('rwb')
    if sys.argv[1:] == ['all']:
        while True:
            stream.write(b'reserve-with-timeout 0\r\n')
            stream.flush()
            answer = stream.readline().split()
            if answer[0] != b'RESERVED':
                break
            body = stream.read(int(answer[2]) + 2)[:-2]
            word = body[: body.find(b' ')].decode('latin-1')
            if body != word.encode('latin-1').ljust(SIZE):
                print('corrupt: a job has not the bytes that were put')
                sys.exit(1)
            print(word)
    else:
        for word in sys.argv[1:]:
            stream.write(b'put 0 0 60 %d\r\n%s\r\n' % (SIZE, word.encode().ljust(SIZE)))
            stream.flush()
            assert stream.readline().startswith(b'INSERTED')
            print(word, flush=True)
finally:
    server.kill()
    server.wait()
    if os.path.exists(name):
        os.unlink(name)
