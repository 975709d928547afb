#!/usr/bin/python3
"""Saves versions of a configuration in one of four ways, and acknowledges each."""

import os
import sys

way = sys.argv[1]
for version in sys.argv[2:]:
    data = f'{version}\n'.encode() * 2505
    name = 'config' if way == 'place' else 'config.new'
    file = os.open(name, os.O_WRONLY | os.O_CREAT | os.O_TRUNC, 0o644)
    os.write(file, data)
    if way != 'rename':
        os.fsync(file)
    os.close(file)
    if way != 'place':
        os.rename(name, 'config')
    if way == 'durable':
        directory = os.open('.', os.O_RDONLY)
        os.fsync(directory)
        os.close(directory)
    print('version', version, flush=True)
