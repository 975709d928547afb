#!/usr/bin/env python3
"""Saves a configuration three times: beside the old file, synced, and moved over it."""
import os

for version in (1, 2, 3):
    with open('config.new', 'w', encoding='ascii') as file:
        file.write(f'version={version}\n')
        file.flush()
        os.fsync(file.fileno())
    os.rename('config.new', 'config')
    print(f'version {version} is saved', flush=True)
