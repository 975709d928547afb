#!/bin/sh
# Three jobs, in a binlog that is synced always (-f 0). Its file of 4 kB is full after two of them.
. "$(dirname "$0")/../recording.sh"
record . "$out" -- "$here/session.py" one two three
