#!/bin/sh
start= rows='one
two
three'
. "${0%/*}/../rows.sh"
recover "$here/session.py" all
