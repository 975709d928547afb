#!/bin/sh
start=zero rows='one
two
three'
. "${0%/*}/../rows.sh"
recover "$here/changes.sh" "$1" all
