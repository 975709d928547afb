#!/bin/sh
. "${0%/*}/../rows.sh"
recover "$here/all.sh" "$1"
