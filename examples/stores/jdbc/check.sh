#!/bin/sh
. "${0%/*}/../rows.sh"
recover "$here/store.sh" "$1" all
