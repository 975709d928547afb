#!/bin/sh
. "${0%/*}/../rows.sh"
recover "$here/store" all
