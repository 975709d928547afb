#!/bin/sh
start=zero rows='one
two
three'
. "${0%/*}/../rows.sh"
recover "$here/mails.sh" all
