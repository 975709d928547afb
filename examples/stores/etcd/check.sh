#!/bin/sh
. "${0%/*}/../rows.sh"
recover "$here/session.sh" all
