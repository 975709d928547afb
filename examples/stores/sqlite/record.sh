#!/bin/sh
# Four rows, each a transaction, in a database that has its table.
. "$(dirname "$0")/../recording.sh"
case $session in
wal-*) sqlite3 test.db 'PRAGMA journal_mode=WAL' >/dev/null ;;
esac
sqlite3 test.db 'CREATE TABLE city (name TEXT)'
record --ignore '*-shm' . "$out" -- sqlite3 \
    -cmd "PRAGMA synchronous=${session#wal-}" test.db ".read $here/../../sqlite/session.sql"
