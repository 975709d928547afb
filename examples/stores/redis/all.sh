#!/bin/sh
# Prints all rows of the files in the current directory, by a server that recovers them.
socket=$PWD/s
case $1 in
rdb) append=no ;;
*) append=yes ;;
esac
redis-server --port 0 --unixsocket "$socket" --dir . --appendonly $append --save '' >log 2>&1 &
server=$!
ask() { redis-cli -s "$socket" "$@" 2>/dev/null; }
until [ "$(ask ping)" = PONG ]; do
    kill -0 $server 2>/dev/null || { sed -n 's/.*# *//p' log | tail -n 1; exit 1; }
    sleep 0.02
done
ask keys '*' | while read -r key; do
    [ -z "$key" ] || echo "$key $(ask get "$key")"
done
kill -KILL $server
