#!/bin/sh
# Stores pairs of words in a Redis server that keeps its files in the current directory, and
# acknowledges each.
session=$1
shift
socket=$(mktemp -u)
case $session in
rdb) append=no ;;
*) append=yes ;;
esac
redis-server --port 0 --unixsocket "$socket" --dir . --appendonly $append --appendfsync always \
    --save '' --auto-aof-rewrite-percentage 0 >/dev/null 2>&1 &
server=$!
ask() { redis-cli -s "$socket" "$@" 2>/dev/null; }
until [ "$(ask ping)" = PONG ]; do sleep 0.05; done
while [ $# -gt 0 ]; do
    [ "$(ask set "$1" "$2")" = OK ] || exit
    [ "$session" != rdb ] || [ "$(ask save)" = OK ] || exit
    echo "$1 $2"
    if [ "$session $1" = 'rewrite two' ]; then
        ask bgrewriteaof >/dev/null
        until ask info persistence | grep -q 'aof_rewrite_in_progress:0'; do sleep 0.05; done
    fi
    shift 2
done
kill -KILL $server
