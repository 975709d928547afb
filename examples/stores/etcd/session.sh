#!/bin/sh
# session.sh WORD..: stores pairs of words in an etcd server that keeps its files in the directory
# `data` here, and acknowledges each. session.sh all: prints all. The sockets are elsewhere.
export ETCDCTL_API=3
data=$PWD/data run=$(mktemp -d)
trap 'kill -KILL $server; rm -rf "$run"' EXIT
cd "$run" || exit
client=unix://client:1 peer=unix://peer:1
etcd --data-dir "$data" --listen-client-urls $client --advertise-client-urls $client \
    --listen-peer-urls $peer --initial-advertise-peer-urls $peer \
    --initial-cluster default=$peer --heartbeat-interval 20 --election-timeout 100 >log 2>&1 &
server=$!
ask() { etcdctl --endpoints $client --command-timeout 30s "$@" 2>faults; }
until [ -S client:1 ]; do
    kill -0 $server 2>/dev/null || { sed -E 's/^[^|]*\| *//' log | tail -n 1; exit 1; }
    sleep 0.05
done
[ "$1" != all ] || { ask get '' --from-key | paste -d ' ' - -; exit; }
while [ $# -gt 0 ]; do
    ask put "$1" "$2" >/dev/null || { tail -n 1 faults; exit 1; }
    echo "$1 $2"
    shift 2
done
