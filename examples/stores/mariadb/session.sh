#!/bin/sh
# session.sh WORD..: stores pairs of words by a MariaDB server that keeps its files in the current
# directory, each in a transaction, and acknowledges each. session.sh all: prints all.
run=$(mktemp -d)
trap 'kill -KILL $server; rm -rf "$run"' EXIT
mariadbd --no-defaults --user="$(id -un)" --datadir=. --socket="$run/s" --skip-networking \
    --pid-file="$run/pid" --innodb-use-native-aio=0 --log-error="$run/log" 2>/dev/null &
server=$!
ask() { mariadb --no-defaults --socket="$run/s" -N -B -e "$1" 2>"$run/faults"; }
until ask 'SELECT 1' >/dev/null; do
    kill -0 $server 2>/dev/null || { grep ERROR "$run/log" | sed 's/.*\[ERROR\] *//' | head -n 1; exit 1; }
    sleep 0.05
done
[ "$1" != all ] || { ask 'SELECT CONCAT(name, " ", value) FROM test.rows' || tail -n 1 "$run/faults"; exit; }
ask 'CREATE TABLE IF NOT EXISTS test.rows (name VARCHAR(9), value VARCHAR(9)) ENGINE=InnoDB'
while [ $# -gt 0 ]; do
    ask "INSERT INTO test.rows VALUES ('$1', '$2')" || { cat "$run/faults"; exit 1; }
    echo "$1 $2"
    shift 2
done
