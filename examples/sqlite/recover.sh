#!/bin/sh
# The table must have the acknowledged rows, in order. It may have the next row of the session too.
newline='
'
set -- Bern Oslo Quito Rome
acknowledged=ok
while read -r row _; do
    acknowledged="$acknowledged$newline'$row'"
    shift
done
with_next=$acknowledged${1:+"$newline'$1'"}
query='PRAGMA integrity_check(1); SELECT quote(name) FROM city ORDER BY rowid'
found=$(sqlite3 test.db "$query" 2>&1)
case $found in
    "$acknowledged" | "$with_next") exit 0 ;;
    "$acknowledged"*) echo "wrong: a row that was not stored is there" ;;
    ok*) echo "lost: an acknowledged row is missing" ;;
    *) echo "corrupt: $found" | head -n 1 ;;
esac
exit 1
