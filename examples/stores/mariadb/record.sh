#!/bin/sh
# Three transactions, in a server of which one has made the table; InnoDB's log has its default size.
. "$(dirname "$0")/../recording.sh"
mariadb-install-db --no-defaults --user="$(id -un)" --datadir=. --skip-test-db \
    --auth-root-authentication-method=normal >/dev/null 2>&1
mkdir test
"$here/session.sh" zero 0 >/dev/null
record --ignore '*.pid' . "$out" -- "$here/session.sh" one 1 two 2 three 3
