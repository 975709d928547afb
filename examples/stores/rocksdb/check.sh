#!/bin/sh
# A checkpoint that was acknowledged must have the row, and the store too.
store=db
[ "$1" != checkpoint ] || rows=
. "${0%/*}/../rows.sh"
all() {
    printed=$(ldb --db=$store scan 2>&1) || { printf '%s\n' "$printed" | tail -n 1; return 1; }
    printf '%s\n' "$printed" | sed 's/ : / /'
}
[ "$1 $CRASHFS_SAYS" != 'checkpoint 1' ] || (store=copy && recover all) || exit
recover all
