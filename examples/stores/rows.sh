# For check.sh of stores that keep rows: `recover` runs a command that prints the rows that it finds.
# These must be the row that was there before (not in the session `new`, which makes the store), each
# acknowledged row, and at most the next one of the session.
: "${start=zero 0}"
[ "$1" != new ] || start=
here=${0%/*}
: "${rows=one 1
two 2
three 3}"

fail() {
    echo "$1"
    exit 1
}

# fail_as LINE: the cause is the last line that a command printed.
fail_as() {
    case $1 in
    half:* | corrupt:*) fail "$1" ;;
    *) fail "corrupt: $1" ;;
    esac
}

# has ROWS ROW: whether a row is among others.
has() {
    case "
$1
" in *"
$2
"*) ;; *) return 1 ;; esac
}

# each ROWS COMMAND..: calls a command with each row.
each() {
    list=$1
    shift
    while IFS= read -r row; do
        "$@" "$row"
    done <<EOF
$list
EOF
}

is_found() {
    [ -z "$1" ] || has "$found" "$1" || fail 'lost: an acknowledged row is missing'
}

is_stored() {
    has "$allowed" "$1" || fail 'invented: a row is there that was not stored by then'
}

# recover COMMAND..: checks the rows that the command prints. If it fails, the store is corrupt, or has
# a transaction in part.
recover() {
    found=$("$@" 2>&1) || fail_as "$(printf '%s\n' "$found" | tail -n 1)"
    compare "$found"
}

# compare ROWS: checks the rows that were found.
compare() {
    found=$1
    allowed=$start left=$((CRASHFS_SAYS + 1))
    each "$rows" allow
    each "$start" is_found
    while IFS= read -r row; do
        is_found "$row"
    done
    [ -z "$found" ] || each "$found" is_stored
    exit 0
}

# allow ROW: one of the first rows of the session, as many as may be there.
allow() {
    [ $left = 0 ] || allowed="$allowed
$1" left=$((left - 1))
}
