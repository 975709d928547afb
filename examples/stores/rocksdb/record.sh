#!/bin/sh
# In a store that is there, by `ldb`: three puts with a synced log, a process each (puts); or a
# checkpoint, whose directory is renamed at its end (checkpoint).
. "$(dirname "$0")/../recording.sh"
ldb --db=db --create_if_missing put zero 0 >/dev/null
case $session in
puts) what='for row in "one 1" "two 2" "three 3"; do ldb --db=db put $row >/dev/null && echo "$row"; done' ;;
checkpoint) what='ldb --db=db checkpoint --checkpoint_dir=copy >/dev/null && echo "zero 0"' ;;
esac
record --ignore 'LOG*' . "$out" -- sh -c "$what"
