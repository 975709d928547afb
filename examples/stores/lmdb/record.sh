#!/bin/sh
# Three transactions, in an environment that is there or (new) is made; writemap stores through a
# mapping.
. "$(dirname "$0")/../recording.sh"
[ "$session" = new ] || "$here/store.py" zero 0 >/dev/null
case $session in
writemap) record --mapped --ignore lock.mdb . "$out" -- "$here/store.py" -w one 1 two 2 three 3 ;;
*) record --ignore lock.mdb . "$out" -- "$here/store.py" one 1 two 2 three 3 ;;
esac
