#!/bin/sh
# Each acknowledged mail must be in new, and each mail in new must be whole.
fail() { echo "$1"; exit 1; }
while read -r _ number; do
    grep -qs "^Subject: $number\$" new/* || fail 'lost: an acknowledged mail is missing'
done
for mail in new/*; do
    [ -e "$mail" ] || continue
    number=$(sed -n 's/^Subject: //p' "$mail" 2>/dev/null)
    [ "$(tail -n 1 "$mail" | tr -d '\0')" = "The text of mail $number." ] ||
        fail 'corrupt: a mail in new is not whole'
    [ "$number" -le $((CRASHFS_SAYS + 1)) ] || fail 'invented: a mail that was not delivered yet'
done
