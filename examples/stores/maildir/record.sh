#!/bin/sh
# Three mails are delivered into a maildir: by maildrop or by procmail.
. "$(dirname "$0")/../recording.sh"
mkdir -p new cur tmp
record . "$out" -- "$here/deliver.sh" "$session" "$work"
