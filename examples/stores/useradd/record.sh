#!/bin/sh
# A user is added to files that have one (useradd -P).
. "$(dirname "$0")/../recording.sh"
mkdir etc
echo 'old:x:1000:1000::/:/bin/sh' >etc/passwd
echo 'old:*:19000:0:99999:7:::' >etc/shadow
echo 'old:x:1000:' >etc/group
echo 'old:!::' >etc/gshadow
cp /etc/login.defs etc
: >etc/subuid
: >etc/subgid
record . "$out" -- sh -c "useradd -P '$work/store' -M -N -g 1000 new 2>&1 >/dev/null && echo 'new is there'"
