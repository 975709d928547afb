#!/bin/sh
# A commit in a repository that has one, as Git is by default or with core.fsync=all (all); or a clone
# of that repository (clone).
. "$(dirname "$0")/../recording.sh"
export GIT_CONFIG_GLOBAL=/dev/null GIT_AUTHOR_DATE='1700000000 +0000' \
    GIT_COMMITTER_DATE='1700000000 +0000' GIT_AUTHOR_NAME=me GIT_AUTHOR_EMAIL=me@example.com \
    GIT_COMMITTER_NAME=me GIT_COMMITTER_EMAIL=me@example.com
[ "$session" != clone ] || { mkdir ../origin && cd ../origin; }
git init -q --template= -b main .
git config gc.auto 0
[ "$session" != all ] || git config core.fsync all
echo zero >file
git add file
git commit -q -m zero
if [ "$session" = clone ]; then
    cd "$work/store" || exit
    record . "$out" -- sh -c \
        "git clone -q --template= 'file://$work/origin' clone && echo 'the clone is made'"
    exit
fi
record --ignore /file . "$out" -- sh -c \
    'echo one >file && git add file && git commit -q -m one && echo "one is committed"'
