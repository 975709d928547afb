#!/bin/sh
# The repository must be whole, and its branch have the commit if it was acknowledged. A clone must
# be whole if it was acknowledged.
fail() { echo "$1"; exit 1; }
export GIT_CONFIG_GLOBAL=/dev/null
says=$CRASHFS_SAYS
if [ "$1" = clone ]; then
    [ "$says" = 1 ] || exit 0
    cd clone 2>/dev/null || fail 'lost: there is no clone'
    says=0
fi
printed=$(git -c core.fsyncMethod=writeout-only fsck --strict --full --no-progress --no-dangling 2>&1) ||
    fail "corrupt: $(printf '%s\n' "$printed" | sed -E 's/[0-9a-f]{40}/ID/g' | tail -n 1)"
case "$says $(git log --format=%s main 2>/dev/null | tr '\n' ' ')" in
'0 zero ' | '0 one zero ' | '1 one zero ') ;;
'1 zero ') fail 'lost: the commit is missing' ;;
*) fail 'lost: the branch is gone' ;;
esac
printed=$(git status --short 2>&1) || fail 'corrupt: git status fails'
[ "$1" != clone ] || [ -z "$printed" ] || fail 'lost: a file of the clone is not whole'
