#!/bin/sh
# The file must have the version that was acknowledged last, or the next one, and nothing else.
bad() { echo "$1"; exit 1; }
version=$(sed -n 's/^version=\([0-9][0-9]*\)$/\1/p' config)
[ "$version" ] && [ "$(cat config)" = "version=$version" ] || bad "corrupt: the file has no version"
[ "$version" -ge "$CRASHFS_SAYS" ] || bad "lost: a version that was saved is not there"
[ "$version" -le $((CRASHFS_SAYS + 1)) ] || bad "wrong: a version that was not saved is there"
