#!/bin/sh
# The configuration must be whole: the version that was acknowledged last, or the next one.
fail() { echo "$1"; exit 1; }
for version in "$CRASHFS_SAYS" $((CRASHFS_SAYS + 1)); do
    yes "$version" | head -n 2505 | cmp -s - config && exit 0
done
[ -e config ] || fail 'lost: the configuration is missing'
older=$(head -n 1 config)
yes "$older" | head -n 2505 | cmp -s - config && [ -s config ] && fail 'lost: an older version'
fail 'torn: the configuration is not whole'
