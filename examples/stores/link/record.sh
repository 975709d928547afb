#!/bin/sh
# A link "current" is switched from one directory to another, by a new link and a rename.
. "$(dirname "$0")/../recording.sh"
mkdir one two
ln -s one current
record . "$out" -- sh -c 'ln -s two new && mv -T new current && echo "current is two"'
