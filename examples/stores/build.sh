#!/bin/sh
# build.sh FOLDER: builds the program of a folder, if it has one that isn't built yet.
cd "$1" || exit
[ ! -e store ] && [ ! -e Store.class ] || exit 0
set -- store.c store.cc store.go Store.java
for source in "$@"; do
    [ -e "$source" ] || continue
    libraries=$(sed -n 's/.*Build: c[c+]* [^ ]* \(.*\) -o store.*/\1/p' "$source")
    case $source in
    *.c) cc -O1 -o store "$source" $libraries ;;
    *.cc) c++ -O1 -o store "$source" $libraries ;;
    *.java) javac -proc:none -cp '/usr/share/java/*' "$source" ;;
    *.go) GO111MODULE=off GOPATH=/usr/share/gocode go build -o store "$source" ;;
    esac
done
