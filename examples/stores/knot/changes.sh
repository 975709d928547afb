#!/bin/sh
# changes.sh SESSION make NAME..: adds a record to the zone for each name by Knot, whose files are
# here, and acknowledges it. changes.sh SESSION all: prints the names of all records.
session=$1 what=$2
shift 2
run=$(mktemp -d)
case $session in
journal) sync=-1 load=none content=all ;;
*) sync=0 load=whole content=changes ;;
esac
cat >"$run/conf" <<END
server:
    rundir: $run
    listen: $run/dns
    user: $(id -un):$(id -gn)
database:
    storage: $PWD
log:
  - target: stderr
    any: error
zone:
  - domain: example
    storage: $PWD
    file: zone
    zonefile-sync: $sync
    zonefile-load: $load
    journal-content: $content
END
sed -i '/^ *listen:/d' "$run/conf"
if [ $what = make ] && [ ! -e zone ]; then
    printf 'example. 60 SOA a. b. 1 60 60 60 60\nexample. 60 NS a.\n' >zone
    [ $session = zonefile ] || sed -i 's/zonefile-load: none/zonefile-load: whole/' "$run/conf"
fi
knotd -c "$run/conf" >"$run/log" 2>&1 &
server=$!
end() { kill -KILL $server 2>/dev/null; wait $server 2>/dev/null; rm -rf "$run"; }
trap end EXIT
control() { knotc -c "$run/conf" -s "$run/knot.sock" -b "$@" 2>&1; }
until control status >/dev/null; do
    kill -0 $server 2>/dev/null || { tail -n 1 "$run/log"; exit 1; }
    sleep 0.02
done
if [ $what = all ]; then
    printed=$(control zone-read example) || { echo "$printed" | tail -n 1; exit 1; }
    printf '%s\n' "$printed" | sed -n 's/.* \([a-z]*\)\.example\. .* TXT .*/\1/p'
    exit
fi
for name in "$@"; do
    control zone-begin example >/dev/null &&
        control zone-set example "$name" 60 TXT "$name" >/dev/null &&
        control zone-commit example >/dev/null || exit
    echo "$name"
done
