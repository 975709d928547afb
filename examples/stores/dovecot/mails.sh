#!/bin/sh
# mails.sh save WORD..: saves a mail for each word by Dovecot, into the sdbox here, and acknowledges
# it. mails.sh all: prints the words of all mails, from a copy of the sdbox; for root as nobody.
what=$1
shift
run=$(mktemp -d)
trap 'rm -rf "$run"' EXIT
box=$PWD user=$(id -un) group=$(id -gn)
if [ "$what" = all ]; then
    box=$run/box
    cp -a . "$box"
fi
if [ "$user" = root ]; then
    user=nobody group=nogroup
    chmod 755 "$run"
    chown -R nobody:nogroup "$box"
fi
cat >"$run/conf" <<END
mail_location = sdbox:$box
mail_fsync = always
mail_uid = $user
mail_gid = $group
first_valid_uid = 1
first_valid_gid = 1
base_dir = $run
stats_writer_socket_path =
ssl = no
END
admin() { HOME=$box USER=$user doveadm -c "$run/conf" "$@"; }
if [ "$what" = all ]; then
    admin fetch hdr.subject mailbox INBOX all >"$run/found" 2>"$run/faults"
    status=$?
    sed -n 's/^hdr.subject: //p' "$run/found"
    sed -n "s|$run||g; s/.*Error: //p" "$run/faults" | tail -n 1
    exit $status
fi
for word in "$@"; do
    printf 'Subject: %s\n\nThe text of %s.\n' "$word" "$word" | admin save -m INBOX || exit
    echo "$word"
done
