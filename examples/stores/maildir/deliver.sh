#!/bin/sh
# deliver.sh maildrop|procmail FOLDER: three mails, into the maildir of the current directory.
echo "to ./" >"$2/filter"
chmod 600 "$2/filter"
for number in 1 2 3; do
    mail=$(printf 'From: me\nSubject: %s\n\nThe text of mail %s.' $number $number)
    case $1 in
    maildrop) printf '%s\n' "$mail" | HOME=$PWD maildrop "$2/filter" ;;
    procmail) printf '%s\n' "$mail" | procmail -p DEFAULT="$PWD/" MAILDIR="$PWD" /dev/null ;;
    esac || exit
    echo "mail $number"
done
