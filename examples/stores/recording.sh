# For record.sh of stores: SESSION OUT.trace are its arguments. It has `here`, its own folder, and
# an empty folder `work` that is removed at the end; `record` records a command in `work/store`.
here=$(dirname "$(realpath "$0")")
session=$1
out=$(realpath "$2")
tools=$here/../../../tools
work=$(mktemp -d)
trap 'rm -rf "$work"' EXIT
mkdir "$work/store"
cd "$work/store" || exit

# record [OPTION].. -- COMMAND..: in version 4, which has all profiles. Status 4 is no fault.
record() {
    "$tools/crashfs-record" --trace-version 4 "$@" || [ $? = 4 ]
}
