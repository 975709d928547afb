# Completion for bash of crashfs-check. Made by tools/inventories. Install it where the shell looks for completions.
_crashfs_check() {
    local current=${COMP_WORDS[COMP_CWORD]} previous=${COMP_WORDS[COMP_CWORD - 1]} words= word
    COMPREPLY=()
    for word in "${COMP_WORDS[@]:1:COMP_CWORD-1}"; do
        # COMMAND, and its arguments.
        [[ $word == -- ]] && return
    done
    case $previous in
        --jobs | --shard | --every | --in | --nested | --state | --time-limit | --resume | \
        --accept | --cache | --json | --junit | --tap | --html | --timeout | --crashfs | --serve \
        | --uname | --disks | --merge) return ;;
        *)
            [[ $current == -* ]] && words='
                -h --help --version --jobs --shard --every --families --prefixes --quick --in
                --lost --files --nested --state --fail-fast --time-limit --resume --accept
                --cache --json --junit --tap --html --timeout --crashfs --unproved --serve
                --uname --disks --merge'
            ;;
    esac
    mapfile -t COMPREPLY < <(compgen -W "$words" -- "$current")
}
complete -o default -F _crashfs_check crashfs-check
