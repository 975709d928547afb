# Completion for bash of crashfs-record. Made by tools/inventories. Install it where the shell looks for completions.
_crashfs_record() {
    local current=${COMP_WORDS[COMP_CWORD]} previous=${COMP_WORDS[COMP_CWORD - 1]} words= word
    COMPREPLY=()
    for word in "${COMP_WORDS[@]:1:COMP_CWORD-1}"; do
        # COMMAND, and its arguments.
        [[ $word == -- ]] && return
    done
    case $previous in
        --say-each) words='line write' ;;
        --profile) words='blocks ordered journal' ;;
        --block) words='512 1024 2048 4096' ;;
        --trace-version) words='auto 3 4' ;;
        --ignore | --say-fd | --begin-after | --crashfs | --keep-log | --from-log | --log-dir) return ;;
        *)
            [[ $current == -* ]] && words='
                -h --help --version --mapped --ignore --say-fd --say-each --no-say --stacks
                --begin-after --profile --block --trace-version --crashfs --keep-log --from-log
                --log-dir'
            ;;
    esac
    mapfile -t COMPREPLY < <(compgen -W "$words" -- "$current")
}
complete -o default -F _crashfs_record crashfs-record
