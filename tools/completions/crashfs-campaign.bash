# Completion for bash of crashfs-campaign. Made by tools/inventories. Install it where the shell looks for completions.
_crashfs_campaign() {
    local current=${COMP_WORDS[COMP_CWORD]} previous=${COMP_WORDS[COMP_CWORD - 1]} words= word
    COMPREPLY=()
    for word in "${COMP_WORDS[@]:1:COMP_CWORD-1}"; do
        # COMMAND, and its arguments.
        [[ $word == -- ]] && return
    done
    case $previous in
        --seeds | --time-limit | --start | --record | --check | --html) return ;;
        *)
            [[ $current == -* ]] && words='
                -h --help --version --seeds --time-limit --start --record --check --html'
            ;;
    esac
    mapfile -t COMPREPLY < <(compgen -W "$words" -- "$current")
}
complete -o default -F _crashfs_campaign crashfs-campaign
