# Completion for bash of crashfs. Made by tools/inventories. Install it where the shell looks for completions.
_crashfs() {
    local current=${COMP_WORDS[COMP_CWORD]} previous=${COMP_WORDS[COMP_CWORD - 1]} words=
    COMPREPLY=()
    case $previous in
        --profile) words='blocks ordered journal' ;;
        --client) words='plan9 linux' ;;
        --picks | --trace | --state | --states | --sample | --seed | --most | --users | --listen \
        | --workers | --connections) return ;;
        *)
            if ((COMP_CWORD == 1)); then
                words='list tar picks script serve help -h --help -V --version'
            elif [[ ${COMP_WORDS[1]} == help ]]; then
                words='list tar picks script serve'
            elif [[ $current == -* ]]; then
                case ${COMP_WORDS[1]} in
                    list)
                        words='
                            -h --help --lines --same --json --lost --files --holes --picks
                            --trace' ;;
                    tar)
                        words='
                            -h --help --changes --sparse --state --states --holes --picks
                            --trace' ;;
                    picks)
                        words='
                            -h --help --lost --files --sample --seed --every --different --count
                            --profile --most --trace' ;;
                    script)
                        words='
                            -h --help --verbose --users --holes --picks --trace' ;;
                    serve)
                        words='
                            -h --help --again --until-killed --ready --reload --verbose --client
                            --users --listen --workers --connections --holes --picks --trace' ;;
                esac
            fi
            ;;
    esac
    mapfile -t COMPREPLY < <(compgen -W "$words" -- "$current")
}
complete -o default -F _crashfs crashfs
