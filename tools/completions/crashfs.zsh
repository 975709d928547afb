#compdef crashfs
# Made by tools/inventories. Install it where the shell looks for completions.
local -a commands
if ((CURRENT == 2)); then
    commands=(
        'list:Prints the micro-operations and the crash states'
        'tar:Writes the files of crash states as a tar archive'
        'picks:Prints sets of micro-operations as a file for --picks'
        'script:Runs the 9P2000 messages of standard input, one a line, and prints the replies'
        'serve:Serves the states over TCP, each connection in a thread of its own'
        'help:Prints the help of a command'
    )
    _describe command commands
else
    shift words
    ((CURRENT--))
    case $words[1] in
        list)
            _arguments \
                '(-h --help)'{-h,--help}'[Prints the help]' \
                '--lines[Adds each operation’s line of the trace, and the path of a file that changes]' \
                '--same[Adds to each state the first one that has an equal tree]' \
                '--json[Prints one JSON object a line, with lines, files, needs and equal states]' \
                '--lost[Adds the states of the sets that picks --lost prints, each once]' \
                '--files[Adds the states of the sets that picks --files prints, each once]' \
                '--holes[Adds the states of prefixes with a hole]' \
                '--picks[Adds the states of these sets, one JSON array of places a line]:FILE:_files' \
                '--trace[The same as TRACE]:FILE:_files' \
                '1:TRACE:_files' ;;
        tar)
            _arguments \
                '(-h --help)'{-h,--help}'[Prints the help]' \
                '--changes[Only what differs from the start tree\: new and changed files below N/, and a file N.missing of the paths that are gone, each with a NUL after it]' \
                '--sparse[Write files of at least 65,536 bytes, half of whose pages are zeros, without the zeros]' \
                '--state[The state of that number]:N:_files' \
                '--states[The states of a list, as 3,7-9, each below a directory of its number]:LIST:_files' \
                '--holes[Adds the states of prefixes with a hole]' \
                '--picks[Adds the states of these sets, one JSON array of places a line]:FILE:_files' \
                '--trace[The same as TRACE]:FILE:_files' \
                '1:TRACE:_files' ;;
        picks)
            _arguments \
                '(-h --help)'{-h,--help}'[Prints the help]' \
                '--lost[For each operation the smallest set that still has it]' \
                '--files[For each prefix and each file, the disk without its changes that no sync covers]' \
                '--sample[Sets that are drawn one after the other, 1 to 16384]:M:_files' \
                '--seed[The number by which they are drawn]:S:_files' \
                '--every[All sets that a crash may leave]' \
                '--different[Of these only the first of those that leave equal states]' \
                '--count[Only how many sets there are]' \
                '--profile[Of these only those that a file system of the profile may leave too]:PROFILE:(blocks ordered journal)' \
                '--most[The most sets that are printed, 1 to 16777216; default 1000000]:N:_files' \
                '--trace[The same as TRACE]:FILE:_files' \
                '1:TRACE:_files' ;;
        script)
            _arguments \
                '(-h --help)'{-h,--help}'[Prints the help]' \
                '--verbose[Prints each message and its reply as text on standard error]' \
                '--users[The users file, as users(6) has it]:FILE:_files' \
                '--holes[Adds the states of prefixes with a hole]' \
                '--picks[Adds the states of these sets, one JSON array of places a line]:FILE:_files' \
                '--trace[The same as TRACE]:FILE:_files' \
                '1:TRACE:_files' ;;
        serve)
            _arguments \
                '(-h --help)'{-h,--help}'[Prints the help]' \
                '--again[Accepts another connection when one ends, until standard input ends]' \
                '--until-killed[As --again, but until a signal ends it\: standard input isn’t read]' \
                '--ready[Makes all states before it listens]' \
                '--reload[Reads the users file again for each connection\: later runs have its users]' \
                '--verbose[Prints connections, messages with their replies, and attaches on standard error]' \
                '--client[Whose clients connect\: Linux’s own needs other texts of errors]:CLIENT:(plan9 linux)' \
                '--users[The users file, as users(6) has it; default\: the owners and groups of the trace]:FILE:_files' \
                '--listen[The address and port to listen on; port 0 lets the system choose one]:ADDR:_files' \
                '--workers[How many threads make the states, 1 to 64; default\: one a processor]:N:_files' \
                '--connections[How many connections are served\: before the end, or at once; 1 to 64, default 64]:N:_files' \
                '--holes[Adds the states of prefixes with a hole]' \
                '--picks[Adds the states of these sets, one JSON array of places a line]:FILE:_files' \
                '--trace[The same as TRACE]:FILE:_files' \
                '1:TRACE:_files' ;;
    esac
fi
