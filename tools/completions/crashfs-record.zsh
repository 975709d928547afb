#compdef crashfs-record
# Made by tools/inventories. Install it where the shell looks for completions.
_arguments -S \
    '(-h --help)'{-h,--help}'[show this help message and exit]' \
    '--version[show program’s version number and exit]' \
    '--mapped[also record stores through shared mappings]' \
    '--ignore[leave out files that match, by the rules of .gitignore]:GLOB:_files' \
    '--say-fd[take the acknowledged lines from COMMAND’s descriptor N, not from standard output]:N:_files' \
    '--say-each[what acknowledges something]:WHAT:(line write)' \
    '--no-say[do not warn if no line is acknowledged, if all are in one write, or if files change while one is written in parts]' \
    '--stacks[note at each operation which of COMMAND’s functions made it]' \
    '--begin-after[begin the trace after the acknowledged line with this number, or after the first that matches]:LINE:_files' \
    '--profile[which directory operations the file system keeps in order]:PROFILE:(blocks ordered journal)' \
    '--block[how many bytes the disk writes whole]:BLOCK:(512 1024 2048 4096)' \
    '--trace-version[the version of the trace]:VERSION:(auto 3 4)' \
    '--crashfs[the program crashfs, for the comparison at the end]:PATH:_files' \
    '--keep-log[keep strace’s log]:FILE:_files' \
    '--from-log[run nothing, but convert the log of an earlier run]:FILE:_files' \
    '--log-dir[with --from-log]:PATH:_files' \
    '*:file:_files'
