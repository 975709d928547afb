#compdef crashfs-check
# Made by tools/inventories. Install it where the shell looks for completions.
_arguments -S \
    '(-h --help)'{-h,--help}'[show this help message and exit]' \
    '--version[show program’s version number and exit]' \
    '--jobs[run N commands at once]:N:_files' \
    '--shard[try only part I of N]:I/N:_files' \
    '--every[all crash states if at most N of them differ, however long that takes]:N:_files' \
    '--families[not all crash states, but the prefixes, those with one hole, --lost and --files]' \
    '--prefixes[the prefixes only]' \
    '--quick[the prefixes and those with one hole]' \
    '--in[only states that this profile allows, such as ordered]:PROFILE:_files' \
    '--lost[for each micro-operation, the smallest state that has it]' \
    '--files[for each file, the states without its unsynced changes]' \
    '--nested[crash the recovery too]:N:_files' \
    '--state[try only state N, and leave it laid out as the crash left it]:N:_files' \
    '--fail-fast[stop at the first failing state]' \
    '--time-limit[stop after S seconds, and report what was tried]:S:_files' \
    '--resume[continue a check that was stopped, from its --json file]:FILE:_files' \
    '--accept[a JSON list of known failures]:FILE:_files' \
    '--cache[keep outcomes in this directory]:DIR:_files' \
    '--json[write the outcomes, for --merge, --resume and other tools]:FILE:_files' \
    '--junit[write the report as JUnit XML]:FILE:_files' \
    '--tap[write the report in the Test Anything Protocol]:FILE:_files' \
    '--html[write the report as one page, to be opened in a browser]:FILE:_files' \
    '--timeout[kill a command after S seconds]:S:_files' \
    '--crashfs[the program crashfs]:PATH:_files' \
    '--unproved[use the Python implementation, even if there is a crashfs]' \
    '--serve[mount each state from the `crashfs serve --again --client linux` that listens at this host and port, with the same trace and plan]:ADDR:_files' \
    '--uname[with --serve]:NAME:_files' \
    '--disks[make the session again on disk images of these file systems, such as ext4,xfs,btrfs, and report on which of them a crash left a failing state]:LIST:_files' \
    '--merge[try nothing]:FILE:_files' \
    '*:file:_files'
