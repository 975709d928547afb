#compdef crashfs-campaign
# Made by tools/inventories. Install it where the shell looks for completions.
_arguments -S \
    '(-h --help)'{-h,--help}'[show this help message and exit]' \
    '--version[show program’s version number and exit]' \
    '--seeds[the seeds]:A-B:_files' \
    '--time-limit[begin no session after S seconds]:S:_files' \
    '--start[begin each session with a copy of DIR]:DIR:_files' \
    '--record[options of crashfs-record, in one argument]:WORDS:_files' \
    '--check[options of crashfs-check, in one argument]:WORDS:_files' \
    '--html[write an index of what was found as a page]:FILE:_files' \
    '*:file:_files'
