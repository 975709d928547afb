# Made by tools/inventories. Install it where the shell looks for completions.
complete -c crashfs-campaign -s h -l help -d 'show this help message and exit'
complete -c crashfs-campaign -l version -d 'show program’s version number and exit'
complete -c crashfs-campaign -l seeds -r -d 'the seeds'
complete -c crashfs-campaign -l time-limit -r -d 'begin no session after S seconds'
complete -c crashfs-campaign -l start -r -d 'begin each session with a copy of DIR'
complete -c crashfs-campaign -l record -r -d 'options of crashfs-record, in one argument'
complete -c crashfs-campaign -l check -r -d 'options of crashfs-check, in one argument'
complete -c crashfs-campaign -l html -r -d 'write an index of what was found as a page'
