# Completion of edit for fish, written by completions/write of what `edit --help` prints.
complete -c edit -s b -l bundled -d 'Uses the bundled ECMA-48 entry, whatever TERM names'
complete -c edit -s s -l script -d 'Reads keys from a script, and prints what an emulated terminal shows'
complete -c edit -s u -l utf8 -d 'The terminal speaks UTF-8, whatever the locale says'
complete -c edit -s w -l wrap -r -F -d 'Wraps lines that become longer than COLUMNS, at least 10'
complete -c edit -s h -l help -d 'Print help'
complete -c edit -s V -l version -d 'Print version'
