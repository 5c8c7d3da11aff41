# Completion of explain_terminal for fish, written by completions/write of what `explain_terminal --help` prints.
complete -c explain_terminal -f
complete -c explain_terminal -s h -l help -d 'Print help'
complete -c explain_terminal -s V -l version -d 'Print version'
