# Completion of tic for fish, written by completions/write of what `tic --help` prints.
complete -c tic -s c -r -F -d 'Compiles a source, and prints the name and size of each entry'
complete -c tic -s o -r -F -d 'Compiles a source, and writes the files below a folder'
complete -c tic -s d -r -F -d 'Prints a compiled file as source'
complete -c tic -s x -d 'Keeps every name, in term.h or not, and numbers up to 2147483647'
complete -c tic -s v -d 'Says where errors and warnings are, and how often each unknown name occurs'
complete -c tic -s V -l version -d 'Print version'
complete -c tic -s h -l help -d 'Print help'
