# Completion of tic for bash, written by completions/write of what `tic --help` prints.
_huttavel_tic() {
    local word=${COMP_WORDS[COMP_CWORD]}
    case $word in
        -*) mapfile -t COMPREPLY < <(compgen -W '-c -o -d -x -v -V --version -h --help' -- "$word") ;;
        *) mapfile -t COMPREPLY < <(compgen -f -- "$word") ;;
    esac
}
complete -o filenames -F _huttavel_tic tic
