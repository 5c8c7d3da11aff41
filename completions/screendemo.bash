# Completion of screendemo for bash, written by completions/write of what `screendemo --help` prints.
_huttavel_screendemo() {
    local word=${COMP_WORDS[COMP_CWORD]}
    case $word in
        -*) mapfile -t COMPREPLY < <(compgen -W '-r -e --picture --check --calls -u -v -V --version -h --help' -- "$word") ;;
        *) mapfile -t COMPREPLY < <(compgen -f -- "$word") ;;
    esac
}
complete -o filenames -F _huttavel_screendemo screendemo
