# Completion of edit for bash, written by completions/write of what `edit --help` prints.
_huttavel_edit() {
    local word=${COMP_WORDS[COMP_CWORD]}
    case $word in
        -*) mapfile -t COMPREPLY < <(compgen -W '-b --bundled -s --script -u --utf8 -w --wrap -h --help -V --version' -- "$word") ;;
        *) mapfile -t COMPREPLY < <(compgen -f -- "$word") ;;
    esac
}
complete -o filenames -F _huttavel_edit edit
