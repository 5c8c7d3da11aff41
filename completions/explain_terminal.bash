# Completion of explain_terminal for bash, written by completions/write of what `explain_terminal --help` prints.
_huttavel_explain_terminal() {
    local word=${COMP_WORDS[COMP_CWORD]}
    case $word in
        -*) mapfile -t COMPREPLY < <(compgen -W '-h --help -V --version' -- "$word") ;;
    esac
}
complete -o filenames -F _huttavel_explain_terminal explain_terminal
