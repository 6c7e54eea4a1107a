# Completions of pulleynavy for bash. Made by tools/generate program.
_pulleynavy() {
    local word=${COMP_WORDS[COMP_CWORD]} before=${COMP_WORDS[COMP_CWORD-1]} words=""
    COMPREPLY=()
    case ${COMP_WORDS[1]:-} in
%s
    esac
    if [[ $COMP_CWORD -eq 1 || ( $COMP_CWORD -eq 2 && $before == help ) ]]; then
        words="%s help --help --version"
    elif [[ $before == --section ]]; then
        words="%s"
    elif [[ $word != -* ]]; then
        words=""
    fi
    if [[ -n $words ]]; then
        mapfile -t COMPREPLY < <(compgen -W "$words" -- "$word")
    fi
}
complete -o default -F _pulleynavy pulleynavy
