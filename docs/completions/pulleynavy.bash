# Completions of pulleynavy for bash. Made by tools/generate program.
_pulleynavy() {
    local word=${COMP_WORDS[COMP_CWORD]} before=${COMP_WORDS[COMP_CWORD-1]} words=""
    COMPREPLY=()
    case ${COMP_WORDS[1]:-} in
        list) words="--json --no-progress -h --help -V --version" ;;
        dump) words="--names --bytes --hex --color --json --section --no-progress -h --help -V --version" ;;
        check) words="-q --quiet --no-progress -h --help -V --version" ;;
        strip) words="--keep-names --keep --only --debug -o --output --no-progress -h --help -V --version" ;;
        extract) words="--index -o --output --no-progress -h --help -V --version" ;;
        add) words="--replace -o --output --no-progress -h --help -V --version" ;;
        producers) words="--set -o --output --no-progress -h --help -V --version" ;;
    esac
    if [[ $COMP_CWORD -eq 1 || ( $COMP_CWORD -eq 2 && $before == help ) ]]; then
        words="list dump check strip extract add producers help --help --version"
    elif [[ $before == --section ]]; then
        words="custom type import function table memory global export start element code data datacount tag name producers target_features linking dylink.0"
    elif [[ $word != -* ]]; then
        words=""
    fi
    if [[ -n $words ]]; then
        mapfile -t COMPREPLY < <(compgen -W "$words" -- "$word")
    fi
}
complete -o default -F _pulleynavy pulleynavy
