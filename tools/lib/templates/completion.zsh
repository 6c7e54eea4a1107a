#compdef pulleynavy
# Completions of pulleynavy for zsh. Made by tools/generate program.
local -a commands
commands=(%s 'help:print a summary')
if (( CURRENT == 2 )); then
    _describe command commands
    _arguments '--help[print a summary]' '--version[print the version]'
    return
fi
shift words
(( CURRENT-- ))
case $words[1] in
%s
    help) _describe command commands ;;
esac
