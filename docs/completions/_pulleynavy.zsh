#compdef pulleynavy
# Completions of pulleynavy for zsh. Made by tools/generate program.
local -a commands
commands=('list:list the parts of binaries' 'dump:show every item of binaries' 'check:find malformed items in binaries' 'strip:remove custom sections' 'extract:write the data of a custom section' 'add:append or replace custom sections' 'producers:show or set the tools of a module' 'help:print a summary')
if (( CURRENT == 2 )); then
    _describe command commands
    _arguments '--help[print a summary]' '--version[print the version]'
    return
fi
shift words
(( CURRENT-- ))
case $words[1] in
    list)
        _arguments \
            '--json[write a JSON object per line]' \
            '--no-progress[show no progress of large files]' \
            ''{-h,--help}'[print a summary]' \
            ''{-V,--version}'[print the version]' \
            '*:file:_files'
        ;;
    dump)
        _arguments \
            '--names[show the names of items]' \
            '--bytes[show the bytes of each line]' \
            '--hex[write offsets in hexadecimal]' \
            '--color=-[write colors for a terminal]::when:(always auto never)' \
            '--json[write a JSON object per line]' \
            '*--section[show only this section]:section:(custom type import function table memory global export start element code data datacount tag name producers target_features linking dylink.0)' \
            '--no-progress[show no progress of large files]' \
            ''{-h,--help}'[print a summary]' \
            ''{-V,--version}'[print the version]' \
            '*:file:_files'
        ;;
    check)
        _arguments \
            ''{-q,--quiet}'[write nothing]' \
            '--no-progress[show no progress of large files]' \
            ''{-h,--help}'[print a summary]' \
            ''{-V,--version}'[print the version]' \
            '*:file:_files'
        ;;
    strip)
        _arguments \
            '--keep-names[keep the sections called name]' \
            '*--keep[keep the custom sections with a name]:name:' \
            '*--only[remove only the custom sections with a name]:name:' \
            '--debug[remove only the debug sections]' \
            ''{-o,--output}'[write to this file]:out:_files' \
            '--no-progress[show no progress of large files]' \
            ''{-h,--help}'[print a summary]' \
            ''{-V,--version}'[print the version]' \
            '*:file:_files'
        ;;
    extract)
        _arguments \
            '*--index[write the section with this number]:n:' \
            ''{-o,--output}'[write to this file]:out:_files' \
            '--no-progress[show no progress of large files]' \
            ''{-h,--help}'[print a summary]' \
            ''{-V,--version}'[print the version]' \
            '*:file:_files'
        ;;
    add)
        _arguments \
            '--replace[replace sections with these names]' \
            ''{-o,--output}'[write to this file]:out:_files' \
            '--no-progress[show no progress of large files]' \
            ''{-h,--help}'[print a summary]' \
            ''{-V,--version}'[print the version]' \
            '*:file:_files'
        ;;
    producers)
        _arguments \
            '*--set[set a language or tool]:field=name[:version]:' \
            ''{-o,--output}'[write to this file]:out:_files' \
            '--no-progress[show no progress of large files]' \
            ''{-h,--help}'[print a summary]' \
            ''{-V,--version}'[print the version]' \
            '*:file:_files'
        ;;
    help) _describe command commands ;;
esac
