# For pulleynavy and wasm_list at the top: runs the prebuilt program of a name, with the arguments after it.
#
# prebuilt/SOURCES.gz has the checksum of each file of the programs' code. If one differs, tools/run proves and builds the program,
# or without `rt` the prebuilt one runs as it is.
start() {
    local name=$1 prebuilt=$top/prebuilt/$1
    shift
    if [ "${1:-}" != --build ] && [ "$(uname -sm)" = "Linux x86_64" ] && [ -x "$prebuilt" ]; then
        if (cd "$top" && gzip -dc prebuilt/SOURCES.gz | sha256sum --check --status --strict) 2> /dev/null; then
            exec "$prebuilt" "$@"
        elif ! command -v rt > /dev/null; then
            echo "$name: a source differs from that of the prebuilt program, which runs since there is no rt to build it" >&2
            exec "$prebuilt" "$@"
        fi
    fi
    exec "$top/tools/run" "$name" "$@"
}
