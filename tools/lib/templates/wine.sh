#!/bin/sh
at=$(mktemp -d '%(folder)s/run-XXXXXX')
cat > "$at/input"
for turn in 1 2 3; do
    PULLEYNAVY_WITNESS="$at/witness" %(wine)s '%(program)s' "$@" < "$at/input" > "$at/output" 2> "$at/errors"
    status=$?
    began= size=
    if [ -f "$at/witness" ]; then { read began; read size; } < "$at/witness"; fi
    arrived=$(wc -c < "$at/output")
    if [ "$began" ] && [ "${size:-$arrived}" -eq "$arrived" ]; then
        cat "$at/output"
        cat "$at/errors" >&2
        # Wine may end with status 0 where a program crashed.
        if [ -z "$size" ]; then
            echo "did not end by itself"
            status=%(lost)d
        fi
        rm -r "$at"
        exit "$status"
    fi
    echo "status $status, ${began:-did not begin}, wrote ${size:-no} bytes, $arrived arrived: %(program)s $*" >> '%(folder)s/repeated'
    rm -f "$at/witness"
    [ "$began" ] || [ "$status" -eq 1 ] || break
done
exit %(lost)d
