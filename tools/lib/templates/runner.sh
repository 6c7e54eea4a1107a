#!/bin/sh
for turn in 1 2 3; do
    WINEPATH='%(dlls)s' %(wine)s "$@" > "$0.$$" 2>&1
    status=$?
    grep -q '^running [0-9]' "$0.$$" && break
    echo "status $status, did not begin: $*" >> '%(folder)s/repeated'
done
cat "$0.$$"
exit $status
