#!/usr/bin/env bash
# Runs the program REAL with these words, and spoils one thing of each run of one command, as SPOIL says:
#
#     REAL=out/pdb_cli SPOIL='output table' tools/checks/spoiled.sh table FILE
#
# `output` changes the last digit of the last line on standard output, `errors` the last letter of the first line on standard error,
# and `status` makes a yes of a no, and a no of a yes. Runs of other commands are REAL's own. Each run that is spoiled adds a line to
# the file SPOILED, if that is set.
set -uo pipefail

if [ "${1-}" != "${SPOIL#* }" ]; then
    exec "$REAL" "$@"
fi
echo "$*" >>"${SPOILED-/dev/null}"
case ${SPOIL% *} in
output)
    "$REAL" "$@" | sed -E '$ { s/[1-8]([^0-9]*)$/9\1/; t; s/[09]([^0-9]*)$/1\1/ }'
    exit "${PIPESTATUS[0]}"
    ;;
errors)
    {
        "$REAL" "$@" 2>&1 >&3 3>&- | sed -E '1 { s/[a-y]([^a-z]*)$/z\1/; t; s/z([^a-z]*)$/a\1/ }' >&2
        exit "${PIPESTATUS[0]}"
    } 3>&1
    ;;
status)
    "$REAL" "$@"
    exit "$(($? == 0))"
    ;;
esac
