#!/usr/bin/env bash
# Runs the program once for each of its requests for memory or a thread, with that one refused. Such a run must write
# `no memory` alone, end with status 3 and leave its files as they were, or end as the run does that is refused nothing, with
# the files that this one leaves.
#
#     echo '3 2 1 0 ; ULDRUL' | tools/checks/refuse_memory.sh
#     tools/checks/refuse_memory.sh table FILE --workers 4 </dev/null
#
# Its arguments are the program's words, and its standard input is the program's. Names are those of files in the folder that
# it is called in, of which each run gets a copy. It needs the C compiler `cc`. A line is written for each run that ends
# otherwise, with what that run wrote and left, then one that counts both answers, and last `N passed, M failed`. The status
# is 0 if all passed, and otherwise not. The program is that of the variable PROGRAM, a path; without it, the launcher builds
# it where that is needed. With EVERY=N only each N-th request is refused, and with LAST=N only the last N.
set -euo pipefail

root=$(dirname "$(dirname "$(dirname "$(readlink -f "${BASH_SOURCE[0]}")")")")
program=${PROGRAM-}
if [ -z "$program" ]; then
    "$root/pdb_cli" --help >/dev/null </dev/null
    program=$root/out/pdb_cli
fi
program=$(readlink -f -- "$program")
work=$(mktemp -d)
trap 'rm -r "$work"' EXIT

mkdir "$work/given" && cat >"$work/input"
for word in "$@"; do
    [ ! -f "$word" ] || cp --parents -- "$word" "$work/given"
done
cc -O1 -shared -fPIC -o "$work/refuse_memory.so" "$root/tools/preload/refuse_memory.c"

# Names and digests of the files that a run has left, behind a line that says its status.
list_end() {
    echo "status $1"
    (cd "$work/files" && find . -type f -exec sha256sum {} + | sort)
}

# Runs the program with the words behind $1, in a copy of the files, with the request $1 refused.
run() {
    local status=0
    rm -rf "$work/files" && cp -a "$work/given" "$work/files"
    (cd "$work/files" && REFUSE=$1 LD_PRELOAD=$work/refuse_memory.so exec "$program" "${@:2}") \
        <"$work/input" >"$work/output" 2>"$work/errors" 9>"$work/refused" || status=$?
    # A sentence that says why may be wanting where memory is.
    { sed '/^pdb_cli: /d' "$work/errors" && list_end "$status"; } >>"$work/output"
}

run 0 "$@"
mv "$work/output" "$work/own_answer"
rm -rf "$work/files" && cp -a "$work/given" "$work/files"
{ echo 'no memory' && list_end 3; } >"$work/no_memory"

# Whether the program makes so many requests.
asks() {
    run "$@"
    [ -s "$work/refused" ]
}

every=${EVERY-1}
request=0
if [ -n "${LAST-}" ]; then
    # There are at least `request` requests, and fewer than `beyond`.
    beyond=1
    while asks "$beyond" "$@"; do
        request=$beyond
        beyond=$((2 * beyond))
    done
    while [ "$((request + 1))" -lt "$beyond" ]; do
        middle=$(((request + beyond) / 2))
        if asks "$middle" "$@"; then request=$middle; else beyond=$middle; fi
    done
    request=$((request < LAST ? 0 : request - LAST))
fi
without=0
own=0
bad=0
while :; do
    request=$((request + every))
    asks "$request" "$@" || break
    if cmp -s "$work/output" "$work/no_memory"; then
        without=$((without + 1))
    elif cmp -s "$work/output" "$work/own_answer"; then
        own=$((own + 1))
    else
        echo "request $request refused:" && cat "$work/output"
        bad=$((bad + 1))
    fi
done
echo "no memory: $without, the run's own answer: $own"
echo "$((without + own)) passed, $bad failed"
[ "$((without + own))" != 0 ] && [ "$bad" = 0 ]
