#!/usr/bin/env bash
# Makes a table of docs/HOSTILE.md anew: runs tools/checks/refuse_memory.sh (`memory`) or tools/by_hand/fail_calls.sh (`calls`) on each of
# the table's command lines, and writes a row for each.
#
#     tools/by_hand/hostile_tables.sh memory|calls [PROGRAM]
#
# PROGRAM is the program to run; without it, that is what the launcher builds. What these scripts tell of runs that end
# otherwise goes to standard error. The last line is `N passed, M failed`, and the status is 0 if all passed. It needs
# python3, and cc, or strace and gdb, as these scripts do.
# The names of rows have backquotes of their own.
# shellcheck disable=SC2016
set -uo pipefail

root=$(dirname "$(dirname "$(dirname "$(readlink -f "${BASH_SOURCE[0]}")")")")
which=${1-}
if [ "$#" = 0 ] || [ "$#" -gt 2 ] || { [ "$which" != memory ] && [ "$which" != calls ]; }; then
    echo 'usage: tools/by_hand/hostile_tables.sh memory|calls [PROGRAM]' >&2
    exit 2
fi
[ "$#" = 2 ] || "$root/pdb_cli" --help >/dev/null </dev/null || exit 2
PROGRAM=$(readlink -f "${2-$root/out/pdb_cli}")
export PROGRAM

work=$(mktemp -d) || exit 2
trap 'rm -r "$work"' EXIT
mkdir "$work/files"
cd "$work/files" || exit 2

# The files: tables of the tiles 1, 2 and 3, of 1 and 2, of 1, of 3, and of four and six tiles of side 3, the logs and texts of
# the page, and those of docs/TOUR.md.
python3 - "$root" <<'END' || exit 2
import pathlib, sys
sys.path.insert(0, sys.argv[1] + "/tools/plain")
from plain_answers import table_of
tables = {"F123": (2, 14), "F12": (2, 6), "F1": (2, 2), "F3": (2, 8), "four_tiles": (3, 30), "six_tiles": (3, 126)}
files = {name: table_of(*pattern) for name, pattern in tables.items()}
files["wrong"] = files["F123"][:34] + b"\2" + files["F123"][35:]
head, board = b"PDBL\1\2\0\0\0", b"\3\2\1\0\6\0\0\0"
files["G13"] = head + b"\1" + board + b"\1\1"
files["G14"] = head + b"\1" + board + b"\x0b\0\0\0\0\0\1\0\0\0\0\1"
files["G14_cut"] = head + b"\1" + board + b"\x0a\0\0\0\0\0\1\0\0\0\0"
files["G16"] = b"PDBL\2\2\0\0\0\1" + board + b"\5\0\0\x41\0\x41"
files["G15"] = head + b"\2\3\0\1\2\5\0\0\0\6\0\1\0\0\0\1" + board + b"\x0b\0\x20\0\0\0\0\0\0\0\0\1"
files |= {"board": b"3 2 1 0\n", "next": b"1 0 2 3\n", "puzzle": b"3 2 1 0 ; ULDRUL\n"}
files |= {"sets": b"set 0\n", "mirrors": b"set 0 0t 1\n"}
files["claims"] = b"3 2 1 0\n3 2 1 0 : 6\n3 2 1 0 ; ULDRULRL\n0 1 3 2\n"
for name, data in files.items():
    pathlib.Path(name).write_bytes(data)
END
"$root/tools/plain/tour_files.py" tour || exit 2

passed=0
failed=0

# What a summary of tools/by_hand/fail_calls.sh counts of one answer.
count_of() {
    awk -v told="$1" -F ': ' '$2 ~ "^[0-9]+ times " { split($2, words, " "); sub(/^[0-9]+ times /, "", $2)
        if ($2 == told) sum += words[1] } END { print sum + 0 }' "$work/output"
}

# The row of a command line, with these words behind its name: row NAME WORD..
row() {
    local name=$1 tail
    shift
    if [ "$which" = memory ]; then
        "$root/tools/checks/refuse_memory.sh" "$@" <"$input" >"$work/output"
    else
        "$root/tools/by_hand/fail_calls.sh" "$@" <"$input" >"$work/output"
    fi
    tail=$(tail -n 1 "$work/output")
    if ! [[ $tail =~ ^([0-9]+)\ passed,\ ([0-9]+)\ failed$ ]] || [ "${BASH_REMATCH[1]}" = 0 ]; then
        echo "FAILED: $name: $tail" >&2
        failed=$((failed + 1))
        return
    fi
    passed=$((passed + BASH_REMATCH[1]))
    failed=$((failed + BASH_REMATCH[2]))
    [ "${BASH_REMATCH[2]}" = 0 ] || { echo "FAILED: $name:" && cat "$work/output"; } >&2
    if [ "$which" = memory ]; then
        sed -n "s/^no memory: \([0-9]*\), the run's own answer: \([0-9]*\)\$/\1 \2/p" "$work/output" | {
            read -r without own
            echo "| $name | $((without + own)) | $without | $own |"
        }
    else
        echo "| $name | ${BASH_REMATCH[1]} | $(count_of 'its own answer') | $(count_of 'fault read') |" \
            "$(count_of 'fault write') | $(count_of 'no memory') | $(count_of 'nothing, status 2') |" \
            "$(count_of 'its first lines, status 2') |"
    fi
}

# A row of the table on memory alone, or of that on system calls alone.
memory() {
    [ "$which" != memory ] || row "$@"
}
calls() {
    [ "$which" != calls ] || row "$@"
}

input=puzzle
row 'none, a puzzle text on standard input'
input=/dev/null
row '`replay puzzle`' replay puzzle
row '`table F123`' table F123
row '`table F123 --workers 2`' table F123 --workers 2
row '`table F123 --workers 7`' table F123 --workers 7
memory '`table` of F123 with a wrong entry' table wrong
memory 'the same by 7 workers' table wrong --workers 7
memory '`table` of four tiles of side 3 `--workers 7`' table four_tiles --workers 7
row '`table` of four tiles of side 3 `--workers 64`' table four_tiles --workers 64
row '`table` of six tiles of side 3 `--workers 2`' table six_tiles --workers 2
memory '`bound board sets G13 F123`' bound board sets G13 F123
memory '`bound` of G14 with its last byte cut off its tree, F12' bound board sets G14_cut F12
row '`bound board sets G15 F12`' bound board sets G15 F12
row '`bound board sets G15 F12 --workers 2`' bound board sets G15 F12 --workers 2
row '`bound board sets G15 F12 --workers 7`' bound board sets G15 F12 --workers 7
row '`bound board sets G16 F12`' bound board sets G16 F12
row '`bound board mirrors G13 F1 F3 --workers 2`' bound board mirrors G13 F1 F3 --workers 2
row '`bound board sets G15 F12 --fold --workers 2`' bound board sets G15 F12 --fold --workers 2
row '`optimal puzzle sets G14 F12`' optimal puzzle sets G14 F12
row '`optimal puzzle sets G14 F12 --workers 7`' optimal puzzle sets G14 F12 --workers 7
row '`optimal puzzle sets G14 F12 --fold`' optimal puzzle sets G14 F12 --fold
tour='tour/sets tour/log tour/tiles_1_to_4 tour/tiles_5_to_8'
# shellcheck disable=SC2086
memory '`bound` on the files of [TOUR.md](TOUR.md) `--workers 7`' bound tour/board $tour --workers 7
# shellcheck disable=SC2086
memory '`optimal` on the files of [TOUR.md](TOUR.md) `--workers 2`' optimal tour/puzzle $tour --workers 2
row '`make-table 2 14 o`' make-table 2 14 o
echo 'half a table' >left.unkept
echo 'a file of a user' >left.1.unkept
calls 'the same beside an `o.unkept` and an `o.1.unkept`' make-table 2 14 left
memory '`make-table 5 16777216 o`' make-table 5 16777216 o
calls '`make-table 3 30 o --workers 2`' make-table 3 30 o --workers 2
calls '`make-table 2 14 o --workers 7`' make-table 2 14 o --workers 7
memory '`make-table 3 30 o --workers 7`' make-table 3 30 o --workers 7
memory '`solve board sets o F123`' solve board sets o F123
memory 'the same for the board `1 0 2 3`' solve next sets o F123
calls '`solve board sets o F12`' solve board sets o F12
calls 'the same beside an `o.unkept` and an `o.1.unkept`' solve board sets left F12
row '`solve board sets o F12 --workers 2`' solve board sets o F12 --workers 2
row '`solve board sets o F12 --workers 7`' solve board sets o F12 --workers 7
row '`solve board mirrors o F1 F3`' solve board mirrors o F1 F3
row '`solve board sets o F12 --fold`' solve board sets o F12 --fold
row '`prove claims sets F12`' prove claims sets F12
row '`prove claims sets F12 --workers 2`' prove claims sets F12 --workers 2
row '`prove claims sets F12 --workers 7 --fold`' prove claims sets F12 --workers 7 --fold
input=claims
row '`prove - mirrors F1 F3`, claims on standard input' prove - mirrors F1 F3
input=/dev/null
row '`--help`' --help
echo "$passed passed, $failed failed"
[ "$failed" = 0 ]
