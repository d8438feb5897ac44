#!/usr/bin/env bash
# Measures the search of `pdb_cli prove` beside those of benches/peers/edge_kernel.c, a kernel in C by edge words and an automaton, and
# of benches/peers/plain_solver.c, a plain solver in C, on ten boards of side 4 over three tables of five tiles, and on ten of side 5
# over four tables of five tiles and one of four.
#
#     benches/measure/measure_prove.sh >measured.md
#
# The program has to be built: it is out/pdb_cli, or the one that PROGRAM names. SIDES says which sides, 4 and 5 if it is not set.
# Each run is repeated 5 times, or as often as REPEATS says, in turns. LONGEST is the longest string of the automaton, which has to
# be that of the program, 12 if it is not set. If LARGE names a folder with the tables of six tiles 4326, 25368, 3247104 and
# 30277632 of side 5, the first of Korf and Felner's fifty random boards (2002) is measured over them too, below 93 and 95 moves.
#
# What is measured:
#
# - The boards are the ends of random walks (`make_log board`) of the seeds 1 to 10, of 80 steps on side 5. The claim is that no
#   solution has fewer moves than a shortest one, which the plain solver tells.
# - `prove --budget N` with as many boards as the kernel expands has to answer the bound, and with one less K1: so both expand the
#   same boards, and just so many.
# - A time is processor time. That of the program is a run's by one worker less that of a run in the same turn of the claim of 1
#   move, which reads and checks the tables too. The peers tell their own. Printed are nanoseconds a board by the median of the
#   rounds, and the ratio to the kernel with one search and with eight in turns.
set -euo pipefail
export LC_ALL=C

root=$(dirname "$(dirname "$(dirname "$(readlink -f "${BASH_SOURCE[0]}")")")")
program=${PROGRAM:-$root/out/pdb_cli}
repeats=${REPEATS:-5}
longest=${LONGEST:-12}
declare -A masks=([4]='818 2252 62464' [5]='230 17176 1149952 929792 31457280')
declare -A steps=([4]='' [5]='80')
declare -A boards times
rows=()

fail() {
    echo "measure_prove: $1" >&2
    exit 1
}

# A row is a folder with tables, `one`, `both` and `list`, and a name under which a claim lies in it.
make_side() { # SIDE
    local side=$1 mask seed moves count
    mkdir "$side"
    for mask in ${masks[$side]}; do
        "$program" make-table "$side" "$mask" "$side/$mask" >output
        echo "$side/$mask" >>"$side/list"
    done
    make_sets "$side"
    for seed in 1 2 3 4 5 6 7 8 9 10; do
        ./make_log board "$side" "$seed" ${steps[$side]} >board
        read -r _ moves _ count _ <<<"$(./plain_solver 50000000 "$(<board)" "$side/both" $(<"$side/list"))"
        [ "$moves" != 0 ] || continue
        echo "$(<board) : $moves" >"$side/$seed"
        rows+=("$side $seed")
    done
}

make_sets() { # FOLDER
    seq -s ' ' 0 $(($(wc -l <"$1/list") - 1)) | sed 's/^/set /' >"$1/one"
    { cat "$1/one"; sed 's/[0-9]\+/&t/g' "$1/one"; } >"$1/both"
}

make_large() {
    local mask bound
    mkdir large
    for mask in 4326 25368 3247104 30277632; do
        echo "$LARGE/$mask" >>large/list
    done
    make_sets large
    for bound in 93 95; do
        echo "14 5 9 2 18 8 23 19 12 17 15 0 10 20 4 6 11 21 1 7 24 3 16 22 13 : $bound" >"large/$bound"
        rows+=("large $bound")
    done
}

# The processor time of one run of the program, in microseconds, which has to write this as its last line.
run_for() { # LAST CLAIMS FOLDER SETS BUDGET
    local took TIMEFORMAT='%3U %3S'
    took=$({ time "$program" prove "$2" "$3/$4" $(<"$3/list") --workers 1 --budget "$5" >output 2>errors || true; } 2>&1)
    [[ $(tail -n 1 output) == "$1"* ]] || fail "'$(tail -n 1 output)' is no '$1' for $*: $(<errors)"
    awk '{ printf "%d", 1e6 * ($1 + $2) }' <<<"$took"
}

measure() { # FOLDER NAME SETS
    local start run most=${boards[$*]}
    sed 's/:.*/: 1/' "$1/$2" >short
    start=$(run_for 'bound 1 of ' short "$1" "$3" 1)
    run_for 'refused K1 of ' "$1/$2" "$1" "$3" $((most - 1)) >/dev/null
    run=$(run_for 'bound ' "$1/$2" "$1" "$3" "$most")
    times[program $*]+=$((run - start))$'\n'
}

measure_kernel() { # LANES FOLDER NAME SETS
    local said count found
    said=$(./edge_kernel "$2/$4" "$1" "$longest" $(<"$2/list") <"$2/$3" | tail -n 1)
    read -r _ count _ found _ <<<"$said"
    [ "$found" = 0 ] || fail "the kernel finds a solution for $*"
    [ "${boards[${*:2}]:-$count}" = "$count" ] || fail "the kernel expands $count boards for $*"
    boards[${*:2}]=$count
    times[$1 ${*:2}]+=$(awk '{ printf "%d", 1e3 * $NF }' <<<"$said")$'\n'
}

measure_plain() { # FOLDER NAME SETS
    local said
    said=$(./plain_solver 2000000 "$(sed 's/ :.*//' "$1/$2")" "$1/$3" $(<"$1/list"))
    times[plain $*]+=$(awk '{ printf "%d", 1e9 * $NF / $4 }' <<<"$said")$'\n'
}

# The median of the rounds.
median() { # NAME FOLDER NAME SETS
    printf '%s' "${times[$*]}" | sort -n |
        awk '{ it[NR] = $1 } END { print (it[int((NR + 1) / 2)] + it[int(NR / 2) + 1]) / 2 }'
}

row() { # FOLDER NAME
    local sets
    for sets in one both; do
        awk -v row="$1, $2, $sets" -v boards="${boards[$* $sets]}" -v program="$(median program "$@" "$sets")" \
            -v one="$(median 1 "$@" "$sets")" -v eight="$(median 8 "$@" "$sets")" -v plain="$(median plain "$@" "$sets")" 'BEGIN {
            printf "| %s | %d | %.1f | %.1f | %.1f | %.1f | %.2f | %.2f |\n", row, boards, 1e3 * program / boards,
                1e3 * one / boards, 1e3 * eight / boards, plain / 1e6, program / one, program / eight }'
    done
}

[ -x "$program" ] || fail "no program $program: ./pdb_cli --help builds it"
program=$(readlink -f "$program")
work=$(mktemp -d)
trap 'rm -r "$work"' EXIT
cd "$work"
cc -O2 -o make_log "$root/benches/peers/make_log.c"
cc -O3 -march=x86-64-v2 -fno-tree-vectorize -o plain_solver "$root/benches/peers/plain_solver.c"
cc -O3 -march=x86-64-v2 -pthread -o edge_kernel "$root/benches/peers/edge_kernel.c"
for side in ${SIDES-4 5}; do
    make_side "$side"
done
[ -z "${LARGE:-}" ] || make_large
for ((round = 0; round < repeats; round++)); do
    for row in "${rows[@]}"; do
        for sets in one both; do
            measure_kernel 1 $row "$sets"
            measure $row "$sets"
            measure_kernel 8 $row "$sets"
            measure_plain $row "$sets"
        done
    done
done

echo "$(nproc) processors ($(sed -n 's/^model name.*: //p;T;q' /proc/cpuinfo)), load $(cut -d ' ' -f 1 /proc/loadavg) at the end;" \
    "the median of $repeats rounds, processor ns a board"
echo
echo '| side, seed, sets | boards | `prove` | kernel, one search | kernel, eight | plain solver | `prove` to one | to eight |'
echo '|---|---|---|---|---|---|---|---|'
for row in "${rows[@]}"; do
    row $row
done
