#!/usr/bin/env bash
# Measures `pdb_cli make-table` on side 4 with six tiles and on side 5 with five, and `pdb_cli solve` on ten boards of the
# 15-puzzle over three tables of five tiles each.
#
#     benches/measure/measure_makers.sh >measured.md
#
# Everything stands in a temporary folder. The program has to be built: it is out/pdb_cli, or the one that PROGRAM names.
# Each run is repeated 5 times, or as often as REPEATS says.
#
# What is measured:
#
# - A time is the wall clock's, from before the process starts until it has ended. Printed are the least of the rounds
#   and, in brackets, their median; what is worked out rests on the least.
# - "check" is `table` on the file that was made, with as many workers: reading, digest and check. "digest" is such a run
#   on the same bytes with a header that is refused (T4), which reads and makes the digest all the same. "build" is the
#   run of `make-table` less that of `table`: building, and keeping the file.
# - "peak" is the most memory that was resident, in one further run.
# - Boards a second: the search for each board, which is the end of a random walk, is ended by a budget (K1), so it
#   expands as many boards as the budget says. What the same run takes with a budget of 1 is taken off.
set -euo pipefail
export LC_ALL=C

root=$(dirname "$(dirname "$(dirname "$(readlink -f "${BASH_SOURCE[0]}")")")")
program=${PROGRAM:-$root/out/pdb_cli}
repeats=${REPEATS:-5}
budget=1000000
tables=('4 126' '5 62')
parts=(818 2252 62464)
seeds=(1 9 18 33 34 52 57 58 59 64) # the first whose searches expand more boards than that
declare -A times

fail() {
    echo "measure_makers: $1" >&2
    exit 1
}

# One run, under a name, that has to answer a line which begins so.
measure() { # NAME LINE WORD..
    local name=$1 line=$2 begin end
    shift 2
    begin=${EPOCHREALTIME/./}
    "$program" "$@" >output || true
    end=${EPOCHREALTIME/./}
    grep -q "^$line" output || fail "no line '$line' for $*: $(<output)"
    times[$name]+=$((end - begin))$'\n'
}

measure_tables() {
    local table side mask workers
    for table in "${tables[@]}"; do
        read -r side mask <<<"$table"
        for workers in 1 2 4; do
            measure "$table make $workers" exact make-table "$side" "$mask" "$table" --workers "$workers"
            measure "$table check $workers" exact table "$table" --workers "$workers"
        done
        cp "$table" refused
        printf '\1' | dd of=refused bs=1 seek=7 conv=notrunc status=none
        measure "$table digest" 'refused T4$' table refused
    done
}

measure_searches() {
    local seed
    for seed in "${seeds[@]}"; do
        measure "board $seed" 'refused K1$' solve "board $seed" sets log "${parts[@]}" --budget "$budget"
        measure "start $seed" 'refused K1$' solve "board $seed" sets log "${parts[@]}" --budget 1
    done
}

least() {
    printf '%s' "${times[$1]}" | sort -n | sed -n 1p
}

median() {
    printf '%s' "${times[$1]}" | sort -n | sed -n "$(((repeats + 1) / 2))p"
}

# The MiB that were resident in one run.
peak() {
    python3 -c 'import resource, subprocess, sys
subprocess.run(sys.argv[1:], stdout=subprocess.DEVNULL)
print(round(resource.getrusage(resource.RUSAGE_CHILDREN).ru_maxrss / 1024, 1))' "$program" "$@"
}

table_row() { # TABLE WORKERS
    local side mask
    read -r side mask <<<"$1"
    awk -v table="side $side mask $mask" -v workers="$2" -v make="$(least "$1 make $2")" -v made="$(median "$1 make $2")" \
        -v check="$(least "$1 check $2")" -v digest="$(least "$1 digest")" \
        -v peak="$(peak make-table "$side" "$mask" again --workers "$2")" 'BEGIN {
        printf "| %s | %d | %.0f (%.0f) | %.0f | %.0f | %.0f | %s |\n", table, workers, make / 1e3, made / 1e3,
            (make - check) / 1e3, check / 1e3, digest / 1e3, peak }'
}

search_row() { # SEED
    awk -v seed="$1" -v run="$(least "board $1")" -v start="$(least "start $1")" -v budget="$budget" 'BEGIN {
        printf "| %d | %.0f | %.2f |\n", seed, (run - start) / 1e3, budget / (run - start) }'
}

[ -x "$program" ] || fail "no program $program: ./pdb_cli --help builds it"
program=$(readlink -f "$program")
load=$(cut -d ' ' -f 1 /proc/loadavg)
work=$(mktemp -d)
trap 'rm -r "$work"' EXIT
cd "$work"
cc -O2 -o make_log "$root/benches/peers/make_log.c"
for mask in "${parts[@]}"; do
    "$program" make-table 4 "$mask" "$mask" >output
done
echo set "${!parts[@]}" >sets
for seed in "${seeds[@]}"; do
    ./make_log board 4 "$seed" >"board $seed"
done
for ((round = 0; round < repeats; round++)); do
    measure_tables
    measure_searches
done

echo "$(nproc) processors ($(sed -n 's/^model name.*: //p;T;q' /proc/cpuinfo)), load $load before;" \
    "$repeats rounds; least (median), in ms"
echo
echo '| table | workers | `make-table` | build | check | digest | peak, MiB |'
echo '|---|---|---|---|---|---|---|'
for table in "${tables[@]}"; do
    for workers in 1 2 4; do
        table_row "$table" "$workers"
    done
done
echo
echo "| board | ms for $budget boards | million boards a second |"
echo '|---|---|---|'
for seed in "${seeds[@]}"; do
    search_row "$seed"
done
