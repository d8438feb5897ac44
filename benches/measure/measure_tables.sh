#!/usr/bin/env bash
# Measures `pdb_cli table` on tables of side 3 with eight tiles, side 5 with five and side 4 with six, and on the last with
# one bad entry.
#
#     benches/measure/measure_tables.sh >measured.md
#
# The tables are made by `pdb_cli make-table` in a temporary folder. The program has to be built: it is
# out/pdb_cli, or the one that PROGRAM names. Each run is repeated 7 times, or as often as REPEATS says.
#
# What is measured:
#
# - A time is the wall clock's, from before the process starts until it has ended, with the file in the system's cache.
#   The runs are taken in turns, round after round, so that a busy moment doesn't fall on one kind alone. Printed are
#   the least of the rounds and, in brackets, their median; what is worked out rests on the least.
# - "digest" is a run on the same bytes with byte 7 set to 1, which is refused by the header (T4) and prints the digest
#   of the whole file all the same. So it has the start, the reading and the digest of a run, and nothing of the check.
# - "share" is the digest's part of the run of one worker; "check" is that run without the digest. Several workers check
#   while the digest is made, so of their runs nothing is taken off.
# - "bad entry" is the one bad entry of the largest table with a zero for the last slot, which has no region, of its
#   first, middle or last placement. "of the good file's" is beside the table itself with as many workers, and
#   "processor" what all threads of the run took together, which a busy machine changes less than the time.
# - "peak" is the most memory that was resident, in one further run of one worker or, below, of so many workers.
set -euo pipefail
export LC_ALL=C

root=$(dirname "$(dirname "$(dirname "$(readlink -f "${BASH_SOURCE[0]}")")")")
program=${PROGRAM:-$root/out/pdb_cli}
repeats=${REPEATS:-7}
tables=('side 3 mask 510' 'side 5 mask 62' 'side 4 mask 126') # the largest last
largest=${tables[-1]}
declare -A bad=([first]=6 [middle]=20180166 [last]=40360319) # entries of the largest table for slots without a region
declare -A times spent
TIMEFORMAT='%3U %3S'

fail() {
    echo "measure_tables: $1" >&2
    exit 1
}

# The file of a table, and the same with a header that is refused.
make_files() {
    local _ side mask
    read -r _ side _ mask <<<"$1"
    "$program" make-table "$side" "$mask" "$work/$1" >/dev/null
    cp "$work/$1" "$work/$1 refused"
    printf '\1' | dd of="$work/$1 refused" bs=1 seek=7 conv=notrunc status=none
}

# The largest table with a zero at this entry.
make_bad() {
    local file="$work/$1 bad" at=$((20 + bad[$1]))
    [ "$(od -An -tu1 -j "$at" -N 1 "$work/$largest" | tr -d ' ')" = 254 ] || fail "entry ${bad[$1]} has a region"
    cp "$work/$largest" "$file"
    printf '\0' | dd of="$file" bs=1 seek="$at" conv=notrunc status=none
}

# One run, under a name, that has to answer a line which begins so.
measure() { # NAME LINE WORD..
    local name=$1 line=$2 begin end
    shift 2
    begin=${EPOCHREALTIME/./}
    { time "$program" table "$@" >"$work/output" || true; } 2>"$work/spent"
    end=${EPOCHREALTIME/./}
    grep -q "^$line" "$work/output" || fail "no line '$line' for $*: $(<"$work/output")"
    times[$name]+=$((end - begin))$'\n'
    spent[$name]+=$(awk 'END { printf "%d", 1e6 * ($1 + $2) }' "$work/spent")$'\n'
}

measure_all() {
    local table workers where
    for table in "${tables[@]}"; do
        measure "$table digest" 'refused T4$' "$work/$table refused"
        measure "$table 1" "exact $table " "$work/$table" --workers 1
    done
    for workers in 2 4; do
        measure "$largest $workers" "exact $largest " "$work/$largest" --workers "$workers"
    done
    for where in first middle last; do
        for workers in 1 4; do
            measure "$where $workers" "refused T7 at entry ${bad[$where]}\$" "$work/$where bad" --workers "$workers"
        done
    done
}

# The microseconds of a name's runs: the least, or the middle one, and the least of a processor.
least() {
    printf '%s' "${times[$1]}" | sort -n | sed -n 1p
}

least_spent() {
    printf '%s' "${spent[$1]}" | sort -n | sed -n 1p
}

median() {
    printf '%s' "${times[$1]}" | sort -n | sed -n "$(((repeats + 1) / 2))p"
}

# The KiB that were resident in one run.
peak() {
    if [ -x /usr/bin/time ]; then
        /usr/bin/time -f %M "$program" table "$@" 2>&1 >/dev/null | tail -n 1
    else
        python3 -c 'import resource, subprocess, sys
subprocess.run(sys.argv[1:], stdout=subprocess.DEVNULL)
print(resource.getrusage(resource.RUSAGE_CHILDREN).ru_maxrss)' "$program" table "$@"
    fi
}

table_row() {
    local bytes
    bytes=$(stat -c %s "$work/$1")
    awk -v table="$1" -v entries="$((bytes - 20))" -v run="$(least "$1 1")" -v median="$(median "$1 1")" \
        -v digest="$(least "$1 digest")" -v digests="$(median "$1 digest")" -v peak="$(peak "$work/$1")" 'BEGIN {
        printf "| %s | %d | %.1f (%.1f) | %.1f (%.1f) | %.0f%% | %.1f | %.1f | %.1f |\n", table, entries,
            run / 1e3, median / 1e3, digest / 1e3, digests / 1e3, 100 * digest / run,
            entries / run, entries / (run - digest), peak / 1024 }'
}

workers_row() {
    awk -v workers="$1" -v one="$(least "$largest 1")" -v run="$(least "$largest $1")" -v median="$(median "$largest $1")" \
        -v peak="$(peak "$work/$largest" --workers "$1")" 'BEGIN {
        printf "| %d | %.1f (%.1f) | %.2f | %.1f |\n", workers, run / 1e3, median / 1e3, one / run, peak / 1024 }'
}

bad_row() {
    awk -v place="$1" -v entry="${bad[$1]}" -v workers="$2" -v run="$(least "$1 $2")" -v median="$(median "$1 $2")" \
        -v good="$(least "$largest $2")" -v spent="$(least_spent "$1 $2")" -v good_spent="$(least_spent "$largest $2")" 'BEGIN {
        printf "| %s, %d | %d | %.1f (%.1f) | %.0f%% | %.0f | %.0f%% |\n", place, entry, workers, run / 1e3, median / 1e3,
            100 * run / good, spent / 1e3, 100 * spent / good_spent }'
}

[ -x "$program" ] || fail "no program $program: ./pdb_cli --help builds it"
load=$(cut -d ' ' -f 1 /proc/loadavg)
work=$(mktemp -d)
trap 'rm -r "$work"' EXIT
for table in "${tables[@]}"; do
    make_files "$table"
done
for where in first middle last; do
    make_bad "$where"
done
for ((round = 0; round < repeats; round++)); do
    measure_all
done

echo "$(nproc) processors ($(sed -n 's/^model name.*: //p;T;q' /proc/cpuinfo)), load $load before;" \
    "$repeats rounds; least (median)"
echo
echo '| table | entries | run, ms | digest, ms | share | million entries/s of the run | of the check | peak, MiB |'
echo '|---|---|---|---|---|---|---|---|'
for table in "${tables[@]}"; do
    table_row "$table"
done
echo
echo "| workers, $largest | run, ms | times as fast | peak, MiB |"
echo '|---|---|---|---|'
for workers in 1 2 4; do
    workers_row "$workers"
done
echo
echo "| bad entry, $largest | workers | run, ms | of the good file's | processor, ms | of the good file's |"
echo '|---|---|---|---|---|---|'
for where in first middle last; do
    for workers in 1 4; do
        bad_row "$where" "$workers"
    done
done
