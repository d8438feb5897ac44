#!/usr/bin/env bash
# Measures `pdb_cli bound` on two logs of one board of the 15-puzzle, over three tables of five tiles each, and on one of them
# by the transposed members of three others.
#
#     benches/measure/measure_logs.sh >measured.md
#
# The tables are made by `pdb_cli make-table`, the logs by benches/peers/make_log.c, in a temporary folder. The board is the
# end of a random walk; each log proves the length of its shortest solution, one in a single lemma with a tree of 10 MB, the
# other in about 2,800 lemmas, which workers share. The program has to be built: it is out/pdb_cli, or the one that
# PROGRAM names. Each run is repeated 7 times, or as often as REPEATS says.
#
# What is measured:
#
# - A time is the wall clock's, from before the process starts until it has ended, with the files in the system's cache.
#   The runs are taken in turns, round after round, so that a busy moment doesn't fall on one kind alone. Printed are
#   the least of the rounds and, in brackets, their median.
# - A run checks the tables too. "tables" is a run with the same tables and a log of one leaf (bound 0), with as many
#   workers. "log" is what the log takes beyond that: the least run less the least of "tables" and, in brackets, the
#   median of the differences within a round. It includes reading the log and its digest.
# - "walk" is the log without its reading and digest: a run less one on the same bytes with another version, which is
#   refused by the header (L1) after the tables were checked, and prints the digest all the same.
# - "make_log" is the time that `make_log check` takes for the walk alone, as it tells it itself, taken in the same
#   rounds. It is plain C, looks up one table at each move, and has one thread.
# - The tables of the mirror images of the tiles, as transposed members, say the same as the tables themselves, so the log of
#   one lemma is good over both. "transposed" is a run over those.
# - "peak" is the most memory that was resident, in one further run.
set -euo pipefail
export LC_ALL=C

root=$(dirname "$(dirname "$(dirname "$(readlink -f "${BASH_SOURCE[0]}")")")")
program=${PROGRAM:-$root/out/pdb_cli}
repeats=${REPEATS:-7}
side=4
seed=18   # of the board
levels=10 # of the log of many lemmas, above those that it cites
masks=(818 2252 62464)
declare -A times bytes lemmas

fail() {
    echo "measure_logs: $1" >&2
    exit 1
}

# The mask of the mirror images of a mask's tiles.
mirrored() { # MASK
    local tile image=0
    for ((tile = 1; tile < side * side; tile++)); do
        image=$((image | ($1 >> tile & 1) << (tile % side * side + tile / side)))
    done
    echo "$image"
}

# The files, all in the temporary folder, where the script stands from then on. The tables and the set text of plain members
# are in one folder, those of transposed members in another.
make_files() {
    local number board tables
    cc -O2 -march=x86-64-v2 -o make_log "$root/benches/peers/make_log.c"
    mkdir plain transposed
    for number in "${!masks[@]}"; do
        "$program" make-table "$side" "${masks[number]}" "plain/table_$number" >/dev/null
        "$program" make-table "$side" "$(mirrored "${masks[number]}")" "transposed/table_$number" >/dev/null
    done
    tables=(plain/table_*)
    echo set "${!masks[@]}" >plain/sets
    sed 's/[0-9]/&t/g' plain/sets >transposed/sets
    board=$(./make_log board "$side" "$seed")
    echo "$board" >board
    ./make_log log "$board" 0 0 leaf "${tables[@]}" >/dev/null
    ./make_log log "$board" - 0 one "${tables[@]}" >/dev/null
    ./make_log log "$board" - "$levels" many "${tables[@]}" >/dev/null
    local log
    for log in one many; do
        cp "$log" "$log refused"
        printf '\3' | dd of="$log refused" bs=1 seek=4 conv=notrunc status=none
        read -r _ bound _ "lemmas[$log]" _ _ "bytes[$log]" _ < <(./make_log check "$log" "${tables[@]}")
    done
}

# One run, under a name, by members of a kind, with a log and so many workers, that has to answer this line.
measure() { # NAME LINE KIND LOG WORKERS
    local begin end
    begin=${EPOCHREALTIME/./}
    "$program" bound board "$3/sets" "$4" "$3"/table_* --workers "$5" >output || true
    end=${EPOCHREALTIME/./}
    grep -qx "$2" output || fail "no line '$2' for the log '$4': $(<output)"
    times[$1]+=$((end - begin))$'\n'
}

# The peer on the same log, in hundredths of a nanosecond a byte of the trees.
measure_peer() { # LOG
    local told
    told=$(./make_log check "$1" plain/table_*)
    times[make_log $1]+=$(awk '{ printf "%d", 100 * $NF }' <<<"$told")$'\n'
}

measure_all() {
    local log workers
    for log in one many; do
        measure "$log refused" 'refused L1' plain "$log refused" 1
        measure_peer "$log"
    done
    measure 'one 1' "bound $bound" plain one 1
    measure 'transposed leaf' 'bound 0' transposed leaf 1
    measure 'transposed one' "bound $bound" transposed one 1
    for workers in 1 2 4; do
        measure "leaf $workers" 'bound 0' plain leaf "$workers"
        measure "many $workers" "bound $bound" plain many "$workers"
    done
}

# The least of the numbers of a name's runs, or the middle one.
least() {
    sort -n <<<"${times[$1]%$'\n'}" | sed -n 1p
}

median() {
    sort -n <<<"${times[$1]%$'\n'}" | sed -n "$(((repeats + 1) / 2))p"
}

# What the runs of one name take beyond those of another: the least less the least, or the median over the rounds.
least_beyond() {
    echo $(($(least "$1") - $(least "$2")))
}

median_beyond() {
    paste <(echo "${times[$1]%$'\n'}") <(echo "${times[$2]%$'\n'}") | awk '{ print $1 - $2 }' | sort -n |
        sed -n "$(((repeats + 1) / 2))p"
}

# The KiB that were resident in one run, with this log and so many workers.
peak() {
    local words=(bound board plain/sets "$1" plain/table_* --workers "$2")
    if [ -x /usr/bin/time ]; then
        /usr/bin/time -f %M "$program" "${words[@]}" 2>&1 >/dev/null | tail -n 1
    else
        python3 -c 'import resource, subprocess, sys
subprocess.run(sys.argv[1:], stdout=subprocess.DEVNULL)
print(resource.getrusage(resource.RUSAGE_CHILDREN).ru_maxrss)' "$program" "${words[@]}"
    fi
}

# A log, checked by one worker.
log_row() { # LOG
    awk -v lemmas="${lemmas[$1]}" -v bytes="${bytes[$1]}" -v run="$(least "$1 1")" -v runs="$(median "$1 1")" \
        -v tables="$(least 'leaf 1')" -v some_tables="$(median 'leaf 1')" \
        -v log_time="$(least_beyond "$1 1" 'leaf 1')" -v logs="$(median_beyond "$1 1" 'leaf 1')" \
        -v walk="$(least_beyond "$1 1" "$1 refused")" -v walks="$(median_beyond "$1 1" "$1 refused")" \
        -v peer="$(least "make_log $1")" -v peers="$(median "make_log $1")" -v peak="$(peak "$1" 1)" 'BEGIN {
        printf "| %d | %d | %.1f (%.1f) | %.1f (%.1f) | %.1f (%.1f) | ", lemmas, bytes, run / 1e3, runs / 1e3,
            tables / 1e3, some_tables / 1e3, log_time / 1e3, logs / 1e3
        printf "%.1f (%.1f) | %.1f (%.1f) | %.1f (%.1f) | %.2f | %.1f |\n", 1e3 * log_time / bytes, 1e3 * logs / bytes,
            1e3 * walk / bytes, 1e3 * walks / bytes, peer / 100, peers / 100, 1e5 * walk / bytes / peer, peak / 1024 }'
}

# The log of one lemma by members of a kind: the names of its runs and of those on a log of one leaf.
members_row() { # KIND RUN LEAF
    awk -v kind="$1" -v bytes="${bytes[one]}" -v run="$(least "$2")" -v runs="$(median "$2")" \
        -v log_time="$(least_beyond "$2" "$3")" -v logs="$(median_beyond "$2" "$3")" 'BEGIN {
        printf "| %s | %.1f (%.1f) | %.1f (%.1f) | %.1f (%.1f) |\n", kind, run / 1e3, runs / 1e3,
            log_time / 1e3, logs / 1e3, 1e3 * log_time / bytes, 1e3 * logs / bytes }'
}

# The log of many lemmas, checked by so many workers.
workers_row() { # WORKERS
    awk -v workers="$1" -v run="$(least "many $1")" -v runs="$(median "many $1")" \
        -v tables="$(least "leaf $1")" -v some_tables="$(median "leaf $1")" \
        -v log_time="$(least_beyond "many $1" "leaf $1")" -v logs="$(median_beyond "many $1" "leaf $1")" \
        -v one="$(least 'many 1')" -v one_log="$(least_beyond 'many 1' 'leaf 1')" -v peak="$(peak many "$1")" 'BEGIN {
        printf "| %d | %.1f (%.1f) | %.2f | %.1f (%.1f) | %.1f (%.1f) | %.2f | %.1f |\n", workers, run / 1e3,
            runs / 1e3, one / run, tables / 1e3, some_tables / 1e3, log_time / 1e3, logs / 1e3, one_log / log_time,
            peak / 1024 }'
}

[ -x "$program" ] || fail "no program $program: ./pdb_cli --help builds it"
program=$(readlink -f "$program")
load=$(cut -d ' ' -f 1 /proc/loadavg)
work=$(mktemp -d)
trap 'rm -r "$work"' EXIT
cd "$work"
make_files
for ((round = 0; round < repeats; round++)); do
    measure_all
done

echo "$(nproc) processors ($(sed -n 's/^model name.*: //p;T;q' /proc/cpuinfo)), load $load before;" \
    "$repeats rounds; least (median)"
echo
echo "The board is \`$(<board)\`, and the bound $bound."
echo
echo '| lemmas | tree bytes | run, ms | tables, ms | log, ms | log, ns a tree byte | walk, ns a tree byte |' \
    'make_log, ns a tree byte | walk to make_log | peak, MiB |'
echo '|---|---|---|---|---|---|---|---|---|---|'
for log in one many; do
    log_row "$log"
done
echo
echo '| members, one lemma | run, ms | log, ms | log, ns a tree byte |'
echo '|---|---|---|---|'
members_row plain 'one 1' 'leaf 1'
members_row transposed 'transposed one' 'transposed leaf'
echo
echo "| workers, ${lemmas[many]} lemmas | run, ms | times as fast | tables, ms | log, ms | times as fast | peak, MiB |"
echo '|---|---|---|---|---|---|---|'
for workers in 1 2 4; do
    workers_row "$workers"
done
