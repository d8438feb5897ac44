#!/usr/bin/env bash
# Measures the search of `pdb_cli solve` beside that of benches/peers/plain_solver.c, a plain solver in C, on ten boards of side 4
# over three tables of five tiles, and on ten of side 5 over four tables of five tiles and one of four.
#
#     benches/measure/measure_search.sh >measured.md
#
# The program has to be built: it is out/pdb_cli, or the one that PROGRAM names. If OLD names another build, it is measured too.
# SIDES says which sides, 4 and 5 if it is not set, and BUDGET how many boards are expanded at most, 5,000,000 if it is not set.
# Each run is repeated 5 times, or as often as REPEATS says, in turns. Everything else is in a temporary folder.
#
# What is measured:
#
# - The boards are the ends of random walks (`make_log board`) of the seeds 1 to 10. Both searches expand the same boards, and the
#   budget ends both; a search of more than 65,536 boards is begun anew by the workers, whose time counts too. Where a search needs less, its budget is one less than it needs, so that it writes no
#   log.
# - A time is processor time. That of the program is a run's less that of a run on the same board in the same turn with a budget
#   of 1, which reads and checks the tables too; the peer tells its own. Printed are nanoseconds a board by the median of the
#   rounds, for each board and for all together, and then the ratios of these.
# - "one" is a set of all tables, and "both" has its transposed set too.
set -euo pipefail
export LC_ALL=C

root=$(dirname "$(dirname "$(dirname "$(readlink -f "${BASH_SOURCE[0]}")")")")
program=${PROGRAM:-$root/out/pdb_cli}
old=${OLD:-}
repeats=${REPEATS:-5}
budget=${BUDGET:-5000000}
declare -A masks=([4]='818 2252 62464' [5]='230 17176 1149952 929792 31457280')
seeds='1 2 3 4 5 6 7 8 9 10'
declare -A steps=([4]='' [5]='120')
declare -A budgets times

fail() {
    echo "measure_search: $1" >&2
    exit 1
}

# The tables, set texts and boards of a side, and the budgets.
make_files() { # SIDE
    local side=$1 mask sets seed moves count told
    mkdir "$side"
    for mask in ${masks[$side]}; do
        "$program" make-table "$side" "$mask" "$side/$mask" >output
    done
    count=$(wc -w <<<"${masks[$side]}")
    seq -s ' ' 0 $((count - 1)) | sed 's/^/set /' >"$side/one"
    { cat "$side/one"; sed 's/[0-9]\+/&t/g' "$side/one"; } >"$side/both"
    for seed in $seeds; do
        ./make_log board "$side" "$seed" ${steps[$side]} >"$side/board_$seed"
        for sets in one both; do
            told=$(./plain_solver "$budget" "$(<"$side/board_$seed")" "$side/$sets" $(tables "$side"))
            read -r _ moves _ count _ <<<"$told"
            budgets[$side $sets $seed]=$((moves > 0 ? count - 1 : count))
        done
    done
}

tables() { # SIDE
    local mask
    for mask in ${masks[$1]}; do
        echo "$1/$mask"
    done
}

# The processor time of one run of a program, in microseconds.
run_for() { # PROGRAM SIDE SETS SEED BUDGET
    local took TIMEFORMAT='%3U %3S'
    took=$({ time "$1" solve "$2/board_$4" "$2/$3" log $(tables "$2") --workers 1 \
        --budget "$5" >output 2>errors || true; } 2>&1)
    grep -qx 'refused K1' output || fail "no 'refused K1' for $*: $(<output) $(<errors)"
    awk '{ printf "%d", 1e6 * ($1 + $2) }' <<<"$took"
}

# A time of a program, in microseconds.
measure() { # NAME SIDE SETS SEED
    local start run
    start=$(run_for "${programs[$1]}" "$2" "$3" "$4" 1)
    run=$(run_for "${programs[$1]}" "$2" "$3" "$4" "${budgets[$2 $3 $4]}")
    times[$*]+=$((run - start))$'\n'
}

measure_peer() { # SIDE SETS SEED
    local told expected=${budgets[$*]}
    told=$(./plain_solver "$expected" "$(<"$1/board_$3")" "$1/$2" $(tables "$1"))
    [[ $told == "moves 0 boards $expected "* ]] || fail "the peer says '$told' for $*"
    times[peer $*]+=$(awk '{ printf "%d", 1e3 * $NF }' <<<"$told")$'\n'
}

# One round over a side.
measure_side() { # SIDE
    local seed sets name
    for seed in $seeds; do
        for sets in one both; do
            for name in $names; do
                if [ "$name" = peer ]; then
                    measure_peer "$1" "$sets" "$seed"
                else
                    measure "$name" "$1" "$sets" "$seed"
                fi
            done
        done
    done
}

# The median of the rounds, in microseconds.
median() { # NAME SIDE SETS SEED
    printf '%s' "${times[$*]}" | sort -n |
        awk '{ it[NR] = $1 } END { print (it[int((NR + 1) / 2)] + it[int(NR / 2) + 1]) / 2 }'
}

# Nanoseconds a board, of some boards of a side together.
of_boards() { # NAME SIDE SETS SEEDS..
    local seed
    for seed in "${@:4}"; do
        echo "$(median "$1" "$2" "$3" "$seed") ${budgets[$2 $3 $seed]}"
    done | awk '{ time += $1; boards += $2 } END { printf "%.1f", 1e3 * time / boards }'
}

# One board: for each number of sets its budget, and the times.
row() { # SIDE SEED
    local sets name line="| $1, $2 |"
    for sets in one both; do
        line+=" ${budgets[$1 $sets $2]} |"
        for name in $names; do
            line+=" $(of_boards "$name" "$1" "$sets" "$2") |"
        done
    done
    echo "$line"
}

# All boards of a side together, and what they say.
all() { # SIDE
    local sets name line="| $1, all |"
    declare -A found
    for sets in one both; do
        line+=' |'
        for name in $names; do
            found[$name $sets]=$(of_boards "$name" "$1" "$sets" $seeds)
            line+=" ${found[$name $sets]} |"
        done
    done
    echo "$line"
    for name in $names; do
        said+="side $1, $name: both sets expand $(ratio "${found[$name one]}" "${found[$name both]}") of the boards a second of one"
        [ "$name" = peer ] || for sets in one both; do
            said+="; $sets takes $(ratio "${found[$name $sets]}" "${found[peer $sets]}") of the peer's time"
        done
        said+=$'\n'
    done
}

ratio() {
    awk -v over="$1" -v under="$2" 'BEGIN { printf "%.2f", over / under }'
}

[ -x "$program" ] || fail "no program $program: ./pdb_cli --help builds it"
program=$(readlink -f "$program")
[ -z "$old" ] || old=$(readlink -f "$old")
declare -A programs=([new]=$program [old]=$old)
names="new ${old:+old }peer"
said=
load=$(cut -d ' ' -f 1 /proc/loadavg)
work=$(mktemp -d)
trap 'rm -r "$work"' EXIT
cd "$work"
cc -O2 -o make_log "$root/benches/peers/make_log.c"
cc -O3 -march=x86-64-v2 -fno-tree-vectorize -o plain_solver "$root/benches/peers/plain_solver.c"
for side in ${SIDES:-4 5}; do
    make_files "$side"
done
for ((round = 0; round < repeats; round++)); do
    for side in ${SIDES:-4 5}; do
        measure_side "$side"
    done
done

echo "$(nproc) processors ($(sed -n 's/^model name.*: //p;T;q' /proc/cpuinfo)), load $load before and" \
    "$(cut -d ' ' -f 1 /proc/loadavg) after; the median of $repeats rounds, ns a board"
echo
header='| side, seed |'
line='|---|'
for sets in one both; do
    header+=" $sets: boards |"
    line+='---|'
    for name in $names; do
        header+=" $name |"
        line+='---|'
    done
done
echo "$header"
echo "$line"
for side in ${SIDES:-4 5}; do
    for seed in $seeds; do
        row "$side" "$seed"
    done
    all "$side"
done
echo
printf '%s' "$said"
