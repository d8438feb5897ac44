#!/usr/bin/env bash
# Runs the built program and checks how much it does for its answers: how many threads are at work at once, which searches are begun
# and how many boards they expand, how often each block and lemma is checked, where a spent budget ends, and how many inputs are read.
#
#     tools/checks/check_work.sh [PROGRAM]
#
# The words, the lines written and the status are those of tools/checks/check_runs.sh, which runs this script too. How many boards a
# search expands is counted by tools/plain/plain_search.py, over tables of tools/plain/plain_table.c.
set -uo pipefail

root=$(dirname "$(dirname "$(dirname "$(readlink -f "${BASH_SOURCE[0]}")")")")
. "$root/tools/checks/runs.sh"
: >"$work/errors"
make_preload hold_threads
make_preload step_clock
cc -O2 -o "$work/plain_table" "$root/tools/plain/plain_table.c" || exit 2
cc -O2 -pthread -o "$work/edge_kernel" "$root/benches/peers/edge_kernel.c" || exit 2
# The forbidden strings of up to 12 moves.
"$work/edge_kernel" 12 >"$work/strings"

# A file of one line.
line() { echo "$2" >"$1"; }
"$work/plain_table" 2 6 >two
for mask in 2 4 8 14 16 30 32 64 128 256 480; do "$work/plain_table" 3 "$mask" >"tiles_$mask"; done
line set_0 'set 0'
# Boards that are 20, 25 and 31 moves from the goal board.
line near '0 3 2 4 1 8 7 6 5'
line far '8 6 1 3 5 0 2 7 4'
line farthest '8 0 6 5 4 7 2 3 1'
shortest_31=DDLURRULLDRRDLLURURDDLUURDDLLUU

#
# Threads.
#

# Claims that one thread decides, over a table of one block, which one worker takes.
yes '3 2 1 0 : 6' | head -n 64 >easy
head -n 8 easy >few
held 4 'bound 6 of 3 2 1 0' prove easy set_0 two --workers 4
hold 4 prove few set_0 two --workers 2
check 'two workers, where two are asked for' [ "$status.$most" = 0.2 ]
# Without the flag there is one.
for words in 'prove few set_0 two' 'table tiles_30'; do
    # shellcheck disable=SC2086
    hold 2 $words
    check "$words has one worker" [ "$status.$((most <= 1))" = 0.1 ]
done

# Claims that take more boards than one thread searches alone, in each form, over a table of two blocks.
for form in ' : 28' " ; $shortest_31" '' ' : 30 part 0/1'; do
    line claims "$(cat farthest)$form"
    hold 4 prove claims set_0 tiles_14 --workers 4
    check "four workers at once for a claim$form" [ "$status.$most" = 0.4 ]
done
# So they do in a search that spends its budget.
hold 4 solve farthest set_0 made tiles_14 --budget 200000 --workers 4
check 'four workers at once where the budget is spent' [ "$status.$(tail -n 1 "$work/output").$most" = '1.refused K1.4' ]

#
# Searches, and the boards that they expand.
#

# Runs the program on a clock that moves by a second each time that it is read, so that all is told as soon as it may be.
step() {
    status=0
    (export PDB_PROGRESS=1 STEP=1000 LD_PRELOAD=$work/step_clock.so && exec "$bare" "$@") \
        >"$work/output" 2>"$work/told" || status=$?
    sed -nE 's/^pdb_cli: ((claim [0-9]+, )?below [0-9]+): ([0-9]+) boards, ([0-9]+) a second$/\1:\3:\4/p' "$work/told" >"$work/paces"
    : >"$work/errors"
}

# The searches that were told, in order, each as `below N: BOARDS` behind its claim. The first telling of a search comes a second
# after its beginning, and workers may tell out of turn. Searches without boards don't count.
searches() {
    awk -F: '$2 == $3 { tell() }
        { name = $1; if ($2 > boards) boards = $2 }
        END { tell() }
        function tell() { if (boards) print name ": " boards; boards = 0 }' "$work/paces"
}

# Whether the searches were these, given as lines, and the run ended with status $1.
searched() {
    [ "$status" = "$1" ] && searches | cmp -s - <(cat "${@:2}")
}

# Whether $2 is as many as $1 at most, and more than half as many.
at_most() {
    [ "$(($2 <= $1 && 2 * $2 > $1))" = 1 ]
}

# Whether each telling, a second after the one before, has its pace.
paced() {
    [ -s "$work/paces" ] && awk -F: '$2 == $3 { seconds = 0 } $3 != int($2 / ++seconds) { exit 1 }' "$work/paces"
}

# The boards that searches expand, by a plain search: plain FILE WORD..
plain() {
    local file=$1
    shift
    "$root/tools/plain/plain_search.py" "$@" >"$file"
}

# Of searches those that begin within so many boards of all of them, the last of them cut short.
within() { awk -v left="$1" '{ boards = $3 < left ? $3 : left; if (boards) print $1, $2, boards; left -= boards }'; }
# As it is told of `prove`: a search that takes more boards than one thread searches alone is begun anew by all workers.
as_told() { awk '{ print $1, $2, ($3 > 65536 ? $3 + 65536 : $3) }'; }
of_claim() { sed "s/^/claim $1, /"; }
sum() { awk '{ boards += $NF } END { print boards + 0 }'; }

plain "$work/near_plain" --each near set_0 tiles_14
step solve near set_0 made tiles_14
check 'solve searches below each threshold once' searched 0 "$work/near_plain"
check 'solve tells its pace' paced
rm made

# Some claims that are decided without a search or by few boards, two that are not, and more of the first kind.
printf '%s\n' '1 0 2 3 4 5 6 7 8' "$(cat near) : 20" "$(cat near) : 22" '2 1 0 3 4 5 6 7 8' "$(cat near) ; DU" "$(cat far)" \
    "$(cat near)" "$(cat farthest) : 28" "$(cat near) ; RDDRUULLDRDLUURRDLLU" >claims
for flag in --fold ''; do
    # shellcheck disable=SC2086
    plain "$work/far_claim" --strings "$work/strings" --each far set_0 tiles_14 $flag
    # shellcheck disable=SC2086
    plain "$work/farthest_claim" --strings "$work/strings" --below 28 farthest set_0 tiles_14 $flag
    {
        # A full table has words, which are made behind a third as many boards as it has placements, 504.
        [ -n "$flag" ] || within 168 <"$work/far_claim" | of_claim 5
        as_told <"$work/far_claim" | of_claim 5
        as_told <"$work/farthest_claim" | of_claim 7
    } >"$work/wanted"
    # shellcheck disable=SC2086
    step prove claims set_0 tiles_14 $flag
    check "hard claims alone are searched for again, and once more over words $flag" searched 1 "$work/wanted"
    check "prove tells its pace $flag" paced
    # What four workers share may lack its last tellings.
    # shellcheck disable=SC2086
    step prove claims set_0 tiles_14 --workers 4 $flag
    check "four workers begin the same searches $flag" cmp -s <(searches | sed '$d') <(sed '$d' "$work/wanted")
    check "four workers expand no more boards $flag" at_most "$(tail -n 1 "$work/wanted" | sum)" "$(searches | tail -n 1 | sum)"
done
# Nine tables have no words either, so their claim is searched for once.
nine_tables=(tiles_{2,4,8,16,32,64,128,256,14})
printf 'set %s\n' '0 1 2' '3 4t 5' '6t 7t' 8 >sets_of_nine
line claims "$(cat farthest) : 30"
plain "$work/plain_nine" --strings "$work/strings" --below 30 farthest sets_of_nine "${nine_tables[@]}"
step prove claims sets_of_nine "${nine_tables[@]}"
check 'over nine tables a claim is searched for once' searched 0 <(as_told <"$work/plain_nine" | of_claim 0)

#
# Budgets that are spent.
#

# Within 65,536 boards one thread gives a claim up, and no search for it is told.
line claims "$(cat far)"
step prove claims set_0 tiles_14 --budget 65536 --workers 4
check 'a claim that is given up is not searched for again' searched 1 /dev/null
check 'for its budget' [ "$(tail -n 1 "$work/output")" = "refused K1 of $(cat far)" ]

# Where `solve` may expand 70,000 boards its last search has fewer left than one thread searches alone, and of 150,000 it has more.
plain "$work/far_plain" --each far set_0 tiles_14
for workers in 1 4; do
    step solve far set_0 made tiles_14 --budget 70000 --workers "$workers"
    check "solve spends its budget, $workers workers" searched 1 <(within 70000 <"$work/far_plain")
    step solve far set_0 made tiles_14 --budget 150000 --workers "$workers"
    check "K1 of solve, $workers workers" [ "$status.$(tail -n 1 "$work/output")" = '1.refused K1' ]
    check "$workers workers expand at most twice the budget of solve" at_most 300000 "$(searches | sum)"
    step prove claims set_0 tiles_14 --budget 70000 --workers "$workers"
    check "$workers workers search for a claim within its budget" \
        searched 1 <(cat <(within 168 <"$work/far_claim") <(within 70000 <"$work/far_claim") | of_claim 0)
    for form in ' : 28' ' : 30' " ; $shortest_31" '' ' : 30 part 0/1'; do
        line claim "$(cat farthest)$form"
        step prove claim set_0 tiles_14 --budget 100000 --workers "$workers"
        check "K1 of a claim$form" [ "$status.$(tail -n 1 "$work/output")" = "1.refused K1 of $(cat farthest)$form" ]
        check "$workers workers expand at most twice the budget for a claim$form" at_most 200000 "$(searches | sum)"
    done
done

#
# Blocks and lemmas.
#

# The lines that tell of so many blocks or lemmas, as they are begun: begun FILE NUMBER FILES COUNT
begun() {
    local at
    for ((at = 1; at <= $4; at++)); do
        echo "pdb_cli: $1, $2 of $3: $((100 * at / $4)) percent of $4 blocks or lemmas begun"
    done
}

# A run with the words behind `:` must be a yes, and begin these blocks and lemmas once each: FILE COUNT .. : WORD..
begins() {
    local files=()
    while [ "$1" != : ]; do
        files+=("$1 $2")
        shift 2
    done
    shift
    step "$@"
    for ((at = 0; at < ${#files[@]}; at++)); do
        begun "${files[at]% *}" "$((at + 1))" "${#files[@]}" "${files[at]#* }"
    done >"$work/wanted"
    check "$* begins each block and lemma once" [ "$status" = 0 ]
    check "$*: each is told" cmp -s <(grep ' of .* blocks or lemmas ' "$work/told" | grep ', ') "$work/wanted"
}

# Each table has 3,024 placements, in blocks of 256. The log has 64 lemmas of one leaf.
line board '3 1 2 0 4 5 6 7 8'
line puzzle '3 1 2 0 4 5 6 7 8 ; U'
{ printf 'PDBL\1\3\0\0\0\100' && for _ in {1..64}; do printf '\3\1\2\0\4\5\6\7\10\1\0\0\0\1\1'; done; } >lemmas
line claims "$(cat near)"
begins tiles_30 12 : table tiles_30
begins made 12 : make-table 3 30 made --replace
begins tiles_30 12 tiles_480 12 lemmas 64 : bound board set_0 lemmas tiles_30 tiles_480
begins tiles_30 12 tiles_480 12 lemmas 64 : optimal puzzle set_0 lemmas tiles_30 tiles_480 --fold
begins tiles_30 12 tiles_480 12 made 1 : solve near set_0 made tiles_30 tiles_480 --replace
begins tiles_30 12 tiles_480 12 : prove claims set_0 tiles_30 tiles_480

#
# Inputs.
#

# Sets `told` to the digest lines of the files.
digest_lines() {
    local file
    told=()
    for file; do told+=("sha256 $(sha256sum <"$file" | cut -d ' ' -f 1)"); done
}

# More tables than there may be are all digested.
mapfile -t tables < <(yes two | head -n 25)
line board_of_2 '3 2 1 0'
line puzzle_of_2 '3 2 1 0 ; ULDRUL'
digest_lines "${tables[@]}" few
expect 'claims over 25 tables' 1 "${told[@]}" 'refused S5' : prove few set_0 "${tables[@]}"
for command in 'bound board_of_2' 'optimal puzzle_of_2'; do
    # shellcheck disable=SC2086
    expect "$command over 25 tables" 1 "${told[@]}" 'refused S5' : $command set_0 few "${tables[@]}"
done
digest_lines "${tables[@]}"
expect 'solve over 25 tables' 1 "${told[@]}" 'refused S5' : solve board_of_2 set_0 made_log "${tables[@]}"
# A bound of 25 parts, each told by a file of its own.
answers=()
for ((part = 0; part < 25; part++)); do
    line "answers_$part" "part $part/25 of bound 6 of 3 2 1 0"
    answers+=("answers_$part")
done
joins 'a bound from 25 files' 'joined bound 6 of 3 2 1 0 from 25 parts, by lines that were read' board_of_2 6 25 "${answers[@]}"
line answers_24 'part 3/25 of bound 6 of 3 2 1 0'
expect 'a bound from 25 files, of which two tell the same part' 1 '3 2 1 0 : 6 part 24/25' : parts board_of_2 6 25 "${answers[@]}"

# A set text that is too long ends a run before a table is read: nobody writes to this pipe.
truncate -s 4194305 long_sets
mkfifo pipe
printf 'PDBL\1\2\0\0\0\1\3\2\1\0\6\0\0\0\1\1' >leaf
for words in 'bound board_of_2 long_sets leaf pipe' 'optimal puzzle_of_2 long_sets leaf pipe' 'solve board_of_2 long_sets made_log pipe' \
    'prove few long_sets pipe'; do
    status=0
    # shellcheck disable=SC2086
    timeout 10 "$bare" $words >"$work/output" 2>"$work/errors" || status=$?
    check "a set text of 4 MiB ends $words" wrote 2 'fault size long_sets'
done

echo "$passed passed, $failed failed"
[ "$failed" = 0 ]
