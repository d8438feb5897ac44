#!/usr/bin/env bash
# Runs the chooser of tables and the finder of moves on sides 3 and 4, and has the program answer by what they write.
#
#     tools/checks/check_choose.sh [PROGRAM]
#
# The words, the lines written and the status are those of tools/checks/check_runs.sh, which runs this script too. It needs cc.
set -uo pipefail

root=$(dirname "$(dirname "$(dirname "$(readlink -f "${BASH_SOURCE[0]}")")")")
. "$root/tools/checks/runs.sh"
export XDG_CACHE_HOME=$work/cache
ln -s "$bare" pdb_cli

# Runs the chooser with these words, and keeps what it writes and its status.
choose() {
    status=0
    "$root/tools/choose_tables.py" "$@" <"$input" >"$work/output" 2>"$work/errors" || status=$?
}

# Whether each set of the script $1 has each tile below $2 once. The table of the mirrored tiles stands for a transposed one.
have_each_tile_once() {
    python3 - "$1" "$2" <<'END_OF_PYTHON'
import re, sys
side = round(int(sys.argv[2]) ** 0.5)
text = open(sys.argv[1]).read()
tables = [list(map(int, it.split(","))) for it in re.findall(r"make-table \d tiles:([\d,]+) t\d+ ", text)]
lines = re.search(r"printf '(.*)\\n' >sets", text)[1].split("\\n")
for line in lines:
    tiles = []
    for member in line.removeprefix("set ").split():
        of = tables[int(member.rstrip("t"))]
        tiles += [tile % side * side + tile // side for tile in of] if member[-1] == "t" else of
    if sorted(tiles) != list(range(1, side * side)):
        sys.exit(f"{line}: {tiles}")
END_OF_PYTHON
}

# Whether the script $1 answers by this line behind its digests.
answers() {
    [ "$(bash "$1" 2>"$work/errors" | tail -n 1)" = "$2" ]
}

# A farthest board of side 3, which takes 31 moves, and a board of side 4, of 57 moves (Korf 1985).
farthest='8 0 6 5 4 7 2 3 1'
korf='14 13 15 7 11 12 9 5 6 0 2 1 4 8 10 3'
echo "$farthest : 31" >three
echo "$korf : 57" >four

# Two tables of four tiles take 67,608 bytes with their words, and four take 120,096.
for words in '--tiles 3 --sets 1' '--tiles 4' '--tiles 4 --memory 0.0001' '--tiles 8 --sets 3'; do
    # shellcheck disable=SC2086
    choose three $words
    check "tables are chosen by $words" [ "$status.$(wc -l <"$work/errors")" = 0.0 ]
    cp "$work/output" "chosen${words// /}"
    check "each set of $words has each tile once" have_each_tile_once "chosen${words// /}" 9
    check "the script of $words answers the claim" answers "chosen${words// /}" "bound 31 of $farthest"
    # shellcheck disable=SC2086
    choose three $words
    check "the script of $words is the same again" cmp -s "$work/output" "chosen${words// /}"
done
check 'where a second set has no room, it is the first one transposed' \
    [ "$(grep -c make-table 'chosen--tiles4--memory0.0001').$(grep -c 'set 0 1.nset 0t 1t' 'chosen--tiles4--memory0.0001')" = 2.1 ]

# What is expected is half of the boards at the least, and twice as many at the most.
choose four --tiles 5 --sets 1
check 'tables are chosen on side 4' [ "$status" = 0 ]
cp "$work/output" on_four
check 'each set on side 4 has each tile once' have_each_tile_once on_four 16
check 'the script on side 4 answers the claim' answers on_four "bound 57 of $korf"
expected=$(sed -n 's/^# claim 0, below 57: \(.*\) boards$/\1/p' on_four)
tail -n 1 on_four >run
for factor in 0.5 2; do
    wanted="bound 57 of $korf"
    [ "$factor" = 2 ] || wanted="refused K1 of $korf : 57"
    sed "s/$/ --budget $(printf '%.0f' "$(awk "BEGIN { print $factor * $expected }")")/" run >budgeted
    check "$factor times the $expected boards that are expected end in $wanted" answers budgeted "$wanted"
done
in_the_way=$(grep -o 't[0-9]* --workers' on_four | head -n 1 | cut -d ' ' -f 1)
echo no table >"$in_the_way"
check 'a script ends where a table is not made' answers on_four "fault write $in_the_way"
echo "$korf" >bare
choose bare --tiles 4 --sets 1 --most 1e4
check 'thresholds of a bare board are told in steps of two' \
    [ "$(sed -n 's/^# claim 0, below \([0-9]*\):.*/\1/p' "$work/output" | awk 'NR > 1 && $1 != last + 2 { bad = 1 } { last = $1 } END { print (NR > 2 && !bad) }')" = 1 ]

refused() { # SENTENCE WORD..
    local sentence=$1
    shift
    choose "$@"
    check "the chooser refuses $*" [ "$status.$(<"$work/errors").$(<"$work/output")" = "2.choose_tables: $sentence." ]
}
echo '1 0 2 3 4 5 6 8 7' >odd
cat three four >both
refused 'the board of line 0 has no solution, by parity' odd --tiles 4
refused 'there are no claims, or boards of several sides' both --tiles 4
echo '1 0 2' >short
refused 'line 0 is no claim on a board of side 3, 4 or 5' short --tiles 4
refused 'a set of such tables takes 0.0 GB: fewer tiles a table take less' three --tiles 4 --memory 0.00001

# Moves by a beam, which the program replays.
cc -O2 -o "$work/find_moves" "$root/tools/find_moves.c" || exit 2
./pdb_cli make-table 3 tiles:1-4 low >/dev/null
./pdb_cli make-table 3 tiles:5-8 high >/dev/null
printf 'set 0 1\nset 0t 1t\n' >sets
printf '%s\n' "$farthest" '0 1 2 3 4 5 6 7 8 : 0' "$(<odd)" '1 0 2 3 4 5 6 7 8 ; L' >boards
status=0
"$work/find_moves" 1000 sets low high <boards >moves 2>"$work/errors" || status=$?
check 'a board without a solution is left out' [ "$status.$(wc -l <moves).$(grep -c parity "$work/errors")" = 1.3.1 ]
check 'the moves of boards at hand are found' [ "$(sed -n 2,3p moves | tr '\n' '|')" = '0 1 2 3 4 5 6 7 8 ; |1 0 2 3 4 5 6 7 8 ; L|' ]
head -n 1 moves >puzzle
expect 'the moves of a farthest board solve it' 0 'solution 31' : replay puzzle
"$work/find_moves" 1000 sets low high <boards >again 2>/dev/null
check 'the same moves are found again' cmp -s again moves

echo "$passed passed, $failed failed"
[ "$failed" = 0 ]
