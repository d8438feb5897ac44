#!/usr/bin/env bash
# Runs the built program at the sizes that its users have, and checks what it writes and its status: tables of hundreds of megabytes,
# shortest solutions of up to 66 moves, logs of tens of megabytes, 16 sets, budgets, many inputs, progress over many blocks, and all
# workers at once.
#
#     tools/checks/check_sizes.sh [PROGRAM]
#
# The words, the lines written and the status are those of tools/checks/check_runs.sh, which runs this script too. What is wanted of tables was
# made by tools/plain/plain_table.c, which takes minutes; with PLAIN=1 it is made anew and compared. The numbers of moves are those that
# Korf published of his boards of the 15-puzzle (1985). It takes 2.2 GB of memory and 3 GB of the folder for temporary files.
set -uo pipefail

root=$(dirname "$(dirname "$(dirname "$(readlink -f "${BASH_SOURCE[0]}")")")")
. "$root/tools/checks/runs.sh"
: >"$work/errors"

# Of a plain table: the digest of its file, the line of the check, and the number of its entries, by side and mask.
declare -A digests=([4_254]=962d05c5b754d425f25845135a046e296434b19db7afd6bdac0f280da0ded285 [5_126]=736751cfaf32a8c3a4ea844ec49ab40ba920934969eb0eb22265783fc65aec90)
declare -A lines=(
    [4_254]='exact side 4 mask 254 entries 461260800 unreachable 0 deepest 34'
    [5_126]='exact side 5 mask 126 entries 892584000 unreachable 0 deepest 39'
)
if [ -n "${PLAIN-}" ]; then
    cc -O2 -o "$work/plain_table" "$root/tools/plain/plain_table.c" || exit 2
    for table in "${!digests[@]}"; do
        check "the plain table $table" [ "$("$work/plain_table" "${table%_*}" "${table#*_}" | sha256sum)" = "${digests[$table]}  -" ]
    done
fi

#
# Tables.
#

# A table of seven tiles: 57,657,600 placements of eight regions at most. Those of the last one are one, so nothing stands beside its
# last entry.
expect 'make-table 4 254' 0 "sha256 ${digests[4_254]}" "${lines[4_254]}" : make-table 4 254 seven --workers 2
expect 'table of seven tiles' 0 "sha256 ${digests[4_254]}" "${lines[4_254]}" : table seven --workers 4

# One worker reads the clock, which moves by 300 milliseconds then, at the start and once a block of 256 placements, so it tells at each
# fourth block. More workers tell no more often.
blocks=225225
cc -O1 -shared -fPIC -o "$work/step_clock.so" "$root/tools/preload/step_clock.c" || exit 2
for ((block = 4; block <= blocks; block += 4)); do
    echo "pdb_cli: seven, 1 of 1: $((100 * block / blocks)) percent of $blocks blocks or lemmas begun"
done >"$work/progress"
for workers in 1 4; do
    status=0
    (export PDB_PROGRESS=1 LD_PRELOAD=$work/step_clock.so && exec "$bare" table seven --workers "$workers") \
        >"$work/output" 2>"$work/told" || status=$?
    : >"$work/errors"
    check "a table of $blocks blocks by $workers workers" wrote 0 "sha256 ${digests[4_254]}" "${lines[4_254]}"
    check "$workers workers tell how far they are" [ -s "$work/told" ]
    check "$workers workers tell no line too many" [ "$(wc -l <"$work/told")" -le "$(wc -l <"$work/progress")" ]
    check "$workers workers tell lines of progress alone" [ -z "$(grep -Evx "pdb_cli: seven, 1 of 1: (100|[1-9]?[0-9]) percent of $blocks blocks or lemmas begun" "$work/told")" ]
    [ "$workers" != 1 ] || check 'all shares that one worker tells' cmp -s "$work/told" "$work/progress"
done

change seven $((461260800 + 19)) 07
table seven 1 'refused T7 at entry 461260799' --workers 2
change seven $((461260800 + 19)) FE
change seven 20 07
table seven 1 'refused T7 at entry 0' --workers 2
change seven 20 10

# A table of six tiles of the 24-puzzle.
expect 'make-table 5 126' 0 "sha256 ${digests[5_126]}" "${lines[5_126]}" : make-table 5 126 six --workers 4
rm six

# More bytes than 2^31, of which the first is no table's.
truncate -s 2147483649 sparse
table sparse 1 'refused T2'
rm sparse

#
# Claims of the 15-puzzle.
#

for mask in 9826 55680 28 62 1984 63488 3840 61440; do
    "$bare" make-table 4 "$mask" "tiles_$mask" --workers 2 >/dev/null
done
six_six_three='tiles_9826 tiles_55680 tiles_28'
three_of_five='tiles_62 tiles_1984 tiles_63488'
echo 'set 0 1 2' >one_set
printf 'set 0 1 2\nset 0t 1t 2t\n' >with_mirror
# Of 9 and of 16 sets the last one says the most by far.
for sets in 9 16; do
    yes 'set 2' | head -n "$((sets - 1))" >"none_of_$sets"
    cat "none_of_$sets" one_set >"last_of_$sets"
done

# Korf's board of this number.
board() {
    sed -n "$1s/ ;.*//p" "$root/docs/results/korf_1985.claims" >"korf_$1"
}

# Sets `told` to the digest lines of the files.
digest_lines() {
    local file digest
    told=()
    for file; do
        digest=$(sha256sum 2>/dev/null <"$file")
        told+=("sha256 ${digest%% *}")
    done
}

# What `solve` finds for a board of Korf's must have so many moves, and its log must prove it: solved NUMBER MOVES SETS TABLES WORD..
solved() {
    local number=$1 moves=$2 sets=$3 tables=() letters fold=
    read -ra tables <<<"$4"
    shift 4
    [[ $* != *--fold* ]] || fold=--fold
    board "$number"
    rm -f made
    run solve "korf_$number" "$sets" made "${tables[@]}" "$@"
    digest_lines "${tables[@]}" made
    letters=$(sed -n 's/^moves *//p' "$work/output")
    check "solve of board $number over $sets $*" wrote 0 "${told[@]}" "moves $letters" "optimal $moves"
    { cat "korf_$number" && echo "; $letters"; } >puzzle
    expect "replay of board $number" 0 "solution $moves" : replay puzzle
    # shellcheck disable=SC2086
    expect "optimal of board $number over $sets $*" 0 "${told[@]}" "optimal $moves" : \
        optimal puzzle "$sets" made "${tables[@]}" --workers 2 $fold
}

# Where the budget is too small K1 is told: gives_up NUMBER SETS TABLES WORD..
gives_up() {
    local number=$1 sets=$2 tables=()
    read -ra tables <<<"$3"
    shift 3
    board "$number"
    digest_lines "${tables[@]}"
    expect "solve of board $number over $sets $* gives up" 1 "${told[@]}" 'refused K1' : \
        solve "korf_$number" "$sets" made "${tables[@]}" "$@"
}

# Boards within the usual budget, and shortest solutions of 65 and 66 moves, the most of Korf's boards.
solved 4 56 with_mirror "$six_six_three"
solved 29 54 with_mirror "$six_six_three" --workers 2
solved 2 55 with_mirror "$six_six_three"
mv made made_before
solved 2 55 with_mirror "$six_six_three" --workers 4
check 'the log is the same once more, by four workers' cmp -s made made_before
rm made_before
solved 17 66 with_mirror "$six_six_three" --budget 100000000
solved 88 65 one_set "$three_of_five" --budget 1000000000
check 'the log of board 88 has more than 40 megabytes' [ "$(stat -c %s made)" -gt 40000000 ]
lemmas=$(od -An -tu4 --endian=big -j 6 -N 4 made)
check 'and at most a lemma for each 500 bytes' [ "$((lemmas > 1000 && 500 * lemmas <= $(stat -c %s made)))" = 1 ]
solved 42 42 one_set "$three_of_five" --budget 4294967296
solved 10 59 one_set "$three_of_five" --fold --budget 2000000
gives_up 10 one_set "$three_of_five" --fold --budget 1000000
gives_up 10 one_set "$three_of_five" --fold
# The board has an entry behind the first 2^26 of a table.
solved 42 42 one_set 'seven tiles_3840 tiles_61440' --workers 4
rm seven
for sets in 9 16; do
    solved 4 56 "last_of_$sets" "$six_six_three" --budget 2000000
    gives_up 4 "none_of_$sets" "$six_six_three" --budget 2000000
done

# Over nine tables `prove` has no edge words: it asks the sums of all, of three, of five and of one of them.
nine_tables=$three_of_five
for mask in 14 112 896 7168 57344 4368; do
    "$bare" make-table 4 "$mask" "tiles_$mask" >/dev/null
    nine_tables+=" tiles_$mask"
done
printf 'set %s\n' '0 1 2' '3 4 5 6 7' '3t 4t 5t 6t 7t' 8 '0t 1t 2t' >sets_of_nine
sed -n '2p;17p;88p' "$root/docs/results/korf_1985.claims" >korf_claims
mapfile -t answers < <(grep -Ff korf_claims "$root/docs/results/korf_1985.answers")
# shellcheck disable=SC2086
digest_lines $nine_tables korf_claims
for workers in 1 4; do
    # shellcheck disable=SC2086
    expect "prove over nine tables by $workers workers" 0 "${told[@]}" "${answers[@]}" : \
        prove korf_claims sets_of_nine $nine_tables --workers "$workers"
done

# One lemma of 20 megabytes. With a greater bound its tree has a leaf that doesn't hold.
cc -O2 -march=x86-64-v2 -o "$work/make_log" "$root/benches/peers/make_log.c" || exit 2
# shellcheck disable=SC2086
"$work/make_log" log "$(cat korf_88)" 63 0 one_lemma $three_of_five >/dev/null
check 'the lemma has more than 16 mebibytes' [ "$(stat -c %s one_lemma)" -gt 16777216 ]
# shellcheck disable=SC2086
digest_lines $three_of_five one_lemma
# shellcheck disable=SC2086
expect 'bound of a large lemma' 0 "${told[@]}" 'bound 63' : bound korf_88 one_set one_lemma $three_of_five --workers 2
change one_lemma 26 41
# shellcheck disable=SC2086
digest_lines $three_of_five one_lemma
# shellcheck disable=SC2086
expect 'bound of a large lemma that claims too much' 1 "${told[@]}" 'refused L6 at lemma 0' : \
    bound korf_88 one_set one_lemma $three_of_five --workers 2

# More tables than there may be.
"$bare" make-table 2 6 two >/dev/null
echo '3 2 1 0' >board
echo 'set 0' >set_0
rm made
for count in 25 40; do
    mapfile -t files < <(yes two | head -n "$count")
    digest_lines "${files[@]}" two
    expect "bound over $count tables" 1 "${told[@]}" 'refused S5' : bound board set_0 two "${files[@]}"
    digest_lines "${files[@]}"
    expect "solve over $count tables" 1 "${told[@]}" 'refused S5' : solve board set_0 made "${files[@]}"
done

#
# Threads and syncs.
#

make_preload hold_threads
make_preload count_calls

# A table of one block, which one worker takes, and 64 lemmas of one leaf each.
python3 - >lemmas <<'END'
import sys
lemma = bytes([3, 2, 1, 0, 4, 0, 0, 0, 1, 1])
sys.stdout.buffer.write(b"PDBL\x01\x02" + (64).to_bytes(4, "big") + 64 * lemma)
END
held 4 'bound 4' bound board set_0 lemmas two --workers 4
held 4 'bound 4' bound board set_0 lemmas two --workers 4 --fold
# Tables of many blocks, and one lemma.
echo '3 1 2 0 4 5 6 7 8' >board_of_3
"$bare" make-table 3 30 four >/dev/null
printf 'PDBL\1\3\0\0\0\1\3\1\2\0\4\5\6\7\10\1\0\0\0\1\1' >lemma_of_3
for fold in '' --fold; do
    # shellcheck disable=SC2086
    held 4 'bound 1' bound board_of_3 set_0 lemma_of_3 four --workers 4 $fold
done
# Workers share the log of a large tree: no lemma has a quarter of it.
echo '8 0 6 5 4 7 2 3 1' >far_board_of_3
"$bare" solve far_board_of_3 set_0 made four --budget 10000000 >/dev/null
check 'a large tree is cut into lemmas' python3 - made <<'END'
import sys
log = open(sys.argv[1], "rb").read()
lengths, start = [], 10
while start < len(log):
    lengths.append(14 + int.from_bytes(log[start + 10 : start + 14], "big"))
    start += lengths[-1]
sys.exit(not (len(log) > 200000 and max(lengths) < len(log) // 4))
END
"$bare" make-table 3 510 eight >/dev/null
held 4 'exact side 3 mask 510 entries 362880 unreachable 181440 deepest 31' table eight --workers 4

# A run with the words behind $2 must make at least so many of the calls $2, `t` for threads or `s` for syncs: calls COUNT KIND WORD..
calls() {
    local count=$1 kind=$2
    shift 2
    status=0
    (export LD_PRELOAD=$work/count_calls.so && exec "$bare" "$@") >"$work/output" 2>"$work/errors" 9>"$work/calls" || status=$?
    check "at least $count calls $kind: $*" [ "$status.$(($(tr -cd "$kind" <"$work/calls" | wc -c) >= count))" = 0.1 ]
}

# The digest has a thread of its own beside two workers. Tables are built by all processors, whatever the workers.
calls 2 t table tiles_62 --workers 2
[ "$(nproc)" = 1 ] || calls 3 t make-table 4 62 made_table
for words in 'make-table 2 6 made' 'make-table 4 62 made' 'solve board set_0 made two'; do
    rm -f made
    # shellcheck disable=SC2086
    calls 1 s $words
done

echo "$passed passed, $failed failed"
[ "$failed" = 0 ]
