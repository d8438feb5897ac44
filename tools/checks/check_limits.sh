#!/usr/bin/env bash
# Runs the built program, and checks what stands under OUT behind a run and beside it, how much memory runs take by the bytes of their
# tables, and inputs of as many bytes as they may have.
#
#     tools/checks/check_limits.sh [PROGRAM]
#
# The words, the lines written and the status are those of tools/checks/check_runs.sh, which runs this script too. It takes 0.4 GB of
# memory.
set -uo pipefail

root=$(dirname "$(dirname "$(dirname "$(readlink -f "${BASH_SOURCE[0]}")")")")
. "$root/tools/checks/runs.sh"

for mask in 62 126 8064 57344; do
    "$bare" make-table 4 "$mask" "tiles_$mask" >/dev/null
done
"$bare" make-table 2 6 F12 >/dev/null
"$bare" make-table 2 14 F123 >/dev/null
echo 'set 0' >one_set
echo '3 2 1 0' >board
echo '1 0 2 3 4 5 6 7 8 9 10 11 12 13 14 15' >next
printf 'PDBL\1\2\0\0\0\1\3\2\1\0\6\0\0\0\1\1' >leaf

#
# OUT.
#

# A file of 3 megabytes that is replaced, as it is told to, keeps its mode.
{ printf 'PDBL\2' && head -c 3000000 /dev/zero; } >large_log
for mode in 600 640 755; do
    cp large_log made && chmod "$mode" made
    says 'exact side 4 mask 62 entries 3144960 unreachable 0 deepest 25' 'make-table 4 62 made --replace'
    check "a log of mode $mode becomes a table of that mode" cmp -s made tiles_62
    check "a table that is made keeps the mode $mode" [ "$(stat -c %a made)" = "$mode" ]
    says 'optimal 1' 'solve next one_set made made --replace'
    check "a table of mode $mode becomes a log" [ "$(head -c 5 made)" = $'PDBL\2' ]
    check "a log that is made keeps the mode $mode" [ "$(stat -c %a made)" = "$mode" ]
    rm -f made
done

# Where a file can't be renamed, OUT stays, and nothing is left: cannot_rename WORD..
cc -O1 -shared -fPIC -o "$work/fail_rename.so" "$root/tools/preload/fail_rename.c" || exit 2
cannot_rename() {
    local files
    files=$(stat -c '%n %a %i %s %Y' -- *)
    status=0
    (export LD_PRELOAD=$work/fail_rename.so && exec "$bare" "$@") >"$work/output" 2>"$work/errors" || status=$?
    check "$* can't rename" told_whole 'fault write out' \
        'out: nothing can be kept there: does its folder exist, may you write there, and is there room?'
    check "the fault of $* comes alone" [ "$(wc -l <"$work/output")" = 1 ]
    check "$* leaves the files" [ "$(stat -c '%n %a %i %s %Y' -- *)" = "$files" ]
}
cannot_rename make-table 4 62 out
cannot_rename solve board one_set out F12
for before in large_log tiles_62; do
    cp "$before" out
    cannot_rename make-table 4 62 out --replace
    cannot_rename solve next one_set out tiles_62 --replace --fold
    check "$before stays where there is no renaming" cmp -s out "$before"
done
rm out

#
# Memory.
#

# Six tiles, six and three of the 15-puzzle. A table has a byte an entry, a folded one a byte a placement, and the words of a table of
# k tiles 4 * 16^k bytes.
tables=(tiles_126 tiles_8064 tiles_57344)
echo 'set 0 1 2' >sets
table_bytes=$(cat "${tables[@]}" | wc -c)
largest_table=$(wc -c <tiles_126)
folded_bytes=$((2 * 5765760 + 3360))
word_bytes=$((2 * 4 * 16 ** 6 + 4 * 16 ** 3))
# All else that a run has.
besides=24000000
sed -n 88p "$root/docs/results/korf_1985.claims" | sed 's/ ;.*//' >hard

# Runs a program, ends it soon behind so many lines, if there are to be any, and writes to a file the most memory that it had, and the
# least of what it had behind these lines.
cat >"$work/memory.py" <<'END'
import os, re, subprocess, sys, time
path, lines, *words = sys.argv[1:]
least = 0
started = subprocess.Popen(words, stdin=subprocess.DEVNULL, stdout=subprocess.PIPE if lines != "0" else None)
if lines != "0":
    print(*(started.stdout.readline().decode() for _ in range(int(lines))), sep="", end="")
    shown = []
    for _ in range(10):
        shown.append(int(re.search(r"VmRSS:\s+(\d+) kB", open(f"/proc/{started.pid}/status").read())[1]))
        time.sleep(0.05)
    least = min(shown)
    started.kill()
_, ended, used = os.wait4(started.pid, 0)
print(1024 * used.ru_maxrss, 1024 * least, file=open(path, "w"))
sys.exit(abs(os.waitstatus_to_exitcode(ended)))
END

# Runs the program with the words behind $1, which is a number of lines, and sets `most` and `least` to its memory.
measure() {
    status=0
    most='?' least='?'
    python3 "$work/memory.py" "$work/memory" "$1" "$bare" "${@:2}" >"$work/output" 2>"$work/errors" || status=$?
    read -r most least <"$work/memory"
}

# A claim that takes so many boards wants words, and each table goes when its words are made.
measure 0 prove hard sets "${tables[@]}" --workers 4 --budget 5000000
check 'a claim over words spends its budget' [ "$status.$(tail -n 1 "$work/output")" = "1.refused K1 of $(cat hard)" ]
with_words=$((word_bytes + largest_table))
check "a run has the words of all tables and the bytes of one: $most bytes" [ "$most" -ge "$with_words" ]
check "and hardly more: $most bytes" [ "$most" -le "$((with_words + besides))" ]

# Behind the digest lines all tables are folded, and their bytes are gone.
measure 4 prove hard sets "${tables[@]}" --fold
check 'claims over folded tables begin' [ "$(grep -c '^sha256 ' "$work/output")" = 4 ]
check "a run that folds has all tables, and one of them folded: $most bytes" [ "$most" -le "$((table_bytes + 5765760 + besides))" ]
check "a run over folded tables has a byte a placement: $least bytes" [ "$least" -le "$((folded_bytes + besides))" ]

# Of files of answers one is held at a time: here 16 of 62 MB, each with the lines of all parts at its end.
{ yes 'part 0/3 of bound 6 of 0 1 2 3' | head -n 2000000; printf 'part %s/3 of bound 6 of 3 2 1 0\n' 0 1 2; } >answers
mapfile -t files < <(yes answers | head -n 16)
measure 0 parts board 6 3 "${files[@]}"
said='joined bound 6 of 3 2 1 0 from 3 parts, by lines that were read'
check 'a gigabyte of answers is joined' [ "$status.$(wc -l <"$work/output").$(tail -n 1 "$work/output")" = "0.17.$said" ]
check "a run has one file of answers: $most bytes" [ "$most" -lt 100000000 ]
rm answers

#
# Inputs of as many bytes as they may have.
#

# Each of these texts, and a byte more.
{ cat board && head -c 65528 /dev/zero | tr '\0' ' '; } >long_board
yes 'set 0 1' | head -n 8192 >long_sets
{ printf '3 2 1 0 : 6' && head -c 67108852 /dev/zero | tr '\0' ' ' && echo; } >long_claims
for name in long_board long_sets long_claims; do
    { cat "$name" && echo; } >"${name}_and_more"
done
more='it has more bytes than such a file may have'
says 'bound 6' 'bound long_board one_set leaf F123'
says 'fault size long_board_and_more' 'bound long_board_and_more one_set leaf F123' "long_board_and_more: $more"
says 'optimal 6' 'solve long_board one_set made F123'
says 'refused S5' 'solve board long_sets made F12 F123' 'long_sets: there may be 1 to 16 tables, and 1 to 16 lines'
says 'fault size long_sets_and_more' 'solve board long_sets_and_more made F12 F123' "long_sets_and_more: $more"
says 'bound 6 of 3 2 1 0' 'prove long_claims one_set F123'
says 'bound 6 of 3 2 1 0' '<long_claims prove - one_set F123'
says 'fault size long_claims_and_more' 'prove long_claims_and_more one_set F123' "long_claims_and_more: $more"
rm long_*

# As many tables, lines and members as there may be. Each table is of one tile, six of which are a move away from their cells.
sixteen=()
for tile in {1..16}; do
    "$bare" make-table 5 "tiles:$tile" "tile_$tile" >/dev/null
    sixteen+=("tile_$tile")
done
echo "set $(seq -s ' ' 0 15)" >sixteen_members
{ yes 'set 0' | head -n 15; cat sixteen_members; } >sixteen_lines
six_away='1 2 3 4 9 5 6 7 8 14 10 11 12 13 0 15 16 17 18 19 20 21 22 23 24'
echo "$six_away : 6" >bound_6
echo "$six_away : 8" >bound_8
for sets in sixteen_members sixteen_lines; do
    says "bound 6 of $six_away" "prove bound_6 $sets ${sixteen[*]} --budget 1"
    says "refused K1 of $six_away : 8" "prove bound_8 $sets ${sixteen[*]} --budget 1"
done

echo "$passed passed, $failed failed"
[ "$failed" = 0 ]
