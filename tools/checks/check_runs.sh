#!/usr/bin/env bash
# Runs the built program and checks what it writes, where it writes it and its status: words, streams, files and their
# names, limits, tables, workers, claims, want of memory, changed inputs, whole puzzles, boards of the literature, the tour,
# sizes, budgets, work, and runs at once. What is wanted follows from docs/FORMATS.md, and of tables and searches from a plain
# search that does. It also has docs/BELIEVE.md compared with what is proved, and these checks themselves tried on a program
# that is spoiled.
#
#     tools/checks/check_runs.sh [PROGRAM]
#
# PROGRAM is the program to run; without it, that is the launcher, which builds what is not built. A line is written for
# each check that fails, with what was written, and last the line `N passed, M failed`. The status is 0 if all passed, 1 if
# one failed, and 2 where there is no program to run. It needs python3, as rt does, and the C compiler cc, for requests that
# are refused and for a plain search.
set -uo pipefail

root=$(dirname "$(dirname "$(dirname "$(readlink -f "${BASH_SOURCE[0]}")")")")
. "$root/tools/checks/runs.sh"

# Whether the run told a mistake in the words on standard error, and nothing on standard output.
told_a_mistake() {
    [ "$status" = 2 ] && [ ! -s "$work/output" ] && [[ $(head -n 1 "$work/errors") == 'error: '?* ]]
}

told_a_mistake_and_usage() {
    told_a_mistake && grep -q '^Usage: pdb_cli' "$work/errors"
}

told_help() {
    [ "$status" = 0 ] && [ ! -s "$work/errors" ] && grep -q '^Usage: pdb_cli' "$work/output"
}

# Whether the run told the version, by the launcher below where the program was proved, and by a program that was kept above its sources.
told_the_version() {
    local above='proved (here|where it was released), with the kit [0-9a-f]{64} .+|sources [0-9a-f]{64}'
    [ "$status" = 0 ] && [ ! -s "$work/errors" ] && [ "$(grep -Evx "$above" "$work/output")" = 'pdb_cli 0.2.0' ]
}

# The same of a puzzle text, once as a file and once on standard input: puzzle TEXT STATUS LINE
puzzle() {
    printf '%s' "$1" >puzzle
    expect "replay of the file '${1:0:60}'" "$2" "$3" : replay puzzle
    input=puzzle
    expect "replay of the input '${1:0:60}'" "$2" "$3" : replay
    input=/dev/null
}

# The bytes of hexadecimal numbers.
bytes() {
    local number
    for number in $1; do
        printf '%b' "\\x$number"
    done
}

# Whether another script has tried something, and nothing failed.
passed_all() {
    [ "$status" = 0 ] && tail -n 1 "$work/output" | grep -Eqx '[1-9][0-9]* passed, 0 failed'
}

# Another script of checks must pass, and its own checks count too: passes NAME SCRIPT WORD..
passes() {
    status=0
    "$root/tools/checks/$2" "${@:3}" >"$work/output" 2>"$work/errors" || status=$?
    grep '^FAILED' "$work/output"
    check "$1" passed_all
    if [[ $(tail -n 1 "$work/output") =~ ^([0-9]+)\ passed,\ ([0-9]+)\ failed$ ]]; then
        passed=$((passed + BASH_REMATCH[1]))
        failed=$((failed + BASH_REMATCH[2]))
    fi
}

#
# Puzzle texts.
#

printf '3 2 1 0 ; ULDRUL\n' >solved
input=solved
expect 'no words' 0 'solution 6' :
input=/dev/null
puzzle '3 2 1 0 ; ULDRUL' 0 'solution 6'
puzzle '0 1 2 3 ;' 0 'solution 0'
puzzle '' 1 'refused P1'
puzzle '0 1 2 3' 1 'refused P1'
puzzle '1 0 2 3 ; U' 1 'refused M2 at step 0'
puzzle '1 0 2 3 ; L' 0 'solution 1'
puzzle '1 0 2 3 ;' 1 'refused M4'
puzzle '0 1 2 3 ;u' 1 'refused M1 at byte 0'
puzzle '0 1 2 3 ;; ' 1 'refused M1 at byte 0'
puzzle '0 1 2 2 ;' 1 'refused B5 at number 3'
puzzle '0 1 2 3 4 ;' 1 'refused B3 count 5'
puzzle '0 1 2 4 ;' 1 'refused B4 at number 3'
puzzle '0 1 2 x ;u' 1 'refused B1 at byte 6'
puzzle '0 1 002 3 ;' 1 'refused B2 at byte 4'
puzzle $' 00\t01\r\n02 03\n;\n' 0 'solution 0'
puzzle '1 2 0 3 4 5 6 7 8 ; LL' 0 'solution 2'
puzzle '1 2 3 0 4 5 6 7 8 9 10 11 12 13 14 15 ; LLL' 0 'solution 3'
puzzle '1 2 3 4 0 5 6 7 8 9 10 11 12 13 14 15 16 17 18 19 20 21 22 23 24 ; LL LL' 0 'solution 4'
back_and_forth=$(printf 'RL%.0s' {1..500})
puzzle "0 1 2 3 ;$back_and_forth" 0 'solution 1000'
puzzle "0 1 2 3 ;${back_and_forth}R" 1 'refused M3'
printf '0 1 2 3 ;%65527s' '' >puzzle
expect 'replay of 65,536 bytes' 0 'solution 0' : replay puzzle
printf ' ' >>puzzle
expect 'replay of 65,537 bytes' 2 'fault size puzzle' : replay puzzle
input=puzzle
expect '65,537 bytes of standard input' 2 'fault size -' : replay
input=/dev/null
printf '\xff\x00 1' >puzzle
expect 'replay of bytes that are no text' 1 'refused P1' : replay puzzle
printf '0 1 2 \xff ;' >puzzle
expect 'replay of numbers that are no text' 1 'refused B1 at byte 6' : replay puzzle

# The blank last at home. The board 0 3 2 1 and the moves DRULDR are 3 2 1 0 and ULDRUL turned by half a turn.
echo '0 3 2 1 ; DRULDR' >six_moves_last
# last MOVES STATUS LINE: of the board 1 2 3 4 0 6 7 5 8, which is two moves from home
last() {
    echo "1 2 3 4 0 6 7 5 8 ; $1" >puzzle
    expect "replay of $1 with the blank last" "$2" "$3" : replay --goal last puzzle
}
last DR 0 'solution 2 with the blank last'
last 'DU D R' 0 'solution 4 with the blank last'
last UL 1 'refused M4'
last DDR 1 'refused M2 at step 1'
last 'D r' 1 'refused M1 at byte 3'
last "$back_and_forth" 1 'refused M4'
last "DR$back_and_forth" 1 'refused M2 at step 2'
last "DU${back_and_forth}" 1 'refused M3'
expect 'replay with the blank last' 0 'solution 6 with the blank last' : replay six_moves_last --goal=last
expect 'the same with the blank first' 1 'refused M4' : replay six_moves_last
expect 'replay with the blank first, by the flag' 0 'solution 6' : replay --goal first solved
expect 'the home of the one is not that of the other' 1 'refused M4' : replay --goal last solved
input=six_moves_last
expect 'replay of the input with the blank last' 0 'solution 6 with the blank last' : replay --goal last
input=/dev/null
for words in 'replay --goal' 'replay --goal middle p' 'replay --goal= p' 'replay --goal Last p' 'replay --goal last --goal last p' \
    'table --goal last t' 'make-table --goal last 2 6 o' 'bound --goal x b s l t' 'optimal --goal 0 p s l t' 'solve --goal x b s o t' \
    'prove --goal x c s t' 'parts --goal x b 6 3 a' '--goal last'; do
    # shellcheck disable=SC2086
    run $words
    check "wrong words: $words" told_a_mistake
done

#
# Names of files.
#

# shellcheck disable=SC1003,SC2016
for name in 'two words' ' x' 'x ' 'x  ' '*' $'a\nb' $'tab\there' 'é' "it's" '$HOME' '\' 'replay' 'table' '-' 'a/b'; do
    [[ $name != */* ]] || mkdir -p "${name%/*}"
    cp solved "./$name"
    expect "replay of the file '$name'" 0 'solution 6' : replay "$name"
    rm "./$name"
done
cp solved ./-x
expect 'a name behind --' 0 'solution 6' : replay -- -x
expect 'a name of another folder' 0 'solution 6' : replay "$work/files/solved"
expect 'a file that tells no size' 0 'solution 6' : replay <(cat solved)
expect 'a file that is not there' 2 'fault read not there' : replay 'not there'
expect 'a blank at the end of a name' 2 'fault read solved ' : replay 'solved '
expect 'a name that is empty' 2 'fault read ' : replay ''
expect 'a name -' 2 'fault read -' : replay -
expect 'a table that is not there' 2 'fault read not there' : table 'not there'
expect 'a folder' 2 'fault read .' : replay .
expect 'a table that is a folder' 2 'fault read .' : table .
expect 'a line feed in a name' 2 'fault read x?solution 80' : replay $'x\nsolution 80'
expect 'escape codes in a name' 2 'fault read ?[2K?x?' : table $'\e[2K\rx\x7f'
low=$(for i in {1..31}; do printf '%b' "\\x$(printf %x "$i")"; done; echo .)
expect 'all bytes of a name below 32' 2 "fault read ???????????????????????????????." : replay "$low"
expect 'a name of more than one byte a letter' 2 'fault read né →' : replay 'né →'

#
# Words.
#

for words in --help '--help -V' -h help 'help replay' 'help table' 'help bound' 'help optimal' 'help help' 'replay --help' 'table -h' \
    'bound --help' 'optimal b s l t -h' 'optimal b s --help t' 'help make-table' 'make-table -h' 'help solve' 'solve --help' \
    'help prove' 'prove --help' 'prove c s t -h' 'help parts' 'parts -h' 'parts b 6 3 a --help'; do
    # shellcheck disable=SC2086
    run $words
    check "help by $words" told_help
done
expect 'a flag behind -- is a name' 2 'fault read --help' : table -- --help
# Whether the help says each of these.
told() {
    local text
    for text in "$@"; do
        grep -qF -- "$text" "$work/output" || return
    done
}
for command in replay table bound optimal make-table solve; do
    run "$command" --help
    check "the help of $command says what is read, what is answered, and the statuses" \
        told Reads Answers 'Status: 0 yes, 1 refused, 2 bad words or a fault of a read, a write or a maker, 3 no memory.'
done
run make-table --help
check 'the help of make-table speaks of its workers and of OUT' told 'Building uses all processors, whatever --workers says' \
    'OUT is replaced' '--replace'
run solve --help
check 'the help of solve speaks of its budget, its workers and OUT' told 'The budget is in boards expanded' \
    'The usual 1000000 is enough for most' 'harder ones take' '2 to 10 million' 'whatever --workers says' \
    'built by all processors' 'OUT is replaced' 'only with --replace'
run prove --help
check 'the help of prove speaks of claims, their answers, no log, and the statuses' told 'CLAIMS has a claim a line' \
    'BOARD ; MOVES' 'BOARD : N' 'bound N of BOARD' 'optimal N of BOARD ; MOVES' 'No log is needed' \
    'Status: 0 yes, 1 refused, 2 bad words or a fault of a read, a write or a maker, 3 no memory.'
run parts --help
check 'the help of parts speaks of answer lines, the bound, open claims, and the statuses' told 'ANSWERS are files of lines' \
    'part I/K of bound N of BOARD' 'joined bound N of BOARD from K parts, by lines that were read' 'BOARD : N part I/K' \
    'Status: 0 yes, 1 refused, 2 bad words or a fault of a read, a write or a maker, 3 no memory.'
for words in --version -V '--version table' '-V --help'; do
    # shellcheck disable=SC2086
    run $words
    check "the version by $words" told_the_version
done
if [ "$#" = 0 ]; then
    "$bare" --version >"$work/output"
    check 'the program alone tells its sources' cmp -s "$work/output" <(echo 'pdb_cli 0.2.0' && sed -n 3p "$root/out/built")
fi
run ''
check 'the mistake in an empty word' told_a_mistake
run 'replay solved'
check 'the mistake in two words as one' told_a_mistake
run table F1 --workers ''
check 'the mistake in no workers' told_a_mistake
# A word that is no UTF-8 is told by its number: unreadable NUMBER WORD..
unreadable() {
    run "${@:2}"
    check "a word $1 that is no UTF-8" told_a_mistake_and_usage
    check "which word is no UTF-8: word $1" grep -qxF "error: word $1 is no UTF-8 text" "$work/errors"
}
unreadable 1 $'\xff'
unreadable 2 replay $'solved\xff'
unreadable 4 table F1 --workers $'\xc3'
unreadable 2 table $'\xff' --workers $'\xc3'
unreadable 3 table "$(head -c 131000 /dev/zero | tr '\0' x)" $'\xed\xa0\x80'

#
# Streams.
#

expect 'no input at all' 1 'refused P1' :
input=.
expect 'an input that cannot be read' 2 'fault read -' : replay
input=/dev/null
status=0
"$program" replay <&- >"$work/output" 2>"$work/errors" || status=$?
check 'closed standard input' wrote 2 'fault read -'
status=0
"$program" <solved 2>"$work/errors" >/dev/full || status=$?
: >"$work/output"
check 'a full standard output' [ "$status" = 2 ]
status=0
"$program" <solved 2>"$work/errors" >&- || status=$?
check 'a closed standard output' [ "$status" = 2 ]
if [ "$#" = 0 ]; then
    status=0
    (ulimit -f 0 && exec "$program" <solved >"$work/output" 2>/dev/null) || status=$?
    : >"$work/errors"
    check 'a standard output at the limit of its size' [ "$status.$(wc -c <"$work/output")" = 2.0 ]
fi
status=0
"$program" --help 2>"$work/errors" >/dev/full || status=$?
check 'help on a full standard output' [ "$status" = 2 ]
status=0
"$program" rplay >"$work/output" 2>/dev/full || status=$?
: >"$work/errors"
check 'a mistake on a full standard error' [ "$status.$(wc -c <"$work/output")" = 2.0 ]
status=0
"$program" <solved >"$work/output" 2>&- || status=$?
check 'a closed standard error' wrote 0 'solution 6'
status=0
(sleep 0.1 && printf '3 2 1' && sleep 0.1 && printf ' 0 ; ULD' && sleep 0.1 && echo RUL) |
    "$program" >"$work/output" 2>"$work/errors" || status=$?
check 'an input that comes in parts' wrote 0 'solution 6'

# Standard input is this process's own memory up to a page that is not there.
cat >"$work/second_read.py" <<'END'
import ctypes, os, subprocess, sys
text, page = b"3 2 1 0 ; ULDRUL", os.sysconf("SC_PAGESIZE")
c = ctypes.CDLL(None)
c.mmap.restype = ctypes.c_void_p
c.mmap.argtypes = [ctypes.c_void_p, ctypes.c_size_t, ctypes.c_int, ctypes.c_int, ctypes.c_int, ctypes.c_long]
c.munmap.argtypes = [ctypes.c_void_p, ctypes.c_size_t]
at = c.mmap(None, 2 * page, 3, 0x22, -1, 0)
c.munmap(at + page, page)
ctypes.memmove(at + page - len(text), text, len(text))
memory = os.open("/proc/self/mem", os.O_RDONLY)
os.lseek(memory, at + page - len(text), 0)
sys.exit(subprocess.run(sys.argv[1:], stdin=memory).returncode)
END
status=0
python3 "$work/second_read.py" "$program" >"$work/output" 2>"$work/errors" || status=$?
check 'an input whose second read fails' wrote 2 'fault read -'

#
# Table files.
#

bytes '50 44 42 54 01 02 03 00 00 00 00 0E 00 00 00 00 00 00 00 18
    FF FF 02 01 03 FF 02 01 FF 00 FF FF FF FF 06 FF 05 04 FF 03 05 04 FF FF' >F123
bytes '50 44 42 54 01 02 02 00 00 00 00 06 00 00 00 00 00 00 00 18
    FF FE 01 FE FF 02 01 FE 00 FF FF FE FF FE FF 04 03 FE 02 FF 03 FE FF FE' >F12
bytes '50 44 42 54 01 02 01 00 00 00 00 02 00 00 00 00 00 00 00 08 01 FE 00 FE 02 FE 01 FE' >F1
bytes '50 44 42 54 01 05 01 00 01 00 00 00 00 00 00 00 00 00 00 32
    08 FE 07 FE 06 FE 05 FE 04 FE 07 FE 06 FE 05 FE 04 FE 03 FE 06 FE 05 FE 04 FE 03 FE 02 FE
    05 FE 04 FE 03 FE 02 FE 01 FE 04 FE 03 FE 02 FE 01 FE 00 FE' >F24

# A copy of the file $1 whose byte $2 is $3, as the file $4.
changed() {
    { head -c "$2" "$1" && bytes "$3" && tail -c +"$(($2 + 2))" "$1"; } >"$4"
}

table F123 0 'exact side 2 mask 14 entries 24 unreachable 12 deepest 6'
table F12 0 'exact side 2 mask 6 entries 24 unreachable 8 deepest 4'
table F1 0 'exact side 2 mask 2 entries 8 unreachable 0 deepest 2'
table F24 0 'exact side 5 mask 16777216 entries 50 unreachable 0 deepest 8'
changed F123 34 02 F123_with_02
table F123_with_02 1 'refused T7 at entry 14'
changed F12 20 FE F12_with_FE
table F12_with_FE 1 'refused T7 at entry 0'
{ head -c 20 F1 && bytes 'FF FF FF FF FF FF FF FF'; } >F1_of_FF
table F1_of_FF 1 'refused T7 at entry 1'
changed F12 24 00 F12_with_00
table F12_with_00 1 'refused T7 at entry 0'
head -c 43 F123 >F123_without_its_last_byte
table F123_without_its_last_byte 1 'refused T6'
{ cat F123 && bytes 00; } >F123_with_a_byte_more
table F123_with_a_byte_more 1 'refused T6'
head -c 19 F123 >F123_of_19_bytes
table F123_of_19_bytes 1 'refused T1'
changed F123 0 51 other_letters
table other_letters 1 'refused T2'
changed F123 4 02 version_2
table version_2 1 'refused T2'
changed F123 5 01 side_1
table side_1 1 'refused T3'
changed F123 6 02 another_number_of_tiles
table another_number_of_tiles 1 'refused T4'
changed F123 7 01 byte_7
table byte_7 1 'refused T4'
changed F123 11 0F tile_0
table tile_0 1 'refused T4'
changed F123 19 17 entries_23
table entries_23 1 'refused T5'
: >empty
expect 'table of an empty file' 1 'sha256 e3b0c44298fc1c149afbf4c8996fb92427ae41e4649b934ca495991b7852b855' 'refused T1' : table empty
printf abc >abc
expect 'table of abc' 1 'sha256 ba7816bf8f01cfea414140de5dae2223b00361a396177a9cb410ff61f20015ad' 'refused T1' : table abc
cp F12 'a table'
table 'a table' 0 'exact side 2 mask 6 entries 24 unreachable 8 deepest 4'
{ cat F123 && head -c 3000000 /dev/zero; } >above_a_mebibyte
table above_a_mebibyte 1 'refused T6'
# Four tiles on side 5, 303,600 placements of 5 slots: entry 1 is the first without a region.
{ bytes '50 44 42 54 01 05 04 00 00 00 00 1E 00 00 00 00 00 17 29 B0' && head -c 1518000 /dev/zero | tr '\0' '\377'; } >long_table
table long_table 1 'refused T7 at entry 1'
truncate -s 4294967297 too_long
status=0
(ulimit -v 1000000 && exec "$program" table too_long) >"$work/output" 2>"$work/errors" || status=$?
check 'a file over its limit takes no memory' wrote 2 'fault size too_long'
status=0
(ulimit -v 1000000 && exec "$program" replay too_long) >"$work/output" 2>"$work/errors" || status=$?
check 'a puzzle text over its limit takes no memory' wrote 2 'fault size too_long'
rm too_long

# The 8-puzzle: every board's number of moves, by a search from the goal board.
python3 - >all_of_side_3 <<'END'
import itertools, sys
home = tuple(range(9))
beside = [[d for d in range(9) if abs(c // 3 - d // 3) + abs(c % 3 - d % 3) == 1] for c in range(9)]
moves, last = {home: 0}, [home]
while last:
    new = []
    for board in last:
        blank = board.index(0)
        for cell in beside[blank]:
            moved = list(board)
            moved[blank], moved[cell] = moved[cell], 0
            moved = tuple(moved)
            if moved not in moves:
                moves[moved] = moves[board] + 1
                new.append(moved)
    last = new
found = bytearray()
for cells in itertools.permutations(range(9), 8):
    board = [0] * 9
    for tile, cell in enumerate(cells):
        board[cell] = tile + 1
    found.append(moves.get(tuple(board), 255))
header = b"PDBT" + bytes([1, 3, 8, 0]) + (510).to_bytes(4, "big") + len(found).to_bytes(8, "big")
sys.stdout.buffer.write(header + found)
END
for workers in 1 2 7 64; do
    table all_of_side_3 0 'exact side 3 mask 510 entries 362880 unreachable 181440 deepest 31' --workers "$workers"
    table F12 0 'exact side 2 mask 6 entries 24 unreachable 8 deepest 4' --workers "$workers"
    table F123_with_02 1 'refused T7 at entry 14' --workers "$workers"
done
table all_of_side_3 0 'exact side 3 mask 510 entries 362880 unreachable 181440 deepest 31'
digest=$(sha256sum <F1)
expect 'workers before the name' 0 "sha256 ${digest%% *}" 'exact side 2 mask 2 entries 8 unreachable 0 deepest 2' : \
    table --workers=7 F1

#
# Bounds and optima.
#

bytes '50 44 42 54 01 02 01 00 00 00 00 08 00 00 00 00 00 00 00 08 02 FE 01 FE 01 FE 00 FE' >F3
echo '3 2 1 0' >board
echo '3 2 1 0 ; ULDRUL' >six_moves
echo 'set 0' >one_set
echo 'set 0 1' >pair
# A leaf; a branch whose two sides end in leaves after four more; the same by a lemma that the second one cites; and a leaf
# for a board without a solution.
bytes '50 44 42 4C 01 02 00 00 00 01 03 02 01 00 06 00 00 00 01 01' >leaf
bytes '50 44 42 4C 01 02 00 00 00 01 03 02 01 00 06 00 00 00 0B 00 00 00 00 00 01 00 00 00 00 01' >branches
bytes '50 44 42 4C 01 02 00 00 00 02 03 00 01 02 05 00 00 00 06 00 01 00 00 00 01
    03 02 01 00 06 00 00 00 0B 00 20 00 00 00 00 00 00 00 00 01' >citation
bytes '50 44 42 4C 01 02 00 00 00 01 00 01 03 02 FF 00 00 00 01 01' >unsolvable

# The digest lines of these files, and then a line, whether 1, 2 or 7 workers check: claim STATUS LINE FILE.. : WORD..
claim() {
    local wanted=$1 line=$2 lines=() digest workers
    shift 2
    while [ "$1" != : ]; do
        digest=$(sha256sum <"$1")
        lines+=("sha256 ${digest%% *}")
        shift
    done
    shift
    for workers in 1 2 7; do
        expect "$* by $workers" "$wanted" "${lines[@]}" "$line" : "$@" --workers "$workers"
    done
}

# The same, over tables as they are and over folded ones.
either_way() {
    claim "$@"
    claim "$@" --fold
}

either_way 0 'bound 6' F123 leaf : bound board one_set leaf F123
changed leaf 14 07 leaf_of_7
either_way 1 'refused L6 at lemma 0' F123 leaf_of_7 : bound board one_set leaf_of_7 F123
either_way 0 'bound 6' F12 branches : bound board one_set branches F12
{ head -c 18 branches && bytes 0A && head -c 29 branches | tail -c 10; } >branches_without_the_last
either_way 1 'refused L6 at lemma 0' F12 branches_without_the_last : bound board one_set branches_without_the_last F12
head -c 29 branches >branches_cut_short
either_way 1 'refused L2 at lemma 0' F12 branches_cut_short : bound board one_set branches_cut_short F12
{ cat branches && bytes 00; } >branches_with_a_byte_more
either_way 1 'refused L2 at lemma 1' F12 branches_with_a_byte_more : bound board one_set branches_with_a_byte_more F12
either_way 0 'bound 6' F12 citation : bound board one_set citation F12
changed citation 39 01 citation_of_itself
either_way 1 'refused L6 at lemma 1' F12 citation_of_itself : bound board one_set citation_of_itself F12
either_way 1 'refused S3 at line 0' F12 F1 branches : bound board pair branches F12 F1
either_way 0 'bound 6' F12 F3 leaf : bound board pair leaf F12 F3
either_way 1 'refused S4 at table 1' F1 F24 leaf : bound board pair leaf F1 F24
printf 'set 0\nset 1 0\n' >descending
either_way 1 'refused S1 at line 1' F12 F3 leaf : bound board descending leaf F12 F3
echo '0 1 3 2' >unsolvable_board
either_way 0 'bound 255' F123 unsolvable : bound unsolvable_board one_set unsolvable F123
echo '3 0 1 2' >another_board
echo '1 0 2 3' >next_board
either_way 1 'refused L5' F123 leaf : bound another_board one_set leaf F123
either_way 0 'optimal 6' F12 branches : optimal six_moves one_set branches F12
echo '0 3 2 1' >board_last
either_way 0 'bound 6 with the blank last' F12 branches : bound --goal last board_last one_set branches F12
either_way 0 'optimal 6 with the blank last' F12 branches : optimal --goal last six_moves_last one_set branches F12
either_way 1 'refused L5' F12 branches : bound --goal last board one_set branches F12
either_way 1 'refused L5' F12 branches : bound board_last one_set branches F12
either_way 1 'refused M4' F12 branches : optimal --goal last six_moves one_set branches F12
echo '3 2 1 0 ; ULDRULRL' >eight_moves
either_way 1 'refused O1 solution 8 bound 6' F12 branches : optimal eight_moves one_set branches F12
either_way 1 'refused T7 at entry 14 of table 0' F123_with_02 leaf : bound board one_set leaf F123_with_02
either_way 1 'refused T7 at entry 0 of table 1' F123 F12_with_FE leaf : bound board one_set leaf F123 F12_with_FE
either_way 1 'refused T6 of table 1' F12 F123_with_a_byte_more leaf : bound board one_set leaf F12 F123_with_a_byte_more
# Behind a table that is refused, the digests of the others are told.
either_way 1 'refused T7 at entry 0 of table 0' F12_with_FE F123 leaf : bound board one_set leaf F12_with_FE F123
either_way 1 'refused T6 of table 1' F12 F123_with_a_byte_more F12_with_FE leaf : bound board one_set leaf F12 F123_with_a_byte_more F12_with_FE
echo '0 1 2 2' >no_board
either_way 1 'refused B5 at number 3' F123 leaf : bound no_board one_set leaf F123
seventeen=$(printf 'F123 %.0s' {1..17})
# shellcheck disable=SC2086
either_way 1 'refused S5' $seventeen leaf : bound board one_set leaf $seventeen
sixteen_files=$(printf 'F12 %.0s' {1..16})
# shellcheck disable=SC2086
either_way 0 'bound 6' $sixteen_files branches : bound board one_set branches $sixteen_files
# shellcheck disable=SC2086
either_way 1 'refused T6 of table 17' $seventeen F123_with_a_byte_more leaf : bound board one_set leaf $seventeen F123_with_a_byte_more
echo 'set 1' >table_1
either_way 1 'refused S2 at line 0' F12 branches : bound board table_1 branches F12
either_way 1 'refused L4' F24 leaf : bound board one_set leaf F24
either_way 1 'refused L1' F123 empty : bound board one_set empty F123
changed leaf 10 02 leaf_of_no_board
either_way 1 'refused L3 at lemma 0' F123 leaf_of_no_board : bound board one_set leaf_of_no_board F123
either_way 1 'refused P1' F12 branches : optimal board one_set branches F12
echo '3 2 1 0 ; U' >one_move
either_way 1 'refused M4' F12 branches : optimal one_move one_set branches F12
echo '3 2 1 0 ; R' >off_the_board
either_way 1 'refused M2 at step 0' F12 branches : optimal off_the_board one_set branches F12
either_way 1 'refused L6 at lemma 0' F12 leaf : optimal six_moves one_set leaf F12
either_way 1 'refused T7 at entry 0 of table 0' F12_with_FE branches : optimal six_moves one_set branches F12_with_FE

#
# Transposed members.
#

bytes '50 44 42 54 01 02 01 00 00 00 00 04 00 00 00 00 00 00 00 08 01 FE 02 FE 00 FE 01 FE' >F2
echo 'set 0 0t' >with_mirror
echo 'set 0 0t 1' >with_mirror_and_1
echo 'set 0t' >mirror
echo 'set 0 1t' >with_mirror_of_1
changed leaf 14 04 leaf_of_4
changed leaf 14 05 leaf_of_5
either_way 0 'bound 4' F1 leaf_of_4 : bound board with_mirror leaf_of_4 F1
either_way 1 'refused L6 at lemma 0' F1 leaf_of_5 : bound board with_mirror leaf_of_5 F1
either_way 0 'bound 6' F1 F3 leaf : bound board with_mirror_and_1 leaf F1 F3
either_way 0 'optimal 6' F1 F3 leaf : optimal six_moves with_mirror_and_1 leaf F1 F3
either_way 0 'bound 6' F12 branches : bound board mirror branches F12
either_way 0 'bound 255' F123 unsolvable : bound unsolvable_board mirror unsolvable F123
either_way 1 'refused S3 at line 0' F12 F1 branches : bound board with_mirror_of_1 branches F12 F1
either_way 1 'refused S3 at line 0' F1 F1 leaf : bound board pair leaf F1 F1

# The first refusal of a set text over these tables: refused_set REFUSAL TEXT TABLE..
refused_set() {
    local refusal=$1
    printf '%b' "$2" >sets
    shift 2
    either_way 1 "refused $refusal" "$@" leaf : bound board sets leaf "$@"
}

refused_set 'S6 at line 0' 'set 0 0t\n' F12
refused_set 'S6 at line 0' 'set 0 0t\n' F3
refused_set 'S6 at line 0' 'set 0 1t\n' F1 F2
refused_set 'S6 at line 0' 'set 0t 1t\n' F1 F1
refused_set 'S6 at line 1' 'set 0 1\nset 0 0t\n' F12 F1
refused_set 'S2 at line 1' 'set 0 0t\nset 1t\n' F12
for line in 'set 0t 0' 'set 0T' 'set 0t 0t' 'set 0 t' 'set 0tt' 'set t0' 'set 00t' 'set 0t '; do
    refused_set 'S1 at line 0' "$line\n" F1
done
refused_set 'S1 at line 0' 'set 0t' F1
sixteen=$(printf 'set 0t\\n%.0s' {1..16})
refused_set S5 "${sixteen}set 0t\n" F1
refused_set 'S1 at line 16' "${sixteen}set 0t" F1
refused_set 'S1 at line 16' "${sixteen}set 0t 0\n" F1
printf '%b' "$sixteen" >sixteen_mirrors
either_way 0 'bound 6' F12 branches : bound board sixteen_mirrors branches F12

#
# Logs of version 2, and parity leaves.
#

# Two branches on each side, and then a leaf that reaches by its parity alone.
bytes '50 44 42 4C 02 02 00 00 00 01 03 02 01 00 06 00 00 00 05 00 00 41 00 41' >by_parity
either_way 0 'bound 6' F12 by_parity : bound board one_set by_parity F12
either_way 0 'optimal 6' F12 by_parity : optimal six_moves one_set by_parity F12
either_way 0 'bound 6' F12 by_parity : bound board mirror by_parity F12
changed by_parity 14 07 by_parity_7
either_way 1 'refused L6 at lemma 0' F12 by_parity_7 : bound board one_set by_parity_7 F12
changed by_parity 4 01 by_parity_1
either_way 1 'refused L6 at lemma 0' F12 by_parity_1 : bound board one_set by_parity_1 F12
for version in 00 03 04 41 FF; do
    changed by_parity 4 "$version" another_version
    either_way 1 'refused L1' F12 another_version : bound board one_set another_version F12
done
# A branch without its child, a leaf that says 3 where 4 remain, a citation without its number; the others are no nodes, or
# leaves of a set that isn't there.
for node in 00 01 02 10 11 20 40 42 43 50 51; do
    changed by_parity 23 "$node" other_node
    either_way 1 'refused L6 at lemma 0' F12 other_node : bound board one_set other_node F12
done
changed branches 4 02 branches_2
either_way 0 'bound 6' F12 branches_2 : bound board one_set branches_2 F12
changed citation 4 02 citation_2
either_way 0 'bound 6' F12 citation_2 : bound board one_set citation_2 F12
changed leaf 4 02 leaf_2
either_way 0 'bound 6' F123 leaf_2 : bound board one_set leaf_2 F123
changed leaf_2 19 41 parity_leaf
either_way 0 'bound 6' F123 parity_leaf : bound board one_set parity_leaf F123
changed parity_leaf 14 07 parity_leaf_of_7
either_way 1 'refused L6 at lemma 0' F123 parity_leaf_of_7 : bound board one_set parity_leaf_of_7 F123
changed parity_leaf 19 42 parity_leaf_of_set_1
either_way 1 'refused L6 at lemma 0' F123 parity_leaf_of_set_1 : bound board one_set parity_leaf_of_set_1 F123
changed unsolvable 4 02 unsolvable_2
changed unsolvable_2 19 41 parity_leaf_of_never
either_way 0 'bound 255' F123 parity_leaf_of_never : bound unsolvable_board one_set parity_leaf_of_never F123

#
# Folded tables.
#

# A board of which the table of 1 and 2 says never for the blank in cell 0, and 4 for the blank in cell 3.
bytes '50 44 42 4C 01 02 00 00 00 01 00 02 01 03 05 00 00 00 01 01' >never_leaf
echo '0 2 1 3' >folded_board
claim 0 'bound 5' F12 never_leaf : bound folded_board one_set never_leaf F12
claim 1 'refused L6 at lemma 0' F12 never_leaf : bound folded_board one_set never_leaf F12 --fold
changed never_leaf 14 04 leaf_of_the_other_region
either_way 0 'bound 4' F12 leaf_of_the_other_region : bound folded_board one_set leaf_of_the_other_region F12
claim 0 'bound 6' F12 branches : bound --fold board one_set branches F12

#
# Claims.
#

# Claims of a file or of standard input must be answered by the digests of these tables and of the claims, and by these lines:
# proves CLAIMS SETS FILES STATUS LINE.. : WORD..
proves() {
    local claims=$1 sets=$2 files=() wanted=$4 lines=() answers=() file digest
    read -ra files <<<"$3"
    shift 4
    while [ "$1" != : ]; do
        answers+=("$1")
        shift
    done
    shift
    for file in "${files[@]}" "$claims"; do
        digest=$(sha256sum <"$file")
        lines+=("sha256 ${digest%% *}")
    done
    expect "prove $claims $sets ${files[*]} $*" "$wanted" "${lines[@]}" "${answers[@]}" : \
        prove "$claims" "$sets" "${files[@]}" "$@"
    input=$claims
    expect "prove of the input $claims $sets ${files[*]} $*" "$wanted" "${lines[@]}" "${answers[@]}" : \
        prove - "$sets" "${files[@]}" "$@"
    input=/dev/null
}

# The same by 1, 2 and 7 workers, over tables as they are and over folded ones.
proves_each_way() {
    local words
    for words in '' '--workers 2' '--workers 7' --fold '--fold --workers 7'; do
        # shellcheck disable=SC2086
        proves "$@" : $words
    done
}

printf '%b' '3 2 1 0\n 03\t2  1 00 : 6\n3 2 1 0;UL DR\tUL\r\n3 2 1 0 ; LURDLU\n0 1 2 3 ;\n0 1 2 3\r\n1 0 2 3:1\n1 0 2 3 : 0 ' \
    >true_claims
true_answers=('optimal 6 of 3 2 1 0 ; ULDRUL' 'bound 6 of 3 2 1 0' 'optimal 6 of 3 2 1 0 ; ULDRUL'
    'optimal 6 of 3 2 1 0 ; LURDLU' 'optimal 0 of 0 1 2 3 ;' 'optimal 0 of 0 1 2 3 ;' 'bound 1 of 1 0 2 3' 'bound 0 of 1 0 2 3')
proves_each_way true_claims one_set F12 0 "${true_answers[@]}"
proves_each_way true_claims one_set F123 0 "${true_answers[@]}"
proves_each_way true_claims with_mirror_and_1 'F1 F3' 0 "${true_answers[@]}"
proves_each_way true_claims sixteen_mirrors F1 0 "${true_answers[@]}"
printf '%s\n' '3 2 1 0 : 7' '3 2 1 0 ; ULDRULRL' '1 0 2 3 ; RL' '3 2 1 0 : 6' '1 0 2 3 ; DULRL' '1 0 2 3 : 2' '3 2 1 0 ; R' \
    '3 2 1 0 ; ULU' '3 2 1 0 ; U' '3 2 1 0 ;' '0 1 3 2' '0 1 3 2 : 0' '0 1 3 2 ; R' >false_claims
proves_each_way false_claims one_set F12 1 'refused O2 by ULDRUL of 3 2 1 0 : 7' \
    'refused O2 by ULDRUL of 3 2 1 0 ; ULDRULRL' 'refused M2 at step 0 of 1 0 2 3 ; RL' 'bound 6 of 3 2 1 0' \
    'refused O2 by L of 1 0 2 3 ; DULRL' 'refused O2 by L of 1 0 2 3 : 2' 'refused M2 at step 0 of 3 2 1 0 ; R' \
    'refused M2 at step 2 of 3 2 1 0 ; ULU' 'refused M4 of 3 2 1 0 ; U' 'refused M4 of 3 2 1 0 ;' 'refused K2 of 0 1 3 2' \
    'refused K2 of 0 1 3 2 : 0' 'refused M4 of 0 1 3 2 ; R'
# No board is expanded for a claim of which the sets say enough, or whose board is the goal board.
printf '%s\n' '3 2 1 0' '3 2 1 0 : 6' '3 2 1 0 ; LURDLU' '0 1 2 3' '1 0 2 3 : 1' '3 2 1 0 : 4' >claims_of_few_boards
for words in '--budget 1' '--budget 1 --fold' '--workers 7 --budget=1'; do
    # shellcheck disable=SC2086
    proves claims_of_few_boards one_set F12 1 'refused K1 of 3 2 1 0' 'refused K1 of 3 2 1 0 : 6' \
        'refused K1 of 3 2 1 0 ; LURDLU' 'optimal 0 of 0 1 2 3 ;' 'bound 1 of 1 0 2 3' 'bound 4 of 3 2 1 0' : $words
done
proves true_claims one_set F12 0 "${true_answers[@]}" : --budget 1000000000000
proves true_claims one_set F12 0 "${true_answers[@]}" : --goal first

# Where the blank is last at home, each answer says so: boards and moves are those above, turned by half a turn.
printf '%s\n' '0 3 2 1' '0 3 2 1 : 6' '0 3 2 1 ; DR ULDR' '0 3 2 1;RDLURD' '1 2 3 0 ;' '1 2 3 0' '1 2 0 3 : 1' '0 3 2 1 : 6 part 0/1' \
    >true_last
printf '%s\n' '0 3 2 1 : 7' '0 3 2 1 ; DRULDRLR' '1 2 0 3 ; LR' '1 2 0 3 ; UDRLR' '0 3 2 1 ; D' '0 1 2 3' '0 1 2 3 ; D' \
    '0 3 2 1 : 7 part 0/1' >false_last
last=' with the blank last'
for words in '--goal last' '--goal last --workers 7' '--fold --goal last'; do
    # shellcheck disable=SC2086
    proves true_last one_set F12 0 "optimal 6 of 0 3 2 1 ; DRULDR$last" "bound 6 of 0 3 2 1$last" "optimal 6 of 0 3 2 1 ; DRULDR$last" \
        "optimal 6 of 0 3 2 1 ; RDLURD$last" "optimal 0 of 1 2 3 0 ;$last" "optimal 0 of 1 2 3 0 ;$last" "bound 1 of 1 2 0 3$last" \
        "part 0/1 of bound 6 of 0 3 2 1$last" : $words
    # shellcheck disable=SC2086
    proves false_last one_set F12 1 "refused O2 by DRULDR of 0 3 2 1 : 7$last" "refused O2 by DRULDR of 0 3 2 1 ; DRULDRLR$last" \
        "refused M2 at step 0 of 1 2 0 3 ; LR$last" "refused O2 by R of 1 2 0 3 ; UDRLR$last" "refused M4 of 0 3 2 1 ; D$last" \
        "refused K2 of 0 1 2 3$last" "refused M4 of 0 1 2 3 ; D$last" "refused O2 by DRULDR of 0 3 2 1 : 7 part 0/1$last" : $words
done
proves true_last one_set F24 1 'refused Q2 at line 0' : --goal last

# The first line that is no claim comes before faults of tables and sets: no_claim LINE TEXT
no_claim() {
    printf '%b' "$2" >claims
    proves claims one_set F12 1 "refused Q1 at line $1" :
    proves claims empty F12_with_FE 1 "refused Q1 at line $1" : --fold --workers 2
}
letters_1000=$(printf 'RL%.0s' {1..500})
for text in '' 'x' ' # 3 2 1 0' '3 2 1 0 # 6' '3 2 1' '3 2 1 0 2' '3 2 1 3' '3 2 1 4' '003 2 1 0' '3,2,1,0' '3 2 1 0 ; u' '3 2 1 0 ;; U' \
    '3 2 1 0 ; U : 6' '3 2 1 0 : 6 ; U' '; U' ': 6' '3 2 1 0 :' '3 2 1 0 : 06' '3 2 1 0 : 256' '3 2 1 0 : -1' '3 2 1 0 : 1 2' \
    '3 2 1 0 : 6 : 6' '3 2 1 0 : 6.' '3 2 1 0 : +6' '3 2 1 0 : 1000' 'optimal 6 of 3 2 1 0' "0 1 2 3 ;${letters_1000}R" \
    '3 2 1 0 : 6 part' '3 2 1 0 : 6 part 0' '3 2 1 0 : 6 part 0/' '3 2 1 0 : 6 part /3' '3 2 1 0 : 6 part 0/2' \
    '3 2 1 0 : 6 part 3/3' '3 2 1 0 : 6 part 0/0' '3 2 1 0 : 6 part 00/3' '3 2 1 0 : 6 part 0/03' '3 2 1 0 : 6 part 0/65537' \
    '3 2 1 0 : 6 part -1/3' '3 2 1 0 : 6 part 0 /3' '3 2 1 0 : 6 part 0/3 1/3' '3 2 1 0 : 6 parts 0/3' '3 2 1 0 : 6part 0/3' \
    '3 2 1 0 : 06 part 0/3' '3 2 1 0 : 256 part 0/3' '3 2 1 0 part 0/3' '3 2 1 0 : part 0/3' '3 2 1 0 ; U part 0/3'; do
    no_claim 0 "$text"
    [ -z "$text" ] || no_claim 1 "3 2 1 0\n$text\n3 2 1 0\nx\n"
done
# Blank lines and lines that begin with `#` count as lines, and have no answers.
no_claim 1 '\n'
no_claim 1 ' '
no_claim 3 '# 3 2 1 0\r\n\n\t \r\n'
no_claim 4 '\n#\n3 2 1 0\n \nx\n'
printf '# true\r\n\r\n3 2 1 0 : 6\r\n#3 2 1 0 : 7\n\t \n1 0 2 3 : 1\n\n#' >claims_and_remarks
proves_each_way claims_and_remarks one_set F12 0 'bound 6 of 3 2 1 0' 'bound 1 of 1 0 2 3'
proves_each_way claims_and_remarks one_set F24 1 'refused Q2 at line 2'
printf '3 2 1 0\n\n# 0 1 2 3 4 5 6 7 8\n0 1 2 3 4 5 6 7 8 : 1\n' >claims_and_remarks
proves_each_way claims_and_remarks one_set F12 1 'refused Q2 at line 3'
printf '0 1 2 3 ;%s' "$letters_1000" >claims
proves claims one_set F12 1 "refused O2 by of 0 1 2 3 ; $letters_1000" :
printf '3 2 1 0\n0 1 2 3 4 5 6 7 8 : 1\n3 2 1 0\n0 1 2 3 4 5 6 7 8\n' >claims_of_two_sides
proves_each_way claims_of_two_sides one_set F12 1 'refused Q2 at line 1'
proves_each_way true_claims one_set F24 1 'refused Q2 at line 0'
proves_each_way claims_of_two_sides one_set F12_with_FE 1 'refused T7 at entry 0 of table 0'
proves_each_way claims_of_two_sides empty F12 1 'refused S1 at line 0'
proves_each_way true_claims one_set 'F12 F123_with_a_byte_more F12_with_FE' 1 'refused T6 of table 1'
proves_each_way true_claims pair 'F12 F1' 1 'refused S3 at line 0'
proves_each_way true_claims one_set "$seventeen" 1 'refused S5'
expect 'claims that are not there' 2 'fault read C' : prove C one_set F12
expect 'sets of claims that are not there' 2 'fault read S' : prove true_claims S F12
expect 'a table of claims that is not there' 2 'fault read T' : prove true_claims one_set F12 T
# A file whose name is - has another name too.
cp true_claims ./-
proves ./- one_set F12 0 "${true_answers[@]}" :
rm ./-
truncate -s 67108865 long_claims
expect 'claims over their limit' 2 'fault size long_claims' : prove long_claims one_set F12
truncate -s 67108864 long_claims
run prove long_claims one_set F12
check 'claims of as many bytes as they may have' [ "$status.$(tail -n 1 "$work/output")" = '1.refused Q1 at line 0' ]
rm long_claims
status=0
"$program" prove - one_set F12 <&- >"$work/output" 2>"$work/errors" || status=$?
check 'claims of a closed standard input' wrote 2 'fault read -'
for claims in true_claims false_claims; do
    status=0
    "$program" prove "$claims" one_set F12 2>"$work/errors" >/dev/full || status=$?
    : >"$work/output"
    check "answers to $claims on a full standard output" [ "$status" = 2 ]
    status=0
    "$program" prove "$claims" one_set F12 2>"$work/errors" >&- || status=$?
    check "answers to $claims on a closed standard output" [ "$status" = 2 ]
done
# A reader that goes away after some lines has those, whole.
yes '3 2 1 0' | head -n 20000 >many_claims
status=0
("$program" prove many_claims one_set F12 2>"$work/errors"; echo "$?" >"$work/status") | head -n 5 | tail -n 3 >"$work/output" || status=$?
check 'the first answers for a reader that goes away' cmp -s "$work/output" <(yes "${true_answers[0]}" | head -n 3)
check 'the run of a reader that goes away' [ "$(cat "$work/status")" = 2 ]
rm many_claims

#
# Parts of bounds.
#

printf '%s\n' '3 2 1 0 : 6 part 0/3' $'3 2 1 0:6\tpart 1/3' ' 3 02 1 0 :  6  part 2/3 ' >part_claims
proves_each_way part_claims one_set F12 0 'part 0/3 of bound 6 of 3 2 1 0' 'part 1/3 of bound 6 of 3 2 1 0' \
    'part 2/3 of bound 6 of 3 2 1 0'
# A solution of few moves is of each part.
printf '%s\n' '3 2 1 0 : 7 part 0/1' '3 2 1 0 : 7 part 64/65' '0 1 3 2 : 0 part 0/1' '3 2 1 0 : 6 part 0/65535' \
    '0 1 2 3 : 0 part 62/63' '0 1 2 3 : 1 part 62/63' '1 0 2 3' >other_part_claims
proves_each_way other_part_claims one_set F12 1 'refused O2 by ULDRUL of 3 2 1 0 : 7 part 0/1' \
    'refused O2 by ULDRUL of 3 2 1 0 : 7 part 64/65' 'refused K2 of 0 1 3 2 : 0 part 0/1' \
    'part 0/65535 of bound 6 of 3 2 1 0' 'part 62/63 of bound 0 of 0 1 2 3' 'refused O2 by of 0 1 2 3 : 1 part 62/63' \
    'optimal 1 of 1 0 2 3 ; L'
proves part_claims one_set F12 1 'refused K1 of 3 2 1 0 : 6 part 0/3' 'refused K1 of 3 2 1 0 : 6 part 1/3' \
    'refused K1 of 3 2 1 0 : 6 part 2/3' : --budget 1

"$program" prove part_claims one_set F12 >part_lines
"$program" prove other_part_claims one_set F12 >other_part_lines 2>/dev/null
"$program" prove part_claims one_set F12 --budget 1 >spent_lines
all_of_3='joined bound 6 of 3 2 1 0 from 3 parts, by lines that were read'
joins 'what prove wrote of all parts' "$all_of_3" board 6 3 part_lines
# Of the others, digests aside, none is of these parts.
input=board
skipped='7 of 14'
first='line 3 of other_part_lines: refused O2 by ULDRUL of 3 2 1 0 : 7 part 0/1'
joins 'parts of a board on standard input' "$all_of_3" - 6 3 other_part_lines part_lines
input=/dev/null
skipped='10 of 14'
first='line 3 of part_lines: part 0/3 of bound 6 of 3 2 1 0'
expect 'parts of another bound' 1 '3 2 1 0 : 5 part 0/1' : parts board 5 1 part_lines other_part_lines
expect 'parts of another count' 1 '3 2 1 0 : 6 part 0/1' : parts board 6 1 part_lines other_part_lines
skipped='3 of 5'
expect 'parts of another board' 1 '0 1 2 3 : 6 part 0/3' '0 1 2 3 : 6 part 1/3' '0 1 2 3 : 6 part 2/3' : \
    parts <(echo '0 1 2 3') 6 3 part_lines
skipped=
grep -v '^part 1/3 ' part_lines >lines_without_1
expect 'a part that is left out' 1 '3 2 1 0 : 6 part 1/3' : parts board 6 3 lines_without_1
"$program" parts board 6 3 lines_without_1 >open_claims 2>/dev/null
printf 'part 1/3 of bound 6 of 3 2 1 0' >cut_line
expect 'a last line that is cut' 1 '3 2 1 0 : 6 part 1/3' : parts board 6 3 lines_without_1 cut_line
echo >>cut_line
joins 'the same line, whole' "$all_of_3" board 6 3 lines_without_1 cut_line
skipped='2 of 9'
first='line 1 of malformed_lines: part 01/3 of bound 6 of 3 2 1 0'
printf '%s\n' 'part 01/3 of bound 6 of 3 2 1 0' $'part 1/3 of bound 6 of 3 2 1 0\r' >malformed_lines
joins 'malformed lines, and a part that is told twice' "$all_of_3" board 6 3 malformed_lines part_lines cut_line cut_line
skipped=
proves open_claims one_set F12 0 'part 1/3 of bound 6 of 3 2 1 0' :
grep '^part ' part_lines >parts_alone
joins 'lines of which each is of a part' "$all_of_3" board 6 3 parts_alone
expect 'no lines' 1 '3 2 1 0 : 6 part 0/1' : parts board 6 1 /dev/null

# A budget that ended the search of a part leaves it open, unless another line says that it holds.
ended='3 of 3'
expect 'parts that a budget ended' 1 '3 2 1 0 : 6 part 0/3' '3 2 1 0 : 6 part 1/3' '3 2 1 0 : 6 part 2/3' : parts board 6 3 spent_lines
ended='1 of 3'
expect 'a part that a budget ended' 1 '3 2 1 0 : 6 part 1/3' : parts board 6 3 spent_lines lines_without_1
ended=
joins 'parts that a budget ended at first' "$all_of_3" board 6 3 spent_lines part_lines
skipped='6 of 9'
first='line 3 of other_part_lines: refused O2 by ULDRUL of 3 2 1 0 : 7 part 0/1'
expect 'a part of a board without a solution' 1 '0 1 3 2 : 0 part 0/1' : parts <(echo '0 1 3 2') 0 1 other_part_lines
skipped=

# Moves that show one part to be false show that of the bound, if they are fewer: they are replayed.
is_false='refused O2 by ULDRUL of 3 2 1 0 : 7'
expect 'a part that is refuted' 1 "$is_false" : parts board 7 1 other_part_lines
expect 'a part of many that is refuted' 1 "$is_false" : parts board 7 65 other_part_lines
expect 'a part that is refuted by no moves at all' 1 'refused O2 by of 0 1 2 3 : 1' : parts <(echo '0 1 2 3') 1 63 other_part_lines
echo 'part 0/1 of bound 7 of 3 2 1 0' >false_line
expect 'a part that is refuted, and told to hold' 1 "$is_false" : parts board 7 1 false_line other_part_lines
joins 'a false part that is told to hold' 'joined bound 7 of 3 2 1 0 from 1 parts, by lines that were read' board 7 1 false_line
printf '%s\n' 'refused O2 by L U R D L U of 3 2 1 0 : 7 part 0/1' 'refused O2 by ULDRUL of 3 2 1 0 : 7 part 0/1' >refuted_lines
expect 'the first of two refutations' 1 'refused O2 by LURDLU of 3 2 1 0 : 7' : parts board 7 1 refuted_lines
skipped='1 of 1'
for moves in ULDRU ULDRUX ULDRULLR UU ''; do
    echo "refused O2 by${moves:+ }$moves of 3 2 1 0 : 7 part 0/1" >moves_line
    first="line 1 of moves_line: $(cat moves_line)"
    expect "the moves $moves, which refute nothing" 1 '3 2 1 0 : 7 part 0/1' : parts board 7 1 moves_line
done
echo 'refused O2 by ULDRUL of 3 2 1 0 : 6 part 0/1' >moves_line
first="line 1 of moves_line: $(cat moves_line)"
expect 'as many moves as the bound' 1 '3 2 1 0 : 6 part 0/1' : parts board 6 1 moves_line
for claim in '3 2 1 0 : 7 part 1/1' '3 2 1 0 : 7 part 0/3' '3 2 1 0 : 8 part 0/1' '3 2 1 0 : 7' '3 2 1 0 : 7 part 0/1 ' \
    '3 2 1 0 : 7 part 00/1' '3 2 1 0 ; ULDRUL'; do
    echo "refused O2 by ULDRUL of $claim" >moves_line
    first="line 1 of moves_line: $(cat moves_line)"
    expect "moves that refute '$claim'" 1 '3 2 1 0 : 7 part 0/1' : parts board 7 1 moves_line
done
skipped=

# The first line that is skipped is quoted: of N and K the wrong way round, with a CR, behind the name of a host, long, and with bytes
# that aren't printed.
open_of_5=('3 2 1 0 : 3 part 0/5' '3 2 1 0 : 3 part 1/5' '3 2 1 0 : 3 part 2/5' '3 2 1 0 : 3 part 3/5' '3 2 1 0 : 3 part 4/5')
printf '%s\n' 'part 0/3 of bound 5 of 3 2 1 0' 'part 1/3 of bound 5 of 3 2 1 0' 'part 2/3 of bound 5 of 3 2 1 0' >lines_of_5
skipped='3 of 3'
first='line 1 of lines_of_5: part 0/3 of bound 5 of 3 2 1 0'
expect 'N and K the wrong way round' 1 "${open_of_5[@]}" : parts board 3 5 lines_of_5
skipped='1 of 1'
long_line=$(printf 'part 0/1 of bound 6 of 3 2 1 0%171s' x)
for line in $'part 0/1 of bound 6 of 3 2 1 0\r' 'node1: part 0/1 of bound 6 of 3 2 1 0' "$long_line" $'\xff\t~ \x7f'; do
    printf '%s\n' "$line" >$'first\nlines'
    quoted=$(head -c 160 <<<"$line" | LC_ALL=C sed 's/[^ -~]/?/g')
    first="line 1 of first?lines: $quoted"
    expect "the first line is '$quoted'" 1 '3 2 1 0 : 6 part 0/1' : parts board 6 1 $'first\nlines'
done
# Lines that say nothing are none.
skipped='1 of 8'
first='line 5 of remarks: x'
{ printf '\n# part 0/3 of bound 6 of 3 2 1 0\n#\n\nx\n' && sed -n 3p part_lines; } >remarks
expect 'a stray line behind empty ones and remarks' 1 '3 2 1 0 : 6 part 1/3' : parts board 6 3 remarks <(sed -n 5p part_lines; echo '#')
skipped='1 of 2'
first='line 1 of remarks:  #'
printf ' #\n#\n' >remarks
expect 'a remark behind a space' 1 '3 2 1 0 : 6 part 0/1' : parts board 6 1 remarks
skipped=
rm lines_of_5 remarks $'first\nlines'

# With the blank last, lines that say so count, and no others; moves are played to that goal.
echo '0 3 2 1' >board_last
for index in 0 1 2; do
    echo "part $index/3 of bound 6 of 0 3 2 1 with the blank last"
done >lines_last
all_last='joined bound 6 of 0 3 2 1 from 3 parts, by lines that were read, with the blank last'
joins 'parts with the blank last' "$all_last" board_last 6 3 lines_last --goal last
open_last=('0 3 2 1 : 6 part 0/3' '0 3 2 1 : 6 part 1/3' '0 3 2 1 : 6 part 2/3')
skipped='3 of 3'
first="line 1 of lines_last: $(head -n 1 lines_last)"
expect 'parts with the blank last, for the blank first' 1 "${open_last[@]}" : parts board_last 6 3 lines_last
expect 'the same, with the goal named' 1 "${open_last[@]}" : parts board_last 6 3 lines_last --goal first
sed 's/ with .*//' lines_last >lines_first
first="line 1 of lines_first: $(head -n 1 lines_first)"
expect 'parts with the blank first, for the blank last' 1 "${open_last[@]}" : parts board_last 6 3 lines_first --goal last
skipped=
echo 'refused O2 by DRULDR of 0 3 2 1 : 7 part 0/1 with the blank last' >refuted_last
expect 'a refuted part with the blank last' 1 'refused O2 by DRULDR of 0 3 2 1 : 7 with the blank last' : \
    parts board_last 7 1 refuted_last --goal last
echo 'refused K1 of 0 3 2 1 : 6 part 1/3 with the blank last' >spent_last
ended='1 of 3'
expect 'a part with the blank last that a budget ended' 1 '0 3 2 1 : 6 part 1/3' : \
    parts board_last 6 3 spent_last <(sed 2d lines_last) --goal last
ended=
# Moves to the other goal show nothing: these lead from the board to 0 1 2 3.
skipped='1 of 1'
echo 'refused O2 by ULDRUL of 3 2 1 0 : 7 part 0/1 with the blank last' >refuted_last
first="line 1 of refuted_last: $(cat refuted_last)"
expect 'moves to the other goal' 1 '3 2 1 0 : 7 part 0/1' : parts board 7 1 refuted_last --goal last
skipped=

# Bounds and moves of several claims, joined by a script.
ln -s "$program" pdb_cli
joins_claims() {
    status=0
    printf '%s\n' "${claims[@]}" | "$root/tools/claims/join_claims.py" /dev/stdin "${@:3}" >"$work/output" 2>"$work/errors" || status=$?
    check "$1" wrote "$2" "${joined[@]}"
}
digest=$(sha256sum <part_lines)
claims=('3 2 1 0 : 6' '3 2 1 0 ; ULDRUL')
joined=("sha256 ${digest%% *}" "$all_of_3" "$all_of_3" 'solution 6'
    'join_claims.py: 6 moves are the fewest of 3 2 1 0 ; ULDRUL, by a replay and by 3 parts whose lines were read'
    'join_claims.py: 2 of 2 claims hold by what was read')
joins_claims 'claims that lines and moves give' 0 other_part_lines part_lines
claims=('3 2 1 0 : 7' '3 2 1 0 : 5' '3 2 1 0 ; ULDRULL' '0 1 2 3 : 0')
joined=('refused O2 by ULDRUL of 3 2 1 0 : 7' 'join_claims.py: no line tells of a part of bound 5 of 3 2 1 0' 'refused M2 at step 6'
    "join_claims.py: the moves don't solve 3 2 1 0 ; ULDRULL" 'join_claims.py: open are 62 of 63 parts of bound 0 of 0 1 2 3'
    'join_claims.py: 0 of 4 claims hold by what was read')
joins_claims 'claims that lines and moves do not give' 1 part_lines other_part_lines
digest=$(sha256sum <lines_last)
claims=('0 3 2 1 ; DRULDR')
joined=("sha256 ${digest%% *}" "$all_last" 'solution 6 with the blank last'
    'join_claims.py: 6 moves are the fewest of 0 3 2 1 ; DRULDR, by a replay and by 3 parts whose lines were read, with the blank last'
    'join_claims.py: 1 of 1 claims hold by what was read')
joins_claims 'claims with the blank last' 0 part_lines lines_last --goal last
# Parts are answered round after round.
mkdir rounds
ln -s ../{pdb_cli,board,board_last,one_set,F12} rounds
for words in 'board 6 3' '--goal last board_last 6 3'; do
    status=0
    # shellcheck disable=SC2086
    (cd rounds && "$root/tools/claims/parts.sh" $words ./pdb_cli prove - one_set F12) >"$work/output" 2>"$work/errors" || status=$?
    said=$all_of_3
    [[ $words == board* ]] || said=$all_last
    check "rounds of $words" [ "$status.$(head -n 1 "$work/output").$(tail -n 1 "$work/output")" = "0.round 1: 3 of 3 parts open.$said" ]
done
rm -r pdb_cli rounds

expect 'parts of a text that is no board' 1 'refused B3 count 0' : parts /dev/null 6 3 part_lines
expect 'parts of a board that is not there' 2 'fault read B' : parts B 6 3 part_lines
expect 'answers that are not there' 2 'fault read A' : parts board 6 3 part_lines A
expect 'answers that are not there, and a text that is no board' 2 'fault read A' : parts /dev/null 6 3 part_lines A
expect 'answers that are not there, behind a refutation' 2 'fault read A' : parts board 7 1 other_part_lines A
truncate -s 67108865 long_answers
expect 'answers over their limit' 2 'fault size long_answers' : parts board 6 3 part_lines long_answers
truncate -s 67108864 long_answers
joins 'answers of as many bytes as they may have' "$all_of_3" board 6 3 long_answers part_lines
rm long_answers
# With a foreign line behind them.
echo x | tee -a part_lines >>lines_without_1
for answers in part_lines lines_without_1; do
    status=0
    "$program" parts board 6 3 "$answers" 2>"$work/errors" >/dev/full || status=$?
    : >"$work/output"
    check "what comes of $answers on a full standard output" [ "$status" = 2 ]
    check "lines of $answers that are skipped, on a full standard output" [ "$(grep -c skipped "$work/errors")" = 0 ]
done
status=0
"$program" parts board 6 3 part_lines 2>/dev/full >"$work/output" || status=$?
: >"$work/errors"
digest=$(sha256sum <part_lines)
check 'lines that are skipped, on a full standard error' wrote 0 "sha256 ${digest%% *}" "$all_of_3"

#
# Inputs of a claim that are not there, or too long.
#

expect 'a log that is not there' 2 'fault read L' : bound board one_set L F123
expect 'sets that are not there' 2 'fault read S' : bound board S L F123
expect 'a second table that is not there' 2 'fault read T' : bound board one_set leaf F123 T
expect 'a puzzle that is not there' 2 'fault read P' : optimal P one_set leaf F123
head -c 65537 /dev/zero >long_text
expect 'a board text over its limit' 2 'fault size long_text' : bound long_text one_set leaf F123
expect 'a set text over its limit' 2 'fault size long_text' : bound board long_text leaf F123
{ cat leaf && cat long_text; } >long_log
claim 1 'refused L2 at lemma 1' F123 long_log : bound board one_set long_log F123
truncate -s 1073741825 log_over_its_limit
expect 'a log over its limit' 2 'fault size log_over_its_limit' : bound board one_set log_over_its_limit F123
rm log_over_its_limit

#
# Want of memory.
#

echo 'no memory' >"$work/no_memory"

# Whether the run wrote `no memory` with status 3, or its own answer.
lacked_memory_or_not() {
    told_at_most_why || return 1
    case $status in
    "$own_status") cmp -s "$work/output" "$work/own_answer" ;;
    3) cmp -s "$work/output" "$work/no_memory" ;;
    *) false ;;
    esac
}

# A run with these words that is refused nothing, and then one for each of these limits of its memory, in kilobytes.
limit_memory() {
    local kilobytes
    run "$@"
    own_status=$status
    mv "$work/output" "$work/own_answer"
    for kilobytes in {2000..6000..100} {7000..40000..3000} {50000..800000..75000}; do
        # Where the system has no memory to start the program, no answer is the program's.
        (ulimit -v "$kilobytes" && exec "$bare" --help) >/dev/null 2>"$work/errors"
        [ "$?" != 127 ] || continue
        status=0
        (ulimit -v "$kilobytes" && exec "$bare" "$@") >"$work/output" 2>"$work/errors" || status=$?
        check "$* with $kilobytes kilobytes" lacked_memory_or_not
        [ "$status" != 3 ] || refusals=$((refusals + 1))
    done
}

refusals=0
limit_memory replay solved
limit_memory table all_of_side_3 --workers 64
limit_memory optimal six_moves one_set branches F12 --workers 7
limit_memory optimal six_moves one_set branches F12 --workers 7 --fold
limit_memory make-table 3 126 made --workers 7
rm -f made
limit_memory solve board one_set made F12 --workers 7
limit_memory solve board one_set made F12 --fold
limit_memory prove true_claims one_set F12 --workers 7
limit_memory prove false_claims one_set F12 --workers 64 --fold
limit_memory prove part_claims one_set F12 --workers 7
skipped='4 of 6'
first='line 3 of part_lines: part 0/3 of bound 6 of 3 2 1 0'
limit_memory parts board 6 65535 part_lines
skipped=
rm -f made
check 'memory was refused to some runs' [ "$refusals" -gt 0 ]

# Each request for memory or a thread is refused in turn.
for words in '' 'table F123' 'table F123 --workers 2' 'table F123_with_02' 'make-table 5 16777216 made' \
    'bound board one_set leaf F123' 'bound board one_set branches_without_the_last F12' \
    'bound board one_set citation F12' 'bound board one_set citation F12 --workers 2' \
    'bound board with_mirror_and_1 leaf F1 F3 --workers 2' 'bound board one_set by_parity F12' \
    'bound board one_set citation F12 --fold' 'bound board pair leaf F12 F3 --fold --workers 2' \
    'optimal six_moves one_set branches F12' 'optimal six_moves one_set branches F12 --fold' \
    'optimal six_moves pair leaf F12 F3 --fold --workers 2' 'solve next_board one_set made F123' \
    'solve board with_mirror_and_1 made F1 F3' 'solve board one_set made F12 --fold' \
    'solve board pair made F12 F3 --fold --workers 2' 'prove true_claims one_set F12' 'prove false_claims one_set F12 --workers 2' \
    'prove true_claims with_mirror_and_1 F1 F3 --fold --workers 7' 'prove claims one_set F12' \
    'prove other_part_claims one_set F12' 'parts board 6 3 part_lines' 'parts board 6 3 lines_without_1 other_part_lines'; do
    status=0
    # shellcheck disable=SC2086
    PROGRAM=$bare "$root/tools/checks/refuse_memory.sh" $words <solved >"$work/output" 2>"$work/errors" || status=$?
    check "each request of '$words' is refused" [ "$status" = 0 ]
done
rm -f made

# A hard claim asks for memory some 25,000 times, nearly always for its automaton, and last for edge words and a search over them.
# Without either the search goes on, so the answer is the same.
"$bare" make-table 3 14 three_of_side_3 >/dev/null
echo '8 0 6 5 4 7 2 3 1 : 27' >hard_claim
# With those requests refused in turn that a word as LAST=100 says: does_without WHICH CLAIMS SETS FILE..
does_without() {
    local which=$1
    shift
    status=0
    env PROGRAM="$bare" "$which" "$root/tools/checks/refuse_memory.sh" prove "$@" \
        </dev/null >"$work/output" 2>"$work/errors" || status=$?
    check "requests of $* are refused, $which" [ "$status" = 0 ]
    check "$* does without help, $which" told 'no memory: 0, '
}
does_without LAST=100 hard_claim one_set three_of_side_3
does_without EVERY=997 hard_claim one_set three_of_side_3

# Over more than 8 tables there are no edge words: the sums of all are asked. This board is 31 moves from the goal board, and no set says
# much of it.
nine_of_side_3=()
for mask in 2 4 8 16 32 64 128 256; do
    "$bare" make-table 3 "$mask" "side_3_$mask" >/dev/null
    nine_of_side_3+=("side_3_$mask")
done
nine_of_side_3+=(three_of_side_3)
printf 'set %s\n' '0 1 2' '3 4t 5' '6t 7t' 8 >sets_of_nine
printf '8 0 6 5 4 7 2 3 1%s\n' ' : 31' ' ; DDLURRULLDRRDLLURURDDLUURDDLLUU' >hard_claims
answers_of_nine=('bound 31 of 8 0 6 5 4 7 2 3 1' 'optimal 31 of 8 0 6 5 4 7 2 3 1 ; DDLURRULLDRRDLLURURDDLUURDDLLUU')
proves hard_claims sets_of_nine "${nine_of_side_3[*]}" 0 "${answers_of_nine[@]}" :
proves hard_claims sets_of_nine "${nine_of_side_3[*]}" 0 "${answers_of_nine[@]}" : --workers 4
does_without LAST=200 hard_claims sets_of_nine "${nine_of_side_3[@]}"

#
# The stack.
#

# Whether the run gave its own answer.
same_answer() {
    [ "$status" = "$own_status" ] && told_at_most_why && cmp -s "$work/output" "$work/own_answer"
}

same_line_and_status() {
    [ "$status" = "$own_status" ] && cmp -s "$work/output" "$work/own_answer"
}

told_shares_alone() {
    [ -s "$work/errors" ] && ! grep -Evq '^pdb_cli: all_of_side_3, 1 of 1: (100|[1-9]?[0-9]) percent of 1418 blocks or lemmas begun$' "$work/errors"
}

# A run with these words on a stack of 128 kilobytes. Each process has them from its start; what a run needs beyond them the
# system may refuse where memory is limited, and then ends the run by a signal.
limit_stack() {
    run "$@"
    own_status=$status
    mv "$work/output" "$work/own_answer"
    status=0
    (ulimit -s 128 && exec env -i "$bare" "$@") <"$input" >"$work/output" 2>"$work/errors" || status=$?
    check "$* with a stack of 128 kilobytes" same_answer
}

most_tables=(F12 F12 F12 F12 F12 F12 F12 F12 F12 F12 F12 F12 F12 F12 F12 F12)
limit_stack --help
limit_stack replay solved
limit_stack table F123
limit_stack table F12 --workers 7
limit_stack table all_of_side_3 --workers 64
limit_stack bound board one_set citation "${most_tables[@]}" --workers 64
limit_stack bound board sixteen_mirrors citation "${most_tables[@]}" --workers 64
limit_stack optimal six_moves one_set branches "${most_tables[@]}" --workers 64
limit_stack optimal six_moves one_set branches "${most_tables[@]}" --workers 64 --fold
limit_stack bound board sixteen_mirrors citation "${most_tables[@]}" --workers 64 --fold
limit_stack make-table 2 14 made
limit_stack make-table 3 126 made --workers 64 --replace
rm -f made
limit_stack solve next_board one_set made F123
limit_stack solve board one_set made "${most_tables[@]}" --workers 64
limit_stack solve board sixteen_mirrors made "${most_tables[@]}" --workers 64
limit_stack solve board sixteen_mirrors made "${most_tables[@]}" --workers 64 --fold
limit_stack prove true_claims one_set "${most_tables[@]}" --workers 64
limit_stack prove false_claims sixteen_mirrors "${most_tables[@]}" --workers 64 --fold
limit_stack prove false_claims sixteen_mirrors "${most_tables[@]}" --workers 64
limit_stack prove other_part_claims one_set "${most_tables[@]}" --workers 64
limit_stack prove true_claims one_set F12 F12 F12 F12 F12 F12 F12 F12 --workers 64
# For this claim words are made; over sixteen tables there are none.
limit_stack prove hard_claim one_set three_of_side_3 --workers 64
sixteen_of_side_3=("${nine_of_side_3[@]}" "${nine_of_side_3[@]:2}")
limit_stack prove hard_claims sets_of_nine "${sixteen_of_side_3[@]}" --workers 64
skipped='4 of 6'
limit_stack parts board 6 65535 part_lines
skipped=
rm -f made hard_claim hard_claims

#
# Progress.
#

# A clock that moves by 300 milliseconds each time that it is read. One worker reads it at the start and then once a block,
# so it is time to tell at each fourth block.
cc -O1 -shared -fPIC -o "$work/step_clock.so" "$root/tools/preload/step_clock.c"
blocks=1418
run table all_of_side_3
own_status=$status
mv "$work/output" "$work/own_answer"
for ((block = 4; block <= blocks; block += 4)); do
    echo "pdb_cli: all_of_side_3, 1 of 1: $((100 * block / blocks)) percent of $blocks blocks or lemmas begun"
done >"$work/progress"
for workers in 1 4; do
    status=0
    (export PDB_PROGRESS=1 LD_PRELOAD=$work/step_clock.so && exec "$bare" table all_of_side_3 --workers "$workers") \
        >"$work/output" 2>"$work/errors" || status=$?
    check "progress of $workers workers leaves the answer" same_line_and_status
    [ "$workers" != 1 ] || check 'all shares that one worker tells' cmp -s "$work/errors" "$work/progress"
    check "$workers workers tell shares alone" told_shares_alone
done
for value in '' 0 11 yes '1 ' ' 1'; do
    status=0
    (export PDB_PROGRESS=$value LD_PRELOAD=$work/step_clock.so && exec "$bare" table all_of_side_3) \
        >"$work/output" 2>"$work/errors" || status=$?
    check "no progress with the value '$value'" same_answer
done
status=0
(unset PDB_PROGRESS && export LD_PRELOAD=$work/step_clock.so && exec "$bare" table all_of_side_3) \
    >"$work/output" 2>"$work/errors" || status=$?
check 'no progress without the variable' same_answer
status=0
(export PDB_PROGRESS=1 LD_PRELOAD=$work/step_clock.so && exec "$bare" table all_of_side_3) \
    >"$work/output" 2>/dev/full || status=$?
: >"$work/errors"
check 'progress on a full standard error leaves the answer' same_answer

# Of several files each is named, and which it is: told_files FILE..
told_files() {
    sed -n 's/: [0-9]* percent of [0-9]* blocks or lemmas begun$//p' "$work/errors" | uniq | cmp -s - <(printf 'pdb_cli: %s\n' "$@")
}

# The lines of progress, one after the other, with N for each number: told_kinds LINE..
told_kinds() {
    sed -E 's/[0-9]+/N/g' "$work/errors" | uniq | cmp -s - <(printf 'pdb_cli: %s\n' "$@")
}
"$bare" make-table 3 30 tiles_1_to_4 >/dev/null
"$bare" make-table 3 480 tiles_5_to_8 >/dev/null
echo 'set 0 1' >sets
echo '0 3 2 4 1 8 7 6 5' >board_of_3
status=0
(export PDB_PROGRESS=1 LD_PRELOAD=$work/step_clock.so && exec "$bare" solve board_of_3 sets made tiles_1_to_4 tiles_5_to_8) \
    >"$work/output" 2>"$work/errors" || status=$?
check 'a search names the files that are checked' [ "$status.$(tail -n 1 "$work/output")" = '0.optimal 20' ]
check 'each with its number' told_files 'tiles_1_to_4, 1 of 3' 'tiles_5_to_8, 2 of 3'
check 'and tells how fast it goes' grep -Eqx 'pdb_cli: below [0-9]+: [0-9]+ boards, [0-9]+ a second' "$work/errors"
blank_first='pdb_cli: home has the blank first: --goal last has it last'
check 'and first where the blank is at home' [ "$(head -n 1 "$work/errors")" = "$blank_first" ]
status=0
(export PDB_PROGRESS=1 && exec "$bare" replay solved) >"$work/output" 2>"$work/errors" || status=$?
check 'not of a board of side 2 that has a solution' [ "$status.$(cat "$work/output" "$work/errors")" = '0.solution 6' ]
status=0
(export PDB_PROGRESS=1 LD_PRELOAD=$work/step_clock.so && exec "$bare" make-table 3 510 made --replace) \
    >"$work/output" 2>"$work/errors" || status=$?
check 'a table is told while it is made and while it is checked' told_kinds \
    'made: N percent of N counts found, those up to N moves' 'made: N percent of N entries filled in' \
    'made, N of N: N percent of N blocks or lemmas begun'
rm made tiles_1_to_4 tiles_5_to_8 sets board_of_3

# Before the paces of a search of a claim comes where the blank is at home: on side 3 a board has a solution with the blank last where it
# has one with the blank first. Each search tells its pace, and no shares. Before it is searched for anew, over edge words, and in the
# end the claim is told; and then all of them.
told_paces_alone() {
    local pace='pdb_cli: claim 0, below [0-9]+: [0-9]+ boards, [0-9]+ a second'
    local effort='pdb_cli: claim 0: [0-9]+ boards in [0-9]+\.[0-9] seconds, [0-9]+ a second'
    [ "$(head -n 1 "$work/errors")" = "$blank_first" ] && tail -n +2 "$work/errors" >"$work/paces" &&
        grep -Eqx "$pace" "$work/paces" && ! head -n -2 "$work/paces" | grep -Evqx "$pace|$effort" &&
        [ "$(grep -Ecx "$effort" "$work/paces")" = 2 ] && tail -n 2 "$work/paces" | head -n 1 | grep -Eqx "$effort" &&
        [ "$(tail -n 1 "$work/paces")" = 'pdb_cli: 1 claim: 1 bound' ]
}
printf '# 31 moves\n\n8 0 6 5 4 7 2 3 1 : 29\n' >claims
run prove claims one_set three_of_side_3
own_status=$status
mv "$work/output" "$work/own_answer"
for workers in 1 4; do
    status=0
    (export PDB_PROGRESS=1 LD_PRELOAD=$work/step_clock.so && exec "$bare" prove claims one_set three_of_side_3 --workers "$workers") \
        >"$work/output" 2>"$work/errors" || status=$?
    check "progress of $workers workers leaves the answer to a claim" same_line_and_status
    check "$workers workers tell paces alone" told_paces_alone
done
status=0
PDB_PROGRESS=1 "$bare" prove false_claims one_set F12 >"$work/output" 2>"$work/errors" || status=$?
check 'how many claims were answered how' [ "$status.$(tail -n 1 "$work/errors")" = '1.pdb_cli: 13 claims: 1 bound, 12 refused' ]
status=0
PDB_PROGRESS=1 "$bare" prove - one_set three_of_side_3 <<<'1 0 2 3 4 5 6 7 8' >"$work/output" 2>"$work/errors" || status=$?
check 'and of claims on standard input behind the answers where the blank is at home' \
    [ "$status.$(cat "$work/errors")" = "0.$blank_first"$'\n''pdb_cli: 1 claim: 1 optimal' ]
status=0
PDB_PROGRESS=1 "$bare" replay <<<'1 0 2 3 4 5 6 7 8 ; L' >"$work/output" 2>"$work/errors" || status=$?
check 'so of a board with moves' [ "$status.$(cat "$work/output" "$work/errors")" = "0.solution 1"$'\n'"$blank_first" ]
status=0
PDB_PROGRESS=1 "$bare" parts - 20 3 /dev/null <<<'1 2 3 4 0 6 7 5 8' >"$work/output" 2>"$work/errors" || status=$?
check 'and of a bound in parts' [ "$status.$(cat "$work/errors")" = "1.$blank_first" ]
status=0
PDB_PROGRESS=1 "$bare" replay --goal last <<<'1 2 3 4 5 6 7 0 8 ; R' >"$work/output" 2>"$work/errors" || status=$?
check 'not with the blank last' [ "$status.$(cat "$work/output" "$work/errors")" = '0.solution 1 with the blank last' ]

#
# Changed inputs.
#

status=0
"$root/tools/checks/try_hostile.py" --program "$bare" >"$work/output" 2>"$work/errors" || status=$?
check '2,000 changed inputs are answered as their plain answers say' \
    [ "$status.$(tail -n 1 "$work/output")" = '0.2000 passed, 0 failed' ]

#
# Whole puzzles.
#

passes 'claims on the boards of sides 2 to 4 are answered as a breadth-first search says' check_prove.py "$bare"

#
# Boards of the literature.
#

for mask in 9826 55680 28; do
    "$bare" make-table 4 "$mask" "korf_$mask" >/dev/null
done
printf 'set 0 1 2\nset 0t 1t 2t\n' >korf_sets
run prove "$root/docs/results/korf_1985.claims" korf_sets korf_9826 korf_55680 korf_28 --workers 4
check "Korf's hundred boards of the 15-puzzle have the shortest solutions that docs/results says" \
    cmp -s "$work/output" "$root/docs/results/korf_1985.answers"
check "Korf's hundred boards are all answered with a yes" [ "$status" = 0 ]

rm korf_*
"$root/tools/claims/make_results.py" >"$work/output" 2>"$work/errors"
check 'docs/RESULTS.md says what docs/results has' cmp -s "$work/output" "$root/docs/RESULTS.md"
"$root/tools/claims/show_solution.py" --svg "$work/output" <<<'0 3 2 4 1 8 7 6 5 ; RDDRUULLDRDLUURRDLLU' 2>"$work/errors"
check 'the picture of README.md is what tools/claims/show_solution.py draws' cmp -s "$work/output" "$root/docs/solution.svg"

passes 'tables are chosen for claims and moves found for boards, by which the program answers' check_choose.sh "$bare"

#
# The tour.
#

passes 'the commands of the pages write what these say' check_tour.sh "$bare"

#
# What has to be believed.
#

passes 'the page of what has to be believed counts and quotes what is there' check_believe.py

#
# The examples of the crates' pages.
#

passes 'each example of a page stands among the tests' check_examples.py

#
# Tables and logs that are made.
#

# Whether the folder holds the names of before, and this one, if it is given, and no others.
names_of() {
    find . -mindepth 1 | sort
}
only_new() {
    names_of | cmp -s - <(printf '%s\n' "$names_before" ${1:+"./$1"} | sort)
}

# A table that is made must be told, and be this file: made FILE LINE SIDE MASK WORD..
made() {
    local digest
    rm -f made
    names_before=$(names_of)
    digest=$(sha256sum <"$1")
    expect "make-table ${*:3}" 0 "sha256 ${digest%% *}" "$2" : make-table "$3" "$4" made "${@:5}"
    check "make-table ${*:3} keeps its table" cmp -s "$1" made
    check "make-table ${*:3} keeps nothing else" only_new made
}

made F123 'exact side 2 mask 14 entries 24 unreachable 12 deepest 6' 2 14
made F12 'exact side 2 mask 6 entries 24 unreachable 8 deepest 4' 2 6
for mask in 0xe 0x0E tiles:1,2,3 tiles:3,1,2 tiles:1-3 tiles:3,1-2; do
    made F123 'exact side 2 mask 14 entries 24 unreachable 12 deepest 6' 2 "$mask"
done
for mask in 16777216 0x1000000 tiles:24; do
    made F24 'exact side 5 mask 16777216 entries 50 unreachable 0 deepest 8' 5 "$mask"
done
for workers in 1 2 7; do
    made all_of_side_3 'exact side 3 mask 510 entries 362880 unreachable 181440 deepest 31' 3 510 --workers "$workers"
done
rm -f made
names_before=$(names_of)
for numbers in '2 1' '6 2' '2 0' '2 15' '5 254' '0 0' '255 4294967295' '2 0x0' '5 0xffffffff' '2 tiles:0,1' '2 tiles:0-3' '2 tiles:4' '5 tiles:31'; do
    # shellcheck disable=SC2086
    expect "make-table $numbers" 1 'refused K4' : make-table $numbers made
    check "make-table $numbers keeps nothing" only_new
done
echo 'what stood here' >taken
expect 'make-table without a pattern over a file' 1 'refused K4' : make-table 2 1 taken --replace
check 'a refusal leaves the file' cmp -s taken <(echo 'what stood here')
digest=$(sha256sum <F12)
expect 'make-table over a file' 0 "sha256 ${digest%% *}" 'exact side 2 mask 6 entries 24 unreachable 8 deepest 4' : \
    make-table 2 6 taken --replace
check 'the file is replaced' cmp -s taken F12
rm taken

# What is found for a board must be told with its log's digest, and `optimal` must say the same of it:
# solved BOARD MOVES SETS FILES WORD..
solved() {
    local board=$1 moves=$2 sets=$3 files=() lines=() file digest letters fold=
    read -ra files <<<"$4"
    shift 4
    [[ $* != *--fold* ]] || fold=yes
    rm -f made
    names_before=$(names_of)
    run solve "$board" "$sets" made "${files[@]}" "$@"
    for file in "${files[@]}" made; do
        digest=$(sha256sum 2>/dev/null <"$file")
        lines+=("sha256 ${digest%% *}")
    done
    letters=$(sed -n 's/^moves *//p' "$work/output")
    check "solve $board $sets $*" wrote 0 "${lines[@]}" "moves${letters:+ $letters}" "optimal $moves"
    check "solve $board $sets $* tells as many letters" [ "${#letters}" = "$moves" ]
    check "solve $board $sets $* keeps nothing else" only_new made
    check "solve $board $sets $* makes a log of version 2" [ "$(od -An -tu1 -j 4 -N 1 made)" -eq 2 ]
    { cat "$board" && echo "; $letters"; } >"$work/puzzle"
    expect "optimal of what solve $board $sets $* found" 0 "${lines[@]}" "optimal $moves" : \
        optimal "$work/puzzle" "$sets" made "${files[@]}" ${fold:+--fold}
}

echo '0 1 2 3' >solved_board
solved solved_board 0 one_set F123
solved next_board 1 one_set F123
solved board 6 one_set F12
check 'the log with parity leaves that is made' cmp -s by_parity made
solved board 6 one_set F123 --workers 7
check 'the log of one leaf that is made' cmp -s leaf_2 made
solved board 6 one_set F12 --workers 2 --budget 1000
solved board 6 mirror F12
solved board 6 with_mirror F1
solved board 6 with_mirror_and_1 'F1 F3' --workers 2
for workers in 1 2 7; do
    solved next_board 1 one_set F123 --workers "$workers"
    solved board 6 one_set F12 --workers "$workers"
    solved next_board 1 one_set F123 --fold --workers "$workers"
    solved board 6 one_set F12 --fold --workers "$workers"
done
check 'the same log over folded tables' cmp -s by_parity made
rm -f made
digest=$(sha256sum <F12)
log_digest=$(sha256sum <by_parity)
expect 'solve with the blank last' 0 "sha256 ${digest%% *}" "sha256 ${log_digest%% *}" 'moves DRULDR with the blank last' \
    'optimal 6 with the blank last' : solve --goal last board_last one_set made F12
check 'its log is that of the turned board' cmp -s by_parity made
either_way 0 'bound 6 with the blank last' F12 made : bound --goal last board_last one_set made F12
either_way 0 'optimal 6' F12 made : optimal six_moves one_set made F12
echo '1 2 3 0' >home_last
rm made
run solve --goal last home_last one_set made F123
check 'solve of home with the blank last' [ "$(tail -n 2 "$work/output")" = $'moves with the blank last\noptimal 0 with the blank last' ]
solved board 6 pair 'F12 F3' --fold
solved board 6 mirror F12 --fold
rm -f made
names_before=$(names_of)
either_way 1 'refused K2' F123 : solve unsolvable_board one_set made F123
either_way 1 'refused L4' F24 : solve solved_board one_set made F24
either_way 1 'refused K1' F12 : solve board one_set made F12 --budget 1
either_way 1 'refused K2' F12 : solve folded_board one_set made F12
either_way 1 'refused B5 at number 3' F123 F12 : solve no_board one_set made F123 F12
either_way 1 'refused T7 at entry 0 of table 0' F12_with_FE F123 : solve board one_set made F12_with_FE F123
either_way 1 'refused T6 of table 1' F12 F123_with_a_byte_more F12_with_FE : solve board one_set made F12 F123_with_a_byte_more F12_with_FE
# shellcheck disable=SC2086
either_way 1 'refused S5' $seventeen : solve board one_set made $seventeen
check 'a search that is refused keeps nothing' only_new
expect 'solve without a board' 2 'fault read none' : solve none one_set made F12
cp board both
run solve both one_set both F12 --replace
check 'solve over its own board, as it is told to' [ "$status.$(tail -n 1 "$work/output")" = '0.optimal 6' ]
{ cat board && sed -n 's/^moves/;/p' "$work/output"; } >"$work/puzzle"
run optimal "$work/puzzle" one_set both F12
check 'what stands there is the log' [ "$status.$(tail -n 1 "$work/output")" = '0.optimal 6' ]
rm both

# A file that is read, and one that is not of the same kind, is spared, and nothing is tried or done: spares OUT WHY WORD..
spares() {
    local out=$1 why=$2
    shift 2
    cp "$out" "$work/before"
    names_before=$(names_of)
    run "$@"
    check "$* spares $out" wrote 2 "fault write $out"
    [[ $why == *': '* ]] || why+=": \`--replace\` allows that"
    check "$* says why it spares $out" [ "$(cat "$work/errors")" = "pdb_cli: $out: $why" ]
    check "$* leaves $out as it was" cmp -s "$out" "$work/before"
    check "$* leaves nothing else" only_new
}
cp board both
cp one_set sets
ln both also_both
why='this run reads that file, so it is not replaced'
for out in both ./both "$work/files/both" also_both; do
    spares "$out" "$why" solve both sets "$out" F12
    spares "$out" "$why" solve both sets "$out" F12 --budget 1 --fold
done
spares sets "$why" solve both sets sets F12
spares F12 "$why" solve both sets F12 F12
spares F3 "$why" solve both pair F3 F12 F3 --workers 7
why="a table is there, or what can't be read, so no log takes its place"
spares F12 "$why" solve board one_set F12 F123
spares F12_with_FE "$why" solve no_board one_set F12_with_FE F123
run solve board one_set a_log F12
why="a log is there, or what can't be read, so no table takes its place"
for out in a_log leaf branches; do
    spares "$out" "$why" make-table 2 6 "$out"
    spares "$out" "$why" make-table 2 1 "$out" --workers 2
done
if [ "$(id -u)" != 0 ]; then
    chmod a-r a_log
    cp F12 unread && chmod a-r unread
    run make-table 2 6 a_log
    check 'a log that can not be read is spared' wrote 2 'fault write a_log'
    run solve board one_set unread F123
    check 'a table that can not be read is spared' wrote 2 'fault write unread'
    chmod u+r a_log unread && rm unread
fi
expect 'an input that is not there comes before a file that is spared' 2 'fault read none' : solve none one_set F12 F123
# A table of the same pattern is replaced, and so is a log of the same board, turned for the goal; another table or log isn't, nor what
# only begins a little as these do.
why='a log of another board is there, so it is not replaced'
spares a_log "$why" solve next_board one_set a_log F123
spares a_log "$why" solve next_board one_set a_log F123 --budget 1 --workers 2
spares a_log "$why" solve board_last one_set a_log F12
spares a_log "$why" solve --goal last board one_set a_log F12
expect 'a refused board text comes before a log of another board' 1 "sha256 ${digest%% *}" 'refused B5 at number 3' : \
    solve no_board one_set a_log F12
for words in 'board one_set a_log F12' '--goal last board_last one_set a_log F12'; do
    cp branches a_log
    # shellcheck disable=SC2086
    run solve $words
    check "solve $words replaces a log of its board" cmp -s a_log by_parity
done
run solve next_board one_set a_log F123 --replace
check 'a log is replaced by a log, as it is told to' [ "$status.$(tail -n 1 "$work/output")" = '0.optimal 1' ]
# Of two lemmas the last one tells the board.
of_next='01 00 02 03 01 00 00 00 01 01'
of_board='03 02 01 00 06 00 00 00 01 01'
bytes "50 44 42 4C 02 02 00 00 00 02 $of_board $of_next" >a_file
spares a_file "$why" solve board one_set a_file F12
bytes "50 44 42 4C 01 02 00 00 00 02 $of_next $of_board" >a_file
run solve board one_set a_file F12
check 'a log whose last board is the same is replaced' cmp -s a_file by_parity
why='a table of another side or mask is there, so it is not replaced'
for file in F123 F1 F24 F12_with_FE; do
    cp "$file" a_file
    spares a_file "$why" make-table 2 12 a_file
done
of_12='PDBT\x01\x02\x02\x00\x00\x00\x00\x06'
for front in "${of_12%06}04" "${of_12%\\x06}" 'PDBT\x01\x03\x02\x00\x00\x00\x00\x06' 'PDBT\x01\x02\x01\x00\x00\x00\x00\x06' 'PDBT\x01'; do
    printf %b "$front" >a_file
    spares a_file "$why" make-table 2 6 a_file
done
for front in "$of_12" "$of_12 and more"; do
    printf %b "$front" >a_file
    run make-table 2 6 a_file
    check "a file of '$front' is replaced by a table" cmp -s a_file F12
done
cp F12_with_FE a_file
run make-table 2 6 a_file
check 'a table with a wrong entry is replaced by the right one' cmp -s a_file F12
why="what is there is neither a table nor a log, or can't be read, so it is not replaced"
for front in PDBL 'PDBL\x00' 'PDBL\x03' PDB '' PDBT 'PDBT\x00' 'PDBT\x02' 'a text\n'; do
    printf %b "$front" >a_file
    spares a_file "$why" make-table 2 6 a_file
    spares a_file "$why" solve board one_set a_file F12
    run make-table 2 6 a_file --replace
    check "a file of '$front' is replaced by a table, as it is told to" cmp -s a_file F12
done
why='a log of another board is there, so it is not replaced'
for front in 'PDBL\x01' 'PDBL\x02' "$(head -c 29 branches | od -An -v -tx1 | tr -d '\n' | sed 's/ /\\x/g')"; do
    printf %b "$front" >a_file
    spares a_file "$why" solve board one_set a_file F12
done
# What its owner may not write stays, whatever the words say, and whoever runs them.
why="it is read-only to its owner, so it is not replaced: \`chmod u+w\` allows that"
for mode in 400 444 575; do
    for file in F12 by_parity board; do
        cp "$file" a_file && chmod "$mode" a_file
        spares a_file "$why" make-table 2 6 a_file
        spares a_file "$why" make-table 2 6 a_file --replace
        spares a_file "$why" solve board one_set a_file F12
        spares a_file "$why" solve board one_set a_file F12 --replace
        check "a file of mode $mode keeps it" [ "$(stat -c %a a_file)" = "$mode" ]
        chmod u+w a_file && rm a_file
    done
done
run make-table 2 6 a_log --replace
check 'a log is replaced by a table, as it is told to' cmp -s a_log F12
run solve --replace board one_set a_table F12
check 'a table is replaced by a log, as it is told to' cmp -s a_table by_parity
cp F12 a_table
run solve board one_set a_table a_table --replace
check 'a log takes the place of its own table, as it is told to' cmp -s a_table by_parity
rm both also_both sets a_log a_table a_file

# Names that nothing can be kept under are told at once, before work that would take much longer than the time that it has here.
echo '0 15 14 13 12 11 10 9 8 7 6 5 4 3 1 2' >far_board
run make-table 4 2 tile_1
mkdir "$work/a_folder"
mkfifo a_pipe
too_long=$(printf 'n%.0s' {1..256})
ln -s F12 a_link
ln -s none a_loose_link
names_before=$(names_of)

# A run with these words must tell so of OUT alone, within ten seconds: unwritable OUT WORD..
unwritable() {
    local out=$1
    shift
    status=0
    timeout 10 "$program" "$@" </dev/null >"$work/output" 2>"$work/errors" || status=$?
    check "'$out' can not be written by $1" wrote 2 "fault write $out"
}
for out in no_folder/made F12/made "$work/a_folder" "$work/a_folder/" . /dev/full /dev/null /dev/stdout a_pipe a_link a_loose_link \
    /proc/made "$too_long" ''; do
    unwritable "$out" make-table 5 126 "$out" --workers 4
    unwritable "$out" solve far_board one_set "$out" tile_1 --budget 1000000000000
    unwritable "$out" solve far_board one_set "$out" tile_1 --budget 1000000000000 --fold
done
unwritable no_folder/made make-table 2 1 no_folder/made
unwritable no_folder/made solve one_set one_set no_folder/made F12
expect 'an input that is not there comes before the trial' 2 'fault read none' : solve none one_set no_folder/made F12
check 'nothing is left of names that can not be kept under' only_new
if [ "$(id -u)" != 0 ]; then
    chmod a-w "$work/a_folder"
    unwritable "$work/a_folder/made" make-table 5 126 "$work/a_folder/made"
    chmod u+w "$work/a_folder"
fi
check 'the folder is as it was' [ -z "$(ls -A "$work/a_folder")" ]
check 'a link stays, and what it leads to' cmp -s a_link F12
check 'a link stays a link' [ "$(readlink a_link) $(readlink a_loose_link)" = 'F12 none' ]
rm far_board tile_1 a_pipe a_link a_loose_link

# Names up to the limit of the system, and modes.
for out in "${too_long:1}" "$(printf 'é%.0s' {1..127})" "./${too_long:1}" "a${too_long:10}"; do
    names_before=$(names_of)
    run make-table 2 6 "$out"
    check "make-table under a name of ${#out} letters" cmp -s "$out" F12
    check "make-table under a name of ${#out} letters leaves nothing else" only_new "${out#./}"
    rm -f "$out"
done
# The mode of a file, and what its table has then: setuid and setgid go.
for mode in '600 600' '755 755' '222 222' '4755 755' '2755 755' '6711 711' '1644 1644'; do
    read -r mode kept <<<"$mode"
    cp F12_with_FE made
    chmod "$mode" made
    run make-table 2 6 made --replace
    check "a file of mode $mode that is replaced has mode $kept" [ "$(stat -c %a made)" = "$kept" ]
    chmod u+r made
    check "a file of mode $mode is replaced" cmp -s made F12
    rm -f made
done

# Files of a user's own under the names of temporary files stay.
cp F12 made.unkept
echo 'of a user' >made.1.unkept
users_stay() {
    cmp -s made.unkept F12 && [ "$(cat made.1.unkept)" = 'of a user' ] && only_new "$@"
}
names_before=$(names_of)
run make-table 2 14 made
check 'a table is kept beside files of a user' cmp -s made F123
check 'they stay' users_stay made
rm made
run solve board one_set made made.unkept
check 'a log is kept beside its own table' [ "$status.$(tail -n 1 "$work/output")" = '0.optimal 6' ]
check 'it stays' users_stay made
rm made
for words in 'make-table 2 1 made' 'solve unsolvable_board one_set made made.unkept' 'make-table 2 6 no_folder/made'; do
    # shellcheck disable=SC2086
    run $words
    check "they stay behind $words" users_stay
done
mkdir made
names_before=$(names_of)
unwritable made make-table 2 6 made
check 'they stay beside a folder' users_stay
rmdir made
for seconds in 0.01 0.1 0.3 0.6; do
    (timeout -s KILL "$seconds" "$bare" make-table 3 510 made --workers 2) >"$work/output" 2>/dev/null
    rm -f made
    check 'they stay behind a run that is killed' [ "$(cmp made.unkept F12; cat made.1.unkept)" = 'of a user' ]
done
run make-table 2 6 made
check 'a run behind it keeps its table' cmp -s made F12
rm -f made made.*unkept
# Behind the launcher a maker that is stopped leaves nothing, and ends with the launcher.
if [ "$program" = "$root/pdb_cli" ]; then
    names_before=$(names_of)
    for signal in INT TERM HUP; do
        for seconds in 0.1 0.2 0.4 0.6 0.8 1 1.5; do
            status=0
            (trap - INT && exec timeout -s "$signal" "$seconds" "$program" make-table 3 510 made --workers 2) \
                >"$work/output" 2>"$work/errors" || status=$?
            [ "$status" = 124 ] || check "a maker ends before $signal after $seconds seconds" [ "$status" = 0 ]
            rm -f made
            check "a maker that $signal stops after $seconds seconds leaves nothing" only_new
        done
    done
fi

# Two makers at once under one name.
names_before=$(names_of)
for pair in {1..20}; do
    "$program" make-table 2 6 made --replace >"$work/first" 2>"$work/errors" &
    status=0
    "$program" make-table 2 14 made --replace >"$work/output" 2>>"$work/errors" || status=$?
    wait $! || status=$?
    check "pair $pair of makers ends well" [ "$status.$(tail -qn 1 "$work/first" "$work/output" | grep -c '^exact')" = 0.2 ]
    check "pair $pair leaves the whole file of one of them" [ -n "$(cmp -s made F12 && echo F12 || cmp -s made F123 && echo F123)" ]
    check "pair $pair leaves nothing beside it" only_new made
done
rm made

status=0
"$program" make-table 2 6 made >/dev/full 2>"$work/errors" || status=$?
: >"$work/output"
check 'a made table on a full standard output' [ "$status" = 2 ]
check 'what was made stays' cmp -s made F12
rm made

#
# Sizes and budgets.
#

# The line of an exact table whose file this is.
exact_line() {
    python3 - "$1" <<'END'
import sys
file = open(sys.argv[1], "rb").read()
mask, entries = int.from_bytes(file[8:12], "big"), file[20:]
deepest = max(count for count in range(254) if count in entries)
print(f"exact side {file[5]} mask {mask} entries {len(entries)} unreachable {entries.count(255)} deepest {deepest}")
END
}

# The tables of a plain search. In the last one, of 36 mebibytes, a move passes up to four tiles.
cc -O2 -o "$work/plain_table" "$root/tools/plain/plain_table.c" || exit 2
for numbers in '2 2' '2 10' '3 48' '3 126' '3 254' '4 30' '4 32802' '5 6' '5 16777248' '5 62'; do
    read -r side mask <<<"$numbers"
    "$work/plain_table" "$side" "$mask" >plain
    line=$(exact_line plain)
    made plain "$line" "$side" "$mask" --workers 4
done
rm -f made
for workers in 1 2 7; do
    table plain 0 "$line" --workers "$workers"
done
# A run asks for memory a hundred times or so, and thousands of times for the rows by which a large table is checked. It does without
# them where they get no memory.
cc -O1 -shared -fPIC -o "$work/refuse_memory.so" "$root/tools/preload/refuse_memory.c" || exit 2
status=0
(export REFUSE=1000 LD_PRELOAD=$work/refuse_memory.so && exec "$bare" table plain --workers 1) \
    >"$work/output" 2>"$work/errors" 9>"$work/refused" || status=$?
digest=$(sha256sum <plain)
check 'a large table is checked without its rows' wrote 0 "sha256 ${digest%% *}" "$line"
check 'a large table has rows' [ -s "$work/refused" ]
# The first and the last placement have their tiles in a row, and one region. So their other slots have none, and no entry
# stands beside these.
{ head -c 20 plain && head -c 38253600 /dev/zero | tr '\0' '\377'; } >never
changed plain 38253619 FF plain_without_its_end
for workers in 1 7; do
    table never 1 'refused T7 at entry 1' --workers "$workers"
    table plain_without_its_end 1 'refused T7 at entry 38253599' --workers "$workers"
done
rm plain never plain_without_its_end

# As many lemmas as a log may have: each but the first cites the one halfway before it.
python3 - >most_lemmas <<'END'
import sys
lemma = bytes([3, 2, 1, 0, 6])
log = [b"PDBL\x01\x02" + (2**20).to_bytes(4, "big"), lemma + b"\x00\x00\x00\x01\x01"]
log += [lemma + b"\x00\x00\x00\x05\x20" + (number // 2).to_bytes(4, "big") for number in range(1, 2**20)]
sys.stdout.buffer.write(b"".join(log))
END
changed most_lemmas "$((14 * 1048575 + 10))" 07 last_lemma_of_7
claim 0 'bound 6' F123 most_lemmas : bound board one_set most_lemmas F123
claim 1 'refused L6 at lemma 1048575' F123 last_lemma_of_7 : bound board one_set last_lemma_of_7 F123
rm most_lemmas last_lemma_of_7

# A search that may expand as many boards as a plain search does, and so many beside them, must end well, and with one board fewer
# than a plain search it must give up: just_enough BOARD SETS FILES WORD..
beside=0
just_enough() {
    local board=$1 sets=$2 files=() lines=() file digest moves
    read -ra files <<<"$3"
    shift 3
    read -r moves expanded < <("$root/tools/plain/plain_search.py" "$board" "$sets" "${files[@]}" "$@")
    solved "$board" "$moves" "$sets" "${files[*]}" --budget "$((expanded + beside))" "$@"
    rm -f made
    for file in "${files[@]}"; do
        digest=$(sha256sum <"$file")
        lines+=("sha256 ${digest%% *}")
    done
    expect "solve $board $sets with one board fewer than $expanded $*" 1 "${lines[@]}" 'refused K1' : \
        solve "$board" "$sets" made "${files[@]}" --budget "$((expanded - 1))" "$@"
}

just_enough board one_set F12
just_enough board one_set F12 --fold
just_enough board with_mirror F1
# On side 5 the blank is in the last corner, where the tiles 19 and 24 cut it off. The tables are those of the tiles 19 and
# 24; 5 and 10; 15 and 20; 21 and 22; and 23. The sum of them all is exact.
for mask in 17301504 1056 1081344 6291456 8388608; do
    "$work/plain_table" 5 "$mask" >"mask_$mask"
done
corner_tables='mask_17301504 mask_1056 mask_1081344 mask_6291456 mask_8388608'
echo '5 1 2 3 4 10 6 7 8 9 15 11 12 13 14 20 16 17 18 19 21 22 23 24 0' >corner
echo 'set 0 1 2 3 4' >all_of_five
just_enough corner all_of_five "$corner_tables"
just_enough corner one_set "$corner_tables"
just_enough corner mirror "$corner_tables"
# More boards than a search may expand without --budget.
echo '8 0 6 5 4 7 2 3 1' >far_board
"$work/plain_table" 3 14 >three_of_side_3
# The last search takes more than 65,536 boards, so those of its frontier count too, which has 512 boards.
beside=1024
just_enough far_board one_set three_of_side_3
check 'a search of more than 1,000,000 boards' [ "$expanded" -gt 1000000 ]
digest=$(sha256sum <three_of_side_3)
for words in '' '--budget 1000000'; do
    # shellcheck disable=SC2086
    expect "solve far_board $words" 1 "sha256 ${digest%% *}" 'refused K1' : solve far_board one_set made three_of_side_3 $words
done

passes 'each sentence is told whole and alone' check_errors.sh "$bare"
passes 'OUT, memory and inputs at their limits' check_limits.sh "$bare"
passes 'tables, claims and logs at the sizes that users have' check_sizes.sh "$bare"
passes 'no more is done for an answer than the pages say' check_work.sh "$bare"
passes 'these checks fail where the program is spoiled' check_canary.sh "$bare"

#
# Logs of many lemmas.
#

# With each request for memory or a thread refused in turn, `solve` must end for want of memory and keep nothing, or find these
# moves and keep a log that proves them shortest: refuse_each BOARD MOVES SETS FILES
refuse_each() {
    local board=$1 moves=$2 sets=$3 files=() request=0 told=0
    read -ra files <<<"$4"
    while [ "$request" -lt 1000 ]; do
        request=$((request + 1))
        rm -f made
        status=0
        (export REFUSE=$request LD_PRELOAD=$work/refuse_memory.so && exec "$bare" solve "$board" "$sets" made "${files[@]}") \
            >"$work/output" 2>"$work/errors" 9>"$work/refused" || status=$?
        [ -s "$work/refused" ] || break
        case $status in
        3)
            check "request $request of a search for $board is refused" wrote 3 'no memory'
            check "request $request of a search for $board keeps nothing" [ ! -e made ]
            ;;
        *)
            told=$((told + 1))
            check "request $request of a search for $board leaves its answer" \
                [ "$status.$(tail -n 1 "$work/output")" = "0.optimal $moves" ]
            run bound "$board" "$sets" made "${files[@]}"
            check "request $request of a search for $board leaves a good log" \
                [ "$status.$(tail -n 1 "$work/output")" = "0.bound $moves" ]
            ;;
        esac
    done
    check "some requests of a search for $board are done without" [ "$told" -gt 0 ]
    check "a search for $board asks fewer than 1000 times" [ "$request" -lt 1000 ]
}

# Of a board whose tree has more than 64 KiB, `solve` must keep a log of more than one lemma, which the plain checker accepts, and
# which proves what a plain search finds: many_lemmas BOARD SETS FILES WORD..
many_lemmas() {
    local board=$1 sets=$2 files=() moves bound lemmas
    read -ra files <<<"$3"
    shift 3
    read -r moves _ < <("$root/tools/plain/plain_search.py" "$board" "$sets" "${files[@]}" "$@")
    solved "$board" "$moves" "$sets" "${files[*]}" "$@"
    read -r bound lemmas < <("$root/tools/plain/plain_log.py" "$board" "$sets" made "${files[@]}" "$@")
    check "the plain checker accepts the log of $board $sets $*" [ "$bound" = "$moves" ]
    check "the log of $board $sets $* has many lemmas" [ "$lemmas" -gt 1 ]
}

# A board of side 3, and one of side 4 over tables of nine of its tiles.
echo '3 6 4 2 5 0 8 1 7' >large_3
echo '5 2 3 7 1 4 6 10 8 15 11 14 9 13 12 0' >large_4
for mask in 14 224 35840; do
    "$work/plain_table" 4 "$mask" >"mask_$mask"
done
tables_of_4='mask_14 mask_224 mask_35840'
echo 'set 0 1 2' >all_of_three
many_lemmas large_3 one_set three_of_side_3
many_lemmas large_3 one_set three_of_side_3 --fold
many_lemmas large_4 all_of_three "$tables_of_4"
rm -f made
refuse_each large_4 28 all_of_three "$tables_of_4"
rm -f made

#
# Runs at once, and writes.
#

: >"$work/errors"
digest=$(sha256sum <F1)
printf '%s\n' "sha256 ${digest%% *}" 'exact side 2 mask 2 entries 8 unreachable 0 deepest 2' >"$work/lines"
digest=$(sha256sum <F12)
printf '%s\n' "sha256 ${digest%% *}" 'exact side 2 mask 6 entries 24 unreachable 8 deepest 4' >>"$work/lines"
status=0
for ((i = 0; i < 500; i++)); do printf '%s\0' F1 F12; done |
    xargs -0 -n 1 -P 16 "$program" table >"$work/output" 2>"$work/errors" || status=$?
sort <(paste - - <"$work/output") | uniq -c | sed 's/^ *//' >"$work/counted"
paste - - <"$work/lines" | sort | sed 's/^/500 /' >"$work/wanted"
check 'the lines of 1,000 runs at once do not mix' cmp -s "$work/counted" "$work/wanted"

# A pipe of packets tells each write apart.
cat >"$work/writes.py" <<'END'
import os, subprocess, sys
ends = os.pipe2(os.O_DIRECT)
subprocess.run(sys.argv[1:], stdin=subprocess.DEVNULL, stdout=ends[1], stderr=subprocess.DEVNULL)
os.close(ends[1])
packets = list(iter(lambda: os.read(ends[0], 1 << 16), b""))
print(len(packets))
END
for words in 'table F1' 'table F1_of_FF' 'replay solved' 'replay none' --help \
    'bound board one_set leaf F123' 'optimal six_moves one_set branches F12' 'make-table 2 6 made' 'make-table 2 1 made' \
    'solve board one_set made F12'; do
    rm -f made
    # shellcheck disable=SC2086
    python3 "$work/writes.py" "$program" $words >"$work/output" 2>"$work/errors"
    status=$?
    check "$words is written by one write" wrote 0 1
done
python3 "$work/writes.py" "$program" prove true_claims one_set F12 >"$work/output" 2>"$work/errors"
status=$?
check 'each answer to a claim is written by one write, behind one of the digests' wrote 0 "$((${#true_answers[@]} + 1))"

echo "$passed passed, $failed failed"
[ "$failed" = 0 ]
