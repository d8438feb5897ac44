#!/usr/bin/env bash
# Runs the built program and compares the whole of standard error with what is wanted: the sentence of each refusal and fault that
# a run comes to, what is told ahead of the check of large tables, mistakes in the words, and nothing beside a yes.
#
#     tools/checks/check_errors.sh [PROGRAM]
#
# The words, the lines written and the status are those of tools/checks/check_runs.sh, which runs this script too. A row of a table has
# the line that a run ends with, what standard error has behind `pdb_cli: `, and the words of the run. Lines and sentences are those of
# docs/FORMATS.md, with their numbers; mistakes are told as clap tells them, but in masks and in counts of parts. Not reached are
# K3, K5 and `fault maker`.
set -uo pipefail

root=$(dirname "$(dirname "$(dirname "$(readlink -f "${BASH_SOURCE[0]}")")")")
. "$root/tools/checks/runs.sh"

#
# Small files.
#

while IFS='|' read -r name text; do
    printf '%b' "$text" >"$name"
done <<'END'
board|3 2 1 0\n
solved|3 2 1 0 ; ULDRUL\n
detour|3 2 1 0 ; ULDRULRL\n
other_board|3 0 1 2\n
b1|0 1 2 x ;
b2|0 1 002 3 ;
b3|0 1 2 3 1
b4|0 1 2 4
b5|0 1 2 2
m1|0 1 2 3 ; U u
m2|1 0 2 3 ; LU
m2_last|3 2 1 0 ; R
m2_ten|0 1 2 3 4 5 6 7 8 9 15 11 12 14 13 10 ; U
m3_front|0 1 2 3 ;
m4|1 0 2 3 ; LR
m4_last|3 2 1 00 ; U
unsolvable|0 1 3 2
unsolvable_last|1 2 3 0
one_set|set 0\n
pair|set 0 1\n
three|set 0 1 2\n
mirror|set 0 0t\n
s1|set 0\nset 1 0\n
s2|set 0\nset 3\n
leaf|PDBL\x01\x02\0\0\0\x01\x03\x02\x01\0\x06\0\0\0\x01\x01
l1|PDBL\x03\x02\0\0\0\x01\x03\x02\x01\0\x06\0\0\0\x01\x01
l2|PDBL\x01\x02\0\0\0\x01\x03\x02\x01\0\x06\0\0\0\x01\x01\0
l3|PDBL\x01\x02\0\0\0\x01\x03\x02\x01\x02\x06\0\0\0\x01\x01
t1|PDBT\x01\x02\x03\0\0\0\0\x0e
t2|PDBT\x02\x02\x03\0\0\0\0\x0e\0\0\0\0\0\0\0\x18
t3|PDBT\x01\x01\x03\0\0\0\0\x0e\0\0\0\0\0\0\0\x18
t4|PDBT\x01\x02\x02\0\0\0\0\x0e\0\0\0\0\0\0\0\x18
t5|PDBT\x01\x02\x03\0\0\0\0\x0e\0\0\0\0\0\0\0\x17
t6|PDBT\x01\x02\x03\0\0\0\0\x0e\0\0\0\0\0\0\0\x18
q1|3 2 1 0\n3 2 1 0 : 06\n
q2|3 2 1 0\n0 1 2 3 4 5 6 7 8 : 0\n
refused_claims|3 2 1 0\n0 1 3 2\n
goal_board|0 1 2 3\n
remarks|# 3 2 1 0\n\n
remarks_before|# 4 x 4\n\n0 1 2 3 4 5 6 7 8 9 10 11 12 13 14 15\n# 2 x 2\n3 2 1 0\n
END
{ cat m3_front && printf 'RL%.0s' {1..500} && echo R; } >m3
yes 'set 0' | head -n 17 >seventeen_lines
while read -r name side mask; do
    "$bare" make-table "$side" "$mask" "$name" >/dev/null
done <<'END'
F1 2 2
F3 2 8
F12 2 6
F123 2 14
F24 5 16777216
three_of_side_3 3 14
tiles_1_to_5 4 62
tiles_6_to_10 4 1984
own_mirror 4 310
END
# An entry that is too small, whose number is below that of the table, and one that is too great.
cp F1 F1_too_small && change F1_too_small 20 00
cp F1 kept && chmod a-w kept
cp F123 F123_too_great && change F123_too_great 34 08
cp tiles_1_to_5 wrong && change wrong 3144979 07
truncate -s 65537 long_text
truncate -s 67108865 long_claims
truncate -s 1073741825 long_log
truncate -s 4294967297 long_table

#
# Sentences.
#

while IFS='|' read -r line sentence words; do
    says "$line" "$words" ${sentence:+"$sentence"}
done <<'END'
refused P1|board: there is no `;` between a board and its moves|replay board
refused P1|standard input: there is no `;` between a board and its moves|<board replay
refused P1|board: there is no `;` between a board and its moves|optimal board one_set leaf F123
refused B1 at byte 6|b1: byte 6 of the board is no digit, space, tab or line end|replay b1
refused B2 at byte 4|b2: three or more digits stand in a row, from byte 4 on|optimal b2 one_set leaf F123
refused B3 count 5|b3: the board has 5 numbers, where 4, 9, 16 or 25 are wanted|bound b3 one_set leaf F123
refused B4 at number 3|b4: number 3 of the board is too great for that many cells|solve b4 one_set made F123
refused B5 at number 3|b5: number 3 of the board stands there twice|parts b5 6 3 board
refused B5 at number 3|standard input: number 3 of the board stands there twice|<b5 parts - 6 3 board
refused M1 at byte 3|m1: byte 3 behind the `;` is none of U, D, L, R, space, tab and line end|replay m1
refused M2 at step 1|m2: the move at step 1 takes the blank off the board|replay m2
refused M2 at step 0|m2_last: the move at step 0 takes the blank off the board. If the blank, 0, is last on your goal board, add --goal last|optimal m2_last one_set leaf F123
refused M2 at step 0|m2_ten: the move at step 0 takes the blank off the board|replay m2_ten
refused M3|m3: there are more than 1000 moves|replay m3
refused M4|standard input: the moves don't end on the goal board, which has each number in its own cell|<m4
refused M4|standard input: the moves don't end on the goal board, which has each number in its own cell. If the blank, 0, is last on your goal board, add --goal last|<m4_last replay
refused M4|m4_last: the moves don't end on the goal board, which has each number in its own cell. If the blank, 0, is last on your goal board, add --goal last|replay m4_last
refused M4|m4: the moves don't end on the goal board, which has the blank last|replay --goal last m4
refused T1|t1: a table file has at least 20 bytes|table t1
refused T2|t2: a table file begins with `PDBT` and a byte 1|table t2
refused T3 of table 1|t3: byte 5 of a table file is the side, 2 to 5|bound board one_set leaf F12 t3
refused T4 of table 0|t4: the mask in the header is no pattern of that side, or doesn't fit the bytes beside it|prove board one_set t4
refused T5 of table 2|t5: the header says a number of entries that such a table doesn't have|solve board one_set made F12 F3 t5
refused T6|t6: the file is shorter or longer than its header says|table t6
refused T7 at entry 14|F123_too_great: the table is wrong: entry 14 doesn't fit those one move away|table F123_too_great
refused T7 at entry 0 of table 2|F1_too_small: the table is wrong: entry 0 doesn't fit those one move away|bound board one_set leaf F12 F3 F1_too_small
refused T7 at entry 14 of table 1|F123_too_great: the table is wrong: entry 14 doesn't fit those one move away|prove board one_set F12 F123_too_great F1_too_small --workers 4
refused S4 at table 2|F24: table 2 is of another side than table 0|bound board three leaf F12 F3 F24
refused S1 at line 1|s1: line 1 isn't `set` and ascending numbers of tables, one space before each, with a line end and no CR|bound board s1 leaf F12 F3
refused S2 at line 1|s2: line 1 names a table that isn't there: they are numbered from 0|prove board s2 F12 F3
refused S3 at line 0|pair: line 0 has two tables with a tile in common|solve board pair made F12 F1
refused S5|seventeen_lines: there may be 1 to 16 tables, and 1 to 16 lines|bound board seventeen_lines leaf F12
refused S5|one_set: there may be 1 to 16 tables, and 1 to 16 lines|bound board one_set leaf F1 F1 F1 F1 F1 F1 F1 F1 F1 F1 F1 F1 F1 F1 F1 F1 F1
refused S6 at line 0|mirror: line 0 has two tables of the same tiles, one of them transposed|optimal solved mirror leaf F12
refused L1|l1: a log file begins with `PDBL`, a version, a side and a number of lemmas|bound board one_set l1 F123
refused L2 at lemma 1|l2: lemma 1 is cut short, or bytes are left over behind the last one|bound board one_set l2 F123
refused L3 at lemma 0|l3: the board of lemma 0 is no board|optimal solved one_set l3 F123
refused L4|leaf: board, tables and log aren't all of one side|bound board one_set leaf F24
refused L4|board, tables and log aren't all of one side|solve board one_set made F24
refused L5|leaf: the log is one of another board|bound other_board one_set leaf F123
refused L6 at lemma 0|leaf: lemma 0 doesn't hold over these sets and tables|bound board one_set leaf F12
refused O1 solution 8 bound 6|leaf: the solution has 8 moves, and the log proves that none has fewer than 6|optimal detour one_set leaf F123
refused K1|the budget of boards is spent: `--budget N` allows more. The searches that ended found no solution of fewer than 3 moves|solve board one_set made F12 --budget 1
refused K2|unsolvable: the board has no solution, or none of fewer than 255 moves; with the blank last it has one: --goal last|solve unsolvable one_set made F12
refused K2|unsolvable_last: the board has no solution, or none of fewer than 255 moves; with the blank last it has one: --goal last|solve unsolvable_last one_set made F12
refused K4|SIDE and MASK are no pattern: 1 to 3 tiles on side 2, to 8 on sides 3 and 4, to 6 on side 5, and none that isn't on the board|make-table 2 16 made
refused Q1 at line 1|q1: line 1 is none of `BOARD`, `BOARD ; MOVES`, `BOARD : N` and `BOARD : N part I/K`. At column 11: a bound is a number from 0 to 255, with no zeros before it|prove q1 one_set F12
refused Q1 at line 1|standard input: line 1 is none of `BOARD`, `BOARD ; MOVES`, `BOARD : N` and `BOARD : N part I/K`. At column 11: a bound is a number from 0 to 255, with no zeros before it|<q1 prove - one_set F12
refused Q1 at line 2|remarks: line 2 is none of `BOARD`, `BOARD ; MOVES`, `BOARD : N` and `BOARD : N part I/K`. At column 1: the text has no claim|prove remarks one_set F12
refused Q1 at line 0|/dev/null: line 0 is none of `BOARD`, `BOARD ; MOVES`, `BOARD : N` and `BOARD : N part I/K`. At column 1: the text has no claim|prove /dev/null one_set F12
refused Q2 at line 1|q2: the board of line 1 is of another side than the tables|prove q2 one_set F12
refused K2 of 0 1 3 2|boards that have no solution, but one with the blank last: 1: --goal last|prove refused_claims one_set F12
refused K2 of 0 1 2 3 with the blank last||prove goal_board one_set F12 --goal last
refused M4 of 1 0 2 3 ; LR||prove m4 one_set F12
refused K1 of 3 2 1 0||prove board one_set F12 --budget 1
3 2 1 0 : 6 part 0/1||parts board 6 1 /dev/null
refused P1|F12: there is no `;` between a board and its moves. It begins as a table does: is a word left out before it?|replay F12
refused P1|standard input: there is no `;` between a board and its moves. It begins as a table does: is a word left out before it?|<F12
refused P1|leaf: there is no `;` between a board and its moves. It begins as a log does: is a word left out before it?|replay leaf
refused B1 at byte 0|F12: byte 0 of the board is no digit, space, tab or line end. It begins as a table does: is a word left out before it?|bound F12 one_set leaf F123
refused S1 at line 0|leaf: line 0 isn't `set` and ascending numbers of tables, one space before each, with a line end and no CR. It begins as a log does: is a word left out before it?|solve board leaf made F123
refused L1|F12: a log file begins with `PDBL`, a version, a side and a number of lemmas. It begins as a table does: is a word left out before it?|bound board one_set F12 F123
refused T2 of table 1|leaf: a table file begins with `PDBT` and a byte 1. It begins as a log does: is a word left out before it?|prove board one_set F12 leaf
refused Q1 at line 0|standard input: line 0 is none of `BOARD`, `BOARD ; MOVES`, `BOARD : N` and `BOARD : N part I/K`. It begins as a table does: is a word left out before it?|<F12 prove - one_set F12
refused Q1 at line 0|F12: line 0 is none of `BOARD`, `BOARD ; MOVES`, `BOARD : N` and `BOARD : N part I/K`. It begins as a table does: is a word left out before it?|prove F12 one_set F12
fault read none|none: it can't be read: is it there, is it no folder, and may you read it?|replay none
fault read .|.: it can't be read: is it there, is it no folder, and may you read it?|table .
fault read none|none: it can't be read: is it there, is it no folder, and may you read it?|bound board one_set leaf F12 none
fault read none|none: it can't be read: is it there, is it no folder, and may you read it?|solve board none made F12
fault read none|none: it can't be read: is it there, is it no folder, and may you read it?|parts board 6 3 board none
fault read -|-: it can't be read: is it there, is it no folder, and may you read it?|replay -
fault read -|standard input: it can't be read: is it there, is it no folder, and may you read it?|<. replay
fault read -|standard input: it can't be read: is it there, is it no folder, and may you read it?|<. prove - one_set F12
fault read -|standard input: it can't be read: is it there, is it no folder, and may you read it?|<. parts - 6 3 board
fault size long_text|long_text: it has more bytes than such a file may have|replay long_text
fault size -|standard input: it has more bytes than such a file may have|<long_text replay
fault size long_text|long_text: it has more bytes than such a file may have|solve board long_text made F12
fault size long_claims|long_claims: it has more bytes than such a file may have|prove long_claims one_set F12
fault size long_claims|long_claims: it has more bytes than such a file may have|parts board 6 3 long_claims
fault size long_log|long_log: it has more bytes than such a file may have|optimal solved one_set long_log F12
fault size long_table|long_table: it has more bytes than such a file may have|table long_table
fault write none/made|none/made: nothing can be kept there: does its folder exist, may you write there, and is there room?|make-table 2 6 none/made
fault write .|.: nothing can be kept there: does its folder exist, may you write there, and is there room?|solve board one_set . F12
fault write none/made|none/made: nothing can be kept there: does its folder exist, may you write there, and is there room?|solve unsolvable one_set none/made F12 --replace
fault write board|board: this run reads that file, so it is not replaced: `--replace` allows that|solve board one_set board F12
fault write one_set|one_set: this run reads that file, so it is not replaced: `--replace` allows that|solve board one_set one_set F12
fault write F1|F1: this run reads that file, so it is not replaced: `--replace` allows that|solve board one_set F1 F12 F3 F1
fault write ./F1|./F1: this run reads that file, so it is not replaced: `--replace` allows that|solve board one_set ./F1 F12 F3 F1 F123
fault write F123|F123: a table is there, or what can't be read, so no log takes its place: `--replace` allows that|solve board one_set F123 F12
fault write leaf|leaf: a log is there, or what can't be read, so no table takes its place: `--replace` allows that|make-table 2 1 leaf
fault write leaf|leaf: a log of another board is there, so it is not replaced: `--replace` allows that|solve other_board one_set leaf F12
fault write F123|F123: a table of another side or mask is there, so it is not replaced: `--replace` allows that|make-table 2 1 F123
fault write board|board: what is there is neither a table nor a log, or can't be read, so it is not replaced: `--replace` allows that|make-table 2 1 board
fault write solved|solved: what is there is neither a table nor a log, or can't be read, so it is not replaced: `--replace` allows that|solve board one_set solved F12
fault write kept|kept: it is read-only to its owner, so it is not replaced: `chmod u+w` allows that|make-table 2 2 kept --replace
END

# Where a line that is no claim goes wrong, and what is wrong there.
forms='`BOARD`, `BOARD ; MOVES`, `BOARD : N` and `BOARD : N part I/K`'
while IFS='~' read -r claim column what; do
    printf '3 2 1 0\n%b\n' "$claim" >claims
    says 'refused Q1 at line 1' 'prove claims one_set F12' "claims: line 1 is none of $forms. At column $column: $what"
done <<'END'
\xef\xbb\xbf3 2 1 0~1~a byte order mark stands before the claim
bound 6 of 3 2 1 0~1~it is an answer: its claim is what stands behind `of`
3,2,1,0~2~numbers are parted by spaces alone
3 2 1 -~7~numbers have no sign
3 2 1 _~7~the blank is written 0
[3 2 1 0]~1~brackets and quotes are left out
3 2 1 0 ULDRUL~9~moves stand behind a `;`
3 2 1 0 uldrul~9~moves stand behind a `;`, as capital letters
3 2 1 0 part 0/3~9~a bound stands behind a `:`
3 2 1 000~7~three or more digits stand in a row
: 6~1~no board stands before it
7 3 2 1 0 : 6~1~a number stands before the board
3 2 1 0 6~9~a bound stands behind a `:`
3 2 1 : 6~1~a board has 4, 9, 16 or 25 numbers, and not 3
3 2 1 4~7~the numbers begin with 0, which is the blank
3 2 0 4~7~the number is too great for so many cells
3 2 0 2~7~this number stands there twice
3 2 1 0 ; uldrul~11~moves are written as capital letters
3 2 1 0 ; 6~11~moves stand behind a `;`, and a bound behind a `:`
3 2 1 0 : ULDRUL~11~moves stand behind a `;`, and a bound behind a `:`
3 2 1 0 ; ULDRUL : 6~18~a claim has moves or a bound, and not both
3 2 1 0 : 6 ULDRUL~13~a claim has moves or a bound, and not both
3 2 1 0 ; NWSENW~11~moves are U, D, L and R, for the way that the blank goes
3 2 1 0 ; UL, DRUL~13~moves are parted by spaces or by nothing
3 2 1 0 :~10~a number stands behind the `:`
3 2 1 0 : 256~11~a bound is 255 at most
3 2 1 0 : -6~11~a bound is a number from 0 to 255
3 2 1 0 : 6 Part 0/3~13~`part` is written in small letters
3 2 1 0 : 6 part0/3~13~a space stands behind `part`
3 2 1 0 : 6 7~13~behind a bound stands nothing, or `part` and I/K
3 2 1 0 : 6 part~13~behind `part` stands I/K, as 0/3
3 2 1 0 : 6 part 0-3~18~a part is written I/K, as 0/3
3 2 1 0 : 6 part 0/4~18~the count of parts is odd
3 2 1 0 : 6 part 3/3~18~parts are numbered from 0 up to one below their count
3 2 1 0 : 6 part 0/65537~18~a bound has 65,535 parts at most
3 2 1 0 : 6 part 0/3 1/3~22~nothing stands behind a part
END

# A table of eight tiles, in a header before a hole, is read where there is memory for it alone.
printf 'PDBT\1\4\10\0\0\0\1\376\0\0\0\0\367\160\210\0' >eight_tiles
truncate -s 4151347220 eight_tiles
status=0
(ulimit -v 1000000 && exec "$bare" table eight_tiles) >"$work/output" 2>"$work/errors" || status=$?
check 'want of memory is told in a sentence' told_whole 'no memory' 'the system refused memory, so there is no verdict'

# Names of more than 64 bytes, whole, and of control characters, each of which is shown as `?`.
folder=$(printf 'n%.0s' {1..150})
mkdir "$folder"
long=$folder/$folder
cp F123_too_great "$long"
says 'refused T7 at entry 14' "table $long" "$long: the table is wrong: entry 14 doesn't fit those one move away"
says 'refused S1 at line 0' "bound board $long leaf F12" \
    "$long: line 0 isn't \`set\` and ascending numbers of tables, one space before each, with a line end and no CR. It begins as a table does: is a word left out before it?"
says "fault read ${long}_" "replay ${long}_" "${long}_: it can't be read: is it there, is it no folder, and may you read it?"
says "fault write $long" "solve board one_set $long F12" \
    "$long: a table is there, or what can't be read, so no log takes its place: \`--replace\` allows that"
name=$'a\nb\e[2K\r\x7f→'
cp leaf "$name"
run table "$name"
# shellcheck disable=SC2016
check 'control characters in the name of a table' told_whole 'refused T2' \
    'a?b?[2K??→: a table file begins with `PDBT` and a byte 1. It begins as a log does: is a word left out before it?'
run bound board one_set "$name" F12
check 'control characters in the name of a log' told_whole 'refused L6 at lemma 0' "a?b?[2K??→: lemma 0 doesn't hold over these sets and tables"
run replay "$name none"
check 'control characters in a name that is not there' told_whole 'fault read a?b?[2K??→ none' \
    "a?b?[2K??→ none: it can't be read: is it there, is it no folder, and may you read it?"

#
# Budgets of hard claims.
#

# Of the first board the searches below 26 expand 53,876 boards together, and that below 28 expands 102,820 more; of the second, those
# below 25 expand 30,378, and that below 27 expands 58,596 more. So counts the search of tools/plain/plain_search.py without the
# strings that benches/peers/edge_kernel.c lists for 12 moves. One thread searches within 65,536 boards first.
first_hard='8 0 6 5 4 7 2 3 1'
second_hard='8 7 6 5 4 3 2 1 0'
spent="the budget of boards is spent: \`--budget N\` allows more"
ended="the last claim: $spent. The searches that ended found no solution of fewer than"
for workers in 1 4; do
    words="--budget 80000 --workers $workers"
    printf '%s\n' "$first_hard" "$second_hard" >first_and_second
    says "refused K1 of $second_hard" "prove first_and_second one_set three_of_side_3 $words" "$ended 25 moves"
    printf '%s\n' "$second_hard" "$first_hard" >second_and_first
    says "refused K1 of $first_hard" "prove second_and_first one_set three_of_side_3 $words" "$ended 26 moves"
    # There is no search for fewer moves than the one that a bound asks for.
    printf '%s\n' "$second_hard" "$first_hard : 31" >second_and_bound
    says "refused K1 of $first_hard : 31" "prove second_and_bound one_set three_of_side_3 $words"
done
printf '%s\n' "$first_hard" '0 1 2 3 4 5 6 7 8 : 1' >first_and_goal
says 'refused O2 by of 0 1 2 3 4 5 6 7 8 : 1' 'prove first_and_goal one_set three_of_side_3 --budget 80000'
# A false bound is refused as soon as the moves can be found, however far off it is: 1,000 boards are enough here.
far="1 2 0 $(seq -s ' ' 3 24)"
echo "$far : 60" >far_bound
says "refused O2 by LL of $far : 60" 'prove far_bound one_set F24 --budget 1000'
echo "$first_hard" >far_board
says "refused K1 of $first_hard" 'prove far_board one_set three_of_side_3 --budget 60000'
# Without the strings those below 24 expand 29,258 boards, and that below 26 expands 73,355 more.
says 'refused K1' 'solve far_board one_set made three_of_side_3 --budget 30000' \
    "$spent. The searches that ended found no solution of fewer than 24 moves"

#
# What is told ahead of the check of tables of 4 MiB and more.
#

goal_4='0 1 2 3 4 5 6 7 8 9 10 11 12 13 14 15'
echo "$goal_4" >goal
echo "$goal_4 ;" >goal_puzzle
echo '1 0 2 3 4 5 6 7 8 9 10 11 12 13 14 15' >next
echo '0 2 1 3 4 5 6 7 8 9 10 11 12 13 14 15' >swapped
echo '1 2 3 4 5 6 7 8 9 10 11 12 13 14 15 0' >blank_last
bytes_4='\x01\x02\x03\x04\x05\x06\x07\x08\x09\x0a\x0b\x0c\x0d\x0e\x0f'
printf '%b' 'PDBL\x01\x04\0\0\0\x01\0' "$bytes_4" '\0\0\0\0\x01\x01' >leaf_4
printf '%b' 'PDBL\x01\x04\0\0\0\x01\x01' "$bytes_4" '\0\0\0\0\x01\x01' >no_board_4
cp leaf_4 log_of_4095 && truncate -s 4095 log_of_4095
cp leaf_4 log_of_4096 && truncate -s 4096 log_of_4096
head -c 4095 /dev/zero | tr '\0' x >sets_of_4095
head -c 4096 /dev/zero | tr '\0' x >sets_of_4096
{ yes "$goal_4" | head -n 100; yes "$(cat q2)" | head -n 40; } >near_q2
{ yes "$goal_4" | head -n 110; cat q2; } >far_q2
truncate -s 4194304 zeros_of_4_mebibytes
truncate -s 4194303 a_byte_less

# The same is told ahead and in the end.
while IFS='|' read -r line sentence words; do
    says "$line" "$words" "this run can't end in a yes: $sentence" "$sentence"
done <<'END'
refused T1 of table 2|t1: a table file has at least 20 bytes|bound goal one_set leaf_4 tiles_1_to_5 tiles_6_to_10 t1
refused T2 of table 2|t2: a table file begins with `PDBT` and a byte 1|optimal goal_puzzle one_set leaf_4 tiles_1_to_5 tiles_6_to_10 t2
refused T3 of table 2|t3: byte 5 of a table file is the side, 2 to 5|solve goal one_set made tiles_1_to_5 tiles_6_to_10 t3
refused T4 of table 2|t4: the mask in the header is no pattern of that side, or doesn't fit the bytes beside it|prove goal one_set tiles_1_to_5 tiles_6_to_10 t4
refused T5 of table 2|t5: the header says a number of entries that such a table doesn't have|bound goal one_set leaf_4 tiles_1_to_5 tiles_6_to_10 t5 t6
refused T6 of table 2|t6: the file is shorter or longer than its header says|bound goal s1 leaf_4 tiles_1_to_5 tiles_6_to_10 t6 t5
refused T2 of table 0|zeros_of_4_mebibytes: a table file begins with `PDBT` and a byte 1|bound goal one_set leaf_4 zeros_of_4_mebibytes
refused S4 at table 2|F12: table 2 is of another side than table 0|bound goal s1 leaf_4 tiles_1_to_5 tiles_6_to_10 F12
refused S1 at line 1|s1: line 1 isn't `set` and ascending numbers of tables, one space before each, with a line end and no CR|prove goal s1 tiles_1_to_5 tiles_6_to_10
refused S1 at line 0|sets_of_4095: line 0 isn't `set` and ascending numbers of tables, one space before each, with a line end and no CR|solve goal sets_of_4095 made tiles_1_to_5 tiles_6_to_10
refused S2 at line 1|s2: line 1 names a table that isn't there: they are numbered from 0|solve goal s2 made tiles_1_to_5 tiles_6_to_10
refused S2 at line 1|s2: line 1 names a table that isn't there: they are numbered from 0|<goal prove - s2 tiles_1_to_5 tiles_6_to_10
refused S3 at line 0|pair: line 0 has two tables with a tile in common|bound goal pair leaf_4 tiles_1_to_5 tiles_1_to_5
refused S5|seventeen_lines: there may be 1 to 16 tables, and 1 to 16 lines|bound goal seventeen_lines leaf_4 tiles_1_to_5 tiles_6_to_10
refused S5|one_set: there may be 1 to 16 tables, and 1 to 16 lines|bound goal one_set leaf_4 tiles_1_to_5 tiles_6_to_10 F1 F1 F1 F1 F1 F1 F1 F1 F1 F1 F1 F1 F1 F1 F1
refused S6 at line 0|mirror: line 0 has two tables of the same tiles, one of them transposed|prove goal mirror own_mirror tiles_6_to_10
refused L1|tiles_1_to_5: a log file begins with `PDBL`, a version, a side and a number of lemmas. It begins as a table does: is a word left out before it?|bound goal one_set tiles_1_to_5 tiles_1_to_5 tiles_6_to_10
refused L1|l1: a log file begins with `PDBL`, a version, a side and a number of lemmas|optimal goal_puzzle one_set l1 tiles_1_to_5 tiles_6_to_10
refused L2 at lemma 1|log_of_4095: lemma 1 is cut short, or bytes are left over behind the last one|bound goal one_set log_of_4095 tiles_1_to_5 tiles_6_to_10
refused L3 at lemma 0|no_board_4: the board of lemma 0 is no board|bound goal one_set no_board_4 tiles_1_to_5 tiles_6_to_10
refused L4|leaf: board, tables and log aren't all of one side|bound goal one_set leaf tiles_1_to_5 tiles_6_to_10
refused L4|leaf_4: board, tables and log aren't all of one side|bound board one_set leaf_4 tiles_1_to_5 tiles_6_to_10
refused L4|board, tables and log aren't all of one side|solve board one_set made tiles_1_to_5 tiles_6_to_10
refused L5|leaf_4: the log is one of another board|bound next one_set leaf_4 tiles_1_to_5 tiles_6_to_10
refused K2|swapped: the board has no solution, or none of fewer than 255 moves; with the blank last it has one: --goal last|solve swapped one_set made tiles_1_to_5 tiles_6_to_10
refused K2|blank_last: the board has no solution, or none of fewer than 255 moves; with the blank last it has one: --goal last|solve blank_last one_set made tiles_1_to_5 tiles_6_to_10
refused Q2 at line 100|near_q2: the board of line 100 is of another side than the tables|prove near_q2 one_set tiles_1_to_5 tiles_6_to_10
refused Q2 at line 4|remarks_before: the board of line 4 is of another side than the tables|prove remarks_before one_set tiles_1_to_5 tiles_6_to_10
END

# What the starts of files don't show, and what the run tells before it checks a table, is told in the end alone.
while IFS='|' read -r line sentence words; do
    says "$line" "$words" "$sentence"
done <<'END'
refused T2 of table 0|a_byte_less: a table file begins with `PDBT` and a byte 1|bound goal one_set leaf_4 a_byte_less
refused T2|zeros_of_4_mebibytes: a table file begins with `PDBT` and a byte 1|table zeros_of_4_mebibytes
refused T7 at entry 3144959 of table 0|wrong: the table is wrong: entry 3144959 doesn't fit those one move away|bound goal one_set leaf_4 wrong tiles_6_to_10
refused S1 at line 0|sets_of_4096: line 0 isn't `set` and ascending numbers of tables, one space before each, with a line end and no CR|solve goal sets_of_4096 made tiles_1_to_5 tiles_6_to_10
refused L2 at lemma 1|log_of_4096: lemma 1 is cut short, or bytes are left over behind the last one|bound goal one_set log_of_4096 tiles_1_to_5 tiles_6_to_10
refused Q2 at line 110|far_q2: the board of line 110 is of another side than the tables|prove far_q2 one_set tiles_1_to_5 tiles_6_to_10
refused Q2 at line 0|standard input: the board of line 0 is of another side than the tables|<board prove - one_set tiles_1_to_5 tiles_6_to_10
refused B5 at number 3|b5: number 3 of the board stands there twice|bound b5 s1 leaf_4 tiles_1_to_5 tiles_6_to_10
refused B4 at number 3|b4: number 3 of the board is too great for that many cells|solve b4 s1 made tiles_1_to_5 tiles_6_to_10
refused M4|m4: the moves don't end on the goal board, which has each number in its own cell|optimal m4 s1 leaf_4 tiles_1_to_5 tiles_6_to_10
refused Q1 at line 1|q1: line 1 is none of `BOARD`, `BOARD ; MOVES`, `BOARD : N` and `BOARD : N part I/K`. At column 11: a bound is a number from 0 to 255, with no zeros before it|prove q1 s1 tiles_1_to_5 tiles_6_to_10
END

status=0
"$bare" solve goal /dev/stdin made tiles_1_to_5 tiles_6_to_10 < <(cat s1) >"$work/output" 2>"$work/errors" || status=$?
check 'nothing is told ahead of a pipe' told_whole 'refused S1 at line 1' \
    "/dev/stdin: line 1 isn't \`set\` and ascending numbers of tables, one space before each, with a line end and no CR"

# A run may end otherwise than was told ahead.
ahead="this run can't end in a yes:"
says 'refused T7 at entry 3144959 of table 0' 'bound goal s1 leaf_4 wrong tiles_6_to_10' \
    "$ahead s1: line 1 isn't \`set\` and ascending numbers of tables, one space before each, with a line end and no CR" \
    "wrong: the table is wrong: entry 3144959 doesn't fit those one move away"
says 'fault read none' 'prove none s2 tiles_1_to_5 tiles_6_to_10' "$ahead s2: line 1 names a table that isn't there: they are numbered from 0" \
    "none: it can't be read: is it there, is it no folder, and may you read it?"
says 'fault size long_table' 'solve goal one_set made tiles_1_to_5 long_table' \
    "$ahead long_table: a table file begins with \`PDBT\` and a byte 1" 'long_table: it has more bytes than such a file may have'
says 'fault write none/made' 'solve swapped one_set none/made tiles_1_to_5 tiles_6_to_10' \
    "$ahead swapped: the board has no solution, or none of fewer than 255 moves; with the blank last it has one: --goal last" \
    'none/made: nothing can be kept there: does its folder exist, may you write there, and is there room?'

# With a clock that moves by 300 milliseconds each time that it is read, the check tells how far it has come between the two.
cc -O1 -shared -fPIC -o "$work/step_clock.so" "$root/tools/preload/step_clock.c" || exit 2
status=0
(export PDB_PROGRESS=1 LD_PRELOAD=$work/step_clock.so && exec "$bare" bound next one_set leaf_4 tiles_1_to_5 tiles_6_to_10) \
    >"$work/output" 2>"$work/told" || status=$?
sed -E 's/, [12] of 3: [0-9]+ percent of [0-9]+ blocks or lemmas begun$/, ../' "$work/told" | uniq >"$work/errors"
check 'the check of tables comes behind what is told ahead' told_whole 'refused L5' "$ahead leaf_4: the log is one of another board" \
    'tiles_1_to_5, ..' 'tiles_6_to_10, ..' 'leaf_4: the log is one of another board'

#
# Nothing is told beside a yes, whatever the sizes.
#

rm -f made
for fold in '' --fold; do
    says 'bound 0' "bound goal one_set leaf_4 tiles_1_to_5 tiles_6_to_10 $fold"
    says 'optimal 0' "optimal goal_puzzle pair leaf_4 tiles_1_to_5 tiles_6_to_10 $fold"
    says 'optimal 1' "solve next pair made tiles_1_to_5 tiles_6_to_10 $fold"
    says "optimal 0 of $goal_4 ;" "prove goal pair tiles_1_to_5 tiles_6_to_10 $fold"
done

# Six tiles of the 24-puzzle are one move from home each, so no solution has fewer than six moves: the blank's way back is one.
for mask in 30 480 7680; do
    "$bare" make-table 5 "$mask" "side_5_$mask" >/dev/null
done
check 'three tables of four tiles have 4 MiB' [ "$(cat side_5_* | wc -c)" -ge 4194304 ]
echo '1 2 3 4 9 5 6 7 8 14 10 11 12 13 0 15 16 17 18 19 20 21 22 23 24' >six_away
rm made
for words in '' --fold '--workers 4'; do
    says 'optimal 6' "solve six_away three made side_5_30 side_5_480 side_5_7680 $words"
    says "optimal 6 of $(cat six_away) ; UULLLL" "prove six_away three side_5_30 side_5_480 side_5_7680 $words"
done

# A log of more than 2^26 bytes: each lemma has two ways of 254 branches to a leaf that says never.
python3 - >log_of_67_megabytes <<'END'
import sys
tree = b"\0" + 2 * (bytes(254) + b"\1")
lemma = bytes([0, 1, 3, 2, 255]) + len(tree).to_bytes(4, "big") + tree
sys.stdout.buffer.write(b"PDBL\1\2" + (130_000).to_bytes(4, "big") + 130_000 * lemma)
END
check 'the log has more than 2^26 bytes' [ "$(stat -c %s log_of_67_megabytes)" -gt 67108864 ]
says 'bound 255' 'bound unsolvable one_set log_of_67_megabytes F123 --workers 4'
# It is one of this board, so it doesn't keep the search from it, where there is memory to see that.
says 'refused K2' 'solve unsolvable one_set log_of_67_megabytes F123' \
    'unsolvable: the board has no solution, or none of fewer than 255 moves; with the blank last it has one: --goal last'
status=0
(ulimit -v 65536 && exec "$bare" solve unsolvable one_set log_of_67_megabytes F123) >"$work/output" 2>"$work/errors" || status=$?
check 'want of memory to look at a log' told_whole 'no memory' 'the system refused memory, so there is no verdict'
rm log_of_67_megabytes

# More bytes than a log may have are none.
printf 'PDBL\1\2\0\0\0\1\3\2\1\0' >made && truncate -s 1073741825 made
says 'fault write made' 'solve board one_set made F12' \
    "made: a log of another board is there, so it is not replaced: \`--replace\` allows that"

# A file of more than 2^32 bytes is replaced.
rm made && truncate -s 4294967297 made
says 'exact side 2 mask 6 entries 24 unreachable 8 deepest 4' 'make-table 2 6 made --replace'
check 'a file of more than 2^32 bytes becomes a table' cmp -s made F12

#
# Words.
#

declare -A usage
while read -r name words; do
    usage[$name]="pdb_cli $words"
done <<'END'
pdb_cli [COMMAND]
replay replay [--goal first|last] [FILE]
table table [--workers N] FILE
bound bound [--workers N] [--fold] [--goal first|last] BOARD SETS LOG TABLES..
optimal optimal [--workers N] [--fold] [--goal first|last] PUZZLE SETS LOG TABLES..
make-table make-table [--workers N] [--replace] SIDE MASK OUT
solve solve [--workers N] [--fold] [--goal first|last] [--budget N] [--replace] BOARD SETS OUT TABLES..
prove prove [--workers N] [--fold] [--goal first|last] [--budget N] CLAIMS SETS TABLES..
parts parts [--goal first|last] BOARD N K ANSWERS..
END

# Whether a help shows how its command is used, and lists these flags and no others.
shows_usage() {
    [ "$status" = 0 ] && [ ! -s "$work/errors" ] && grep -qxF "Usage: $1" "$work/output" &&
        cmp -s <(sed -nE 's/^ +(-., )?(--[a-z]+).*/\2/p' "$work/output" | sort) <({ grep -oE -- '--[a-z]+' <<<"$1"; echo --help; } | sort)
}
for command in "${!usage[@]}"; do
    [ "$command" != pdb_cli ] || continue
    run "$command" --help
    check "the help of $command" shows_usage "${usage[$command]}"
done

# Whether the run told this mistake of a command's words: how a flag that it doesn't have would be a name, and how the command is used,
# but where a value is wrong.
told_mistake() {
    [ "$status" = 2 ] && [ ! -s "$work/output" ] && {
        printf 'error: %b\n\n' "$2"
        [ -z "${usage[$1]-}" ] || sed -nE "s/^unexpected argument '(-.*)' found$/  tip: to pass '\1' as a value, use '-- \1'\n/p" <<<"$2"
        [[ $2 =~ ^(invalid value|a value) ]] || printf 'Usage: %s\n\n' "${usage[$1]-${usage[pdb_cli]}}"
        echo "For more information, try '--help'."
    } | cmp -s - "$work/errors"
}

while IFS='|' read -r mistake text; do
    read -ra words <<<"$(printf '%b' "$text")"
    run "${words[@]}"
    check "the mistake in ${words[*]}" told_mistake "${words[0]}" "$mistake"
done <<'END'
unrecognized subcommand 'shuffle'|shuffle f
unrecognized subcommand 'rplay'\n\n  tip: a similar subcommand exists: 'replay'|rplay
unexpected argument '--workers' found|--workers 2
unexpected argument '--workers' found\n\n  tip: 'table --workers' exists|--workers 2 table F1
unexpected argument '-x' found|-x
unexpected argument '--version' found|table --version
unexpected argument '-V' found|solve -V
unexpected argument 'b' found|replay a b
unexpected argument '--workers' found|replay --workers 2
unexpected argument '--fold' found|replay solved --fold
the following required arguments were not provided:\n  <FILE>|table
unexpected argument 'b' found|table a b
unexpected argument '--none' found|table --none F1
unexpected argument '--fold' found|table F1 --fold
unexpected argument '--replace' found|table F1 --replace
a value is required for '--workers <N>' but none was supplied|table F1 --workers
invalid value 'F1' for '--workers <N>': invalid digit found in string|table --workers F1
invalid value '0' for '--workers <N>': 0 is not in 1..=64|table F1 --workers 0
invalid value '65' for '--workers <N>': 65 is not in 1..=64|table F1 --workers 65
invalid value '256' for '--workers <N>': 256 is not in 1..=64|table F1 --workers 256
invalid value '18446744073709551617' for '--workers <N>': number too large to fit in target type|table F1 --workers 18446744073709551617
invalid value '?]0;???' for '--workers <N>': invalid digit found in string|table F1 --workers \e]0;é\a
unexpected argument '-1' found|table F1 --workers -1
the argument '--workers <N>' cannot be used multiple times|table F1 --workers 2 --workers 2
the following required arguments were not provided:\n  <BOARD>\n  <SETS>\n  <LOG>\n  <TABLES>...|bound
the following required arguments were not provided:\n  <TABLES>...|bound --workers 2 b s l
invalid value '0' for '--workers <N>': 0 is not in 1..=64|bound b s l t --workers 0
unexpected value '1' for '--fold' found; no more were expected|bound b s l t --fold=1
unexpected argument '--replace' found|bound b s l t --replace
the following required arguments were not provided:\n  <PUZZLE>\n  <SETS>\n  <LOG>\n  <TABLES>...|optimal
the following required arguments were not provided:\n  <TABLES>...|optimal p s l
the argument '--fold' cannot be used multiple times|optimal p s l t --fold --fold
the following required arguments were not provided:\n  <MASK>\n  <OUT>|make-table 2
the following required arguments were not provided:\n  <OUT>|make-table 2 14
unexpected argument 'p' found|make-table 2 14 o p
unexpected argument '--budget' found|make-table 2 14 o --budget 1
unexpected argument '--fold' found|make-table 2 14 o --fold
the argument '--replace' cannot be used multiple times|make-table 2 14 o --replace --replace
unexpected value '1' for '--replace' found; no more were expected|make-table 2 14 o --replace=1
unexpected argument '-2' found|make-table -2 14 o
invalid value 'x' for '<SIDE>': invalid digit found in string|make-table x 2 o
invalid value '256' for '<SIDE>': 256 is not in 0..=255|make-table 256 2 o
invalid value '4294967296' for '<MASK>': 4294967296 is not in 0..=4294967295|make-table 2 4294967296 o
invalid value '36893488147419103232' for '<MASK>': 36893488147419103232 is not in 0..=4294967295|make-table 2 36893488147419103232 o
invalid value '1.5' for '<MASK>': a mask is a number from 0 to 4294967295, as 30 or 0x1e, or its tiles, as tiles:1,2,3,4|make-table 2 1.5 o
invalid value '0X1e' for '<MASK>': a mask is a number from 0 to 4294967295, as 30 or 0x1e, or its tiles, as tiles:1,2,3,4|make-table 2 0X1e o
invalid value '1,2' for '<MASK>': a mask is a number from 0 to 4294967295, as 30 or 0x1e, or its tiles, as tiles:1,2,3,4|make-table 2 1,2 o
invalid value 'tiles' for '<MASK>': a mask is a number from 0 to 4294967295, as 30 or 0x1e, or its tiles, as tiles:1,2,3,4|make-table 2 tiles o
invalid value '?[2K?' for '<MASK>': a mask is a number from 0 to 4294967295, as 30 or 0x1e, or its tiles, as tiles:1,2,3,4|make-table 2 \e[2K\x7f o
invalid value '0x' for '<MASK>': hexadecimal digits write a number up to 0xffffffff, as 0x1e|make-table 2 0x o
invalid value '0x+1e' for '<MASK>': hexadecimal digits write a number up to 0xffffffff, as 0x1e|make-table 2 0x+1e o
invalid value '0x1g' for '<MASK>': hexadecimal digits write a number up to 0xffffffff, as 0x1e|make-table 2 0x1g o
invalid value '0x100000000' for '<MASK>': hexadecimal digits write a number up to 0xffffffff, as 0x1e|make-table 2 0x100000000 o
invalid value 'tiles:' for '<MASK>': tiles are numbers from 0 to 31, or ranges of them, none twice, with commas between, as tiles:1,2,5-8|make-table 2 tiles: o
invalid value 'tiles:1,,2' for '<MASK>': tiles are numbers from 0 to 31, or ranges of them, none twice, with commas between, as tiles:1,2,5-8|make-table 2 tiles:1,,2 o
invalid value 'tiles:3,1,3' for '<MASK>': tiles are numbers from 0 to 31, or ranges of them, none twice, with commas between, as tiles:1,2,5-8|make-table 2 tiles:3,1,3 o
invalid value 'tiles:01' for '<MASK>': tiles are numbers from 0 to 31, or ranges of them, none twice, with commas between, as tiles:1,2,5-8|make-table 2 tiles:01 o
invalid value 'tiles:32' for '<MASK>': tiles are numbers from 0 to 31, or ranges of them, none twice, with commas between, as tiles:1,2,5-8|make-table 2 tiles:32 o
invalid value 'tiles:1-' for '<MASK>': tiles are numbers from 0 to 31, or ranges of them, none twice, with commas between, as tiles:1,2,5-8|make-table 2 tiles:1- o
invalid value 'tiles:3-3' for '<MASK>': tiles are numbers from 0 to 31, or ranges of them, none twice, with commas between, as tiles:1,2,5-8|make-table 2 tiles:3-3 o
invalid value 'tiles:4-1' for '<MASK>': tiles are numbers from 0 to 31, or ranges of them, none twice, with commas between, as tiles:1,2,5-8|make-table 2 tiles:4-1 o
invalid value 'tiles:1-3,2' for '<MASK>': tiles are numbers from 0 to 31, or ranges of them, none twice, with commas between, as tiles:1,2,5-8|make-table 2 tiles:1-3,2 o
invalid value 'tiles:30-32' for '<MASK>': tiles are numbers from 0 to 31, or ranges of them, none twice, with commas between, as tiles:1,2,5-8|make-table 2 tiles:30-32 o
invalid value 'tiles:??' for '<MASK>': tiles are numbers from 0 to 31, or ranges of them, none twice, with commas between, as tiles:1,2,5-8|make-table 2 tiles:ü o
the following required arguments were not provided:\n  <TABLES>...|solve b s o
invalid value '0' for '--budget <N>': 0 is not in 1..=1000000000000|solve --budget 0 b s o t
invalid value '1000000000001' for '--budget <N>': 1000000000001 is not in 1..=1000000000000|solve b s o t --budget 1000000000001
invalid value 'many' for '--budget <N>': invalid digit found in string|solve b s o t --budget many
the following required arguments were not provided:\n  <CLAIMS>\n  <SETS>\n  <TABLES>...|prove
the following required arguments were not provided:\n  <TABLES>...|prove - s --fold
a value is required for '--budget <N>' but none was supplied|prove c s t --budget
the argument '--budget <N>' cannot be used multiple times|prove --budget 5 c s t --budget=5
the following required arguments were not provided:\n  <BOARD>\n  <N>\n  <K>\n  <ANSWERS>...|parts
the following required arguments were not provided:\n  <ANSWERS>...|parts b 6 3
invalid value '256' for '<N>': 256 is not in 0..=255|parts b 256 3 a
invalid value 'x' for '<N>': invalid digit found in string|parts b x 3 a
invalid value '0' for '<K>': 0 is not in 1..=65535|parts b 6 0 a
invalid value '65536' for '<K>': 65536 is not in 1..=65535|parts b 6 65536 a
invalid value '2' for '<K>': a bound has an odd number of parts|parts b 6 2 a
invalid value '65534' for '<K>': a bound has an odd number of parts|parts b 6 65534 a
unexpected argument '--workers' found|parts b 6 3 a --workers 2
unexpected argument '--fold' found|parts b 6 3 a --fold
unexpected argument '--budget' found|parts b 6 3 a --budget 1
unexpected argument '--replace' found|parts b 6 3 a --replace
END

echo "$passed passed, $failed failed"
[ "$failed" = 0 ]
