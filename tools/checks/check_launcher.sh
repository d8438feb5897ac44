#!/usr/bin/env bash
# Checks the launcher `pdb_cli`, the scripts of tools/build and the command `.ci/run`, in temporary checkouts, where
# tools/checks/stand_in.sh stands in for the commands of the kit: what it makes is a script that shows which sources it was made of.
# So nothing is proved.
#
#     tools/checks/check_launcher.sh
#
# It takes no arguments. A line is written for each check, with what was written where it fails, and last the line
# `N passed, M failed`. The status is 0 if all passed, and otherwise 1. Where the caller is root, the launcher runs as nobody
# (by `setpriv`). In the tables a row is the name of a case, what is done in its checkout, and what must hold behind a start.
# shellcheck disable=SC2016,SC2034,SC2317
set -uo pipefail
root=$(dirname "$(dirname "$(dirname "$(readlink -f "${BASH_SOURCE[0]}")")")")
work=$(mktemp -d) || exit 1
trap 'chmod -R u+rwX "$work"; rm -r "$work"' EXIT
chmod 711 "$work"
status=0 plain=()
[ "$(id -u)" != 0 ] || plain=(setpriv --reuid=65534 --regid=65534 --clear-groups --)
# The launcher finds these commands alone, so each can be taken away: `least` has what a program needs that was released.
env=$(type -P env) && mkdir "$work/least" "$work/bin"
for name in bash cat chmod cp cut dirname du env gzip mkdir mktemp mv readlink rm sha256sum sleep sort stat tail tee timeout tr uname; do
    ln -s "$(type -P "$name")" "$work/least/$name"
done
for name in find flock git grep nice sed tar wc; do ln -s "$(type -P "$name")" "$work/bin/$name"; done
cp -P "$work/least/"* "$work/bin"

# Goes on with the case of this name. Its checkout has in its path what a shell may take for more than a name.
enter() {
    at=$work/$1 checkout="$work/$1/a [check] out * of 'pdb'"
    launcher=$checkout/pdb_cli kit=$at/kit place=$at/place path=$at/kit/bin:$work/bin
    by=("$launcher") input=/dev/null words=(sources)
}
# Makes the case $1, with nothing built, and does $2 in its checkout.
make_case() {
    enter "$1"
    mkdir -p "$checkout/tools/"{build,checks} "$at/orders" "$at/tmp" "$at/else/bin" "$place" \
        "$kit/"{bin,c,logic_built,toolchain/{bin,lib},rattle/logic,rlibs/{std,hex}.rlib}
    cp -r "$root/pdb_cli" "$root/.ci" "$checkout"
    cp "$root/tools/build/"* "$checkout/tools/build"
    tee "$kit/bin/"{rt,rattle,rattle-link,nproc,sed,sleep,whole} "$checkout/tools/"{build/page.sh,checks/check_{runs.sh,launcher.sh,page.py}} \
        <"$root/tools/checks/stand_in.sh" >/dev/null
    chmod +x "$kit/bin/"* "$checkout/tools/checks/"*
    echo 'kit 1' | tee "$kit/"{KIT-ID,c/c.a,logic_built/x,toolchain/{bin,lib}/x,rattle/logic/antt-project.json,rlibs/{std,hex}.rlib/format} \
        >"$at/orders/kit"
    add low unused pdb_cli
    mv "$checkout/crates/pdb_cli/src/"{lib,main}.rt
    mkdir -p "$checkout/crates/low/"{specs,proofs,must-fail}
    echo 'Low : ℕ' | tee "$checkout/crates/low/"{README.md,{specs,proofs}/Low.antt,must-fail/x.edit} >"$checkout/crates/pdb_cli/stdin"
    printf '%s\n' '# A library.' low: 'unused: low' 'pdb_cli: low hex' >"$checkout/crates.txt"
    echo 'Handles allowed: Threads, Wait.' >"$checkout/HANDLES" && echo out/ >"$checkout/.gitignore"
    touch -d '2 hours ago' "$place/old.rt"
    echo 4 >"$at/orders/processors" && echo 'MemAvailable:   99000000 kB' >"$at/orders/memory" && touch "$at/orders/"{calls,processes}
    answer rt 0 '5 passed, 0 failed'
    answer check_runs.sh 0 '3 passed, 0 failed'
    answer check_page.py 0 '4 passed, 0 failed'
    answer check_launcher.sh 0 '2 passed, 0 failed'
    do_there "${2-}"
    [ "${#plain[@]}" = 0 ] || chown -R 65534:65534 "$at"
}
do_there() { cd "$checkout" && eval "$1" && cd "$work" || exit; }
low() { echo "fn $1" >"$checkout/crates/low/src/lib.rt"; }
order() { touch "${@/#/$at/orders/}"; }
disorder() { rm "${@/#/$at/orders/}"; }
take_away() { mkdir "$at/bin" && cp -P "${2-$work/bin}/"* "$at/bin" && rm "$at/bin/$1" && path=$kit/bin:$at/bin; }
# Has the script $1, or `rt ci`, end with status $2 and write the line $3.
answer() { printf '%s\n' 'some line' "$3" >"$at/orders/$1" && echo "$2" >"$at/orders/$1.status"; }
add() { for name; do mkdir -p "$checkout/crates/$name/src" && echo "fn $name" >"$checkout/crates/$name/src/lib.rt"; done; }
# Adds `left` and `right`, which use `low`, and `top`, which uses nothing; the program uses all three.
add_more() {
    add left right top
    printf '%s\n' 'pdb_cli: left, right top hex' low: 'left: low' 'right: low' 'top:' 'unused: low' >"$checkout/crates.txt"
}
# Becomes the launcher, behind these words; starts it, and keeps what it writes and its status; starts it beside the checks; waits
# for the process $1, and for the launcher that was started so. Each ends within five minutes, or is killed.
become() { cd "$place" && exec "$@" "${plain[@]}" "$env" "HOME=$at" "PATH=$path" "TMPDIR=$at/tmp" "${by[@]}" "${words[@]}"; }
start() { status=0 && { (become timeout --foreground -k 1 300) <"$input" >"$at/stdout" 2>"$at/stderr" || status=$?; }; }
start_beside() { (become) <"$input" >"$at/stdout${1-}" 2>"$at/stderr${1-}" & going=$!; }
await() { for _ in {1..3000}; do { kill -0 "$1" 2>/dev/null && sleep 0.1; } || break; done; kill -KILL "$1" 2>/dev/null; wait "$1"; }
finish() { status=0 && { await "$going" || status=$?; }; }
# Commits all that is in the folder at hand, out/ too.
commit() { { git init -q && git add -f . && git -c user.name=a -c user.email=a commit -qm 1; } >/dev/null 2>&1; }
# Says that the check $1 passed if the words $2 succeed, and otherwise that it failed and what was written.
check() {
    [ -n "$2" ] && eval "$2" && echo "ok      ${1//_/ }" && return
    echo "FAILED  ${1//_/ }: $2; status $status, calls $(xargs <"$at/orders/calls"), and written was:"
    head -c 1000 "$at/stdout" "$at/stderr"
}
calls() { grep -c "$1" "$at/orders/calls"; }
said() { grep -q "$1" "$at/stderr"; }
# Whether the status is $1, and standard output has the line $2 alone, or the bytes of the file $2.
gave() { [ "$status" = "$1" ] && [ "$(cat "$at/stdout")" = "${2-}" ]; }
wrote() { [ "$status" = "$1" ] && cmp -s "$at/stdout" "$2"; }
# Whether the program of the sources as they are was run; whether it was, and these crates, sorted, were proved.
is_run() { [ "$status" = 0 ] && "$kit/bin/whole" "$checkout" | cmp -s - "$at/stdout"; }
ran() { is_run && [ "$(sed -n 's/ begins$//p' "$at/orders/calls" | sort | xargs)" = "$*" ]; }
# Whether nothing was run, and standard error has a line of the launcher with these words.
refused() { [ "$status" = 125 ] && [ ! -s "$at/stdout" ] && said "^pdb_cli: .*$1"; }
# Whether these crates were proved, each before the next began.
in_turn() { cmp -s "$at/orders/calls" <(for name; do printf '%s\n' "$name begins" "$name ends"; done); }
# Whether the words succeed within two minutes; whether all of these crates have begun; whether one doesn't within a second.
eventually() { for _ in {1..1200}; do ! "$@" || return 0; sleep 0.1; done; return 1; }
have_begun() { for name; do [ "$(calls "^$name begins$")" != 0 ] || return 1; done; }
waits() { sleep 1; ! have_begun "$1"; }
# Whether all checks that were started have ended; whether nothing of a start goes on, or is left but what the checkout keeps.
is_ended() { while read -r name; do ! kill -0 "$name" 2>/dev/null || return 1; done <"$at/orders/processes"; }
is_alone() { is_ended && [ -z "$(ls "$at/tmp")" ] && { [ ! -e "$checkout/out" ] || flock -n "$checkout/out/lock" true; }; }
# Has $1 called with each row of the table $2.
for_rows() {
    local name there holds
    while IFS='|' read -r name there holds; do "$1" "${name// /}" "$there" "$holds"; done <<<"$2"
}
# Does $1 with the functions of the checkout's scripts.
as_launcher() { "$env" "root=$checkout" "PATH=$path" bash -c '. "$root/tools/build/choose.sh" && eval "$1"' bash "$1"; }
# Keeps the list, as a start does that comes long after the last change.
rest() { as_launcher 'read -r way _ <"$kept/built" && echo "$way $(list_all)" >"$kept/stamp"'; }

# Starts in turn in one checkout. Each has the list of the one before, and gives the same once more, with nothing proved.
edits='same_size | low LOW | ran low pdb_cli
same_size_and_time | touch -r crates/low/src/lib.rt x; low WOL; touch -r x crates/low/src/lib.rt | ran low pdb_cli
definition | echo "Low : ℤ" >crates/low/specs/Low.antt | ran low pdb_cli
proof | echo "Low : ℤ" >crates/low/proofs/Low.antt | ran low pdb_cli
main_file | echo "fn more" >>crates/pdb_cli/src/main.rt | ran pdb_cli
added_file | echo "fn added" >crates/low/src/added.rt | ran low pdb_cli
renamed_file | mv crates/low/src/{added,moved}.rt | ran low pdb_cli
removed_file | rm crates/low/src/moved.rt | ran low pdb_cli
older_file_moved_in | mv "$place/old.rt" crates/low/src/old.rt | ran low pdb_cli
deeper_out_folder | mkdir crates/low/src/out; echo "fn deep" >crates/low/src/out/deep.rt | ran low pdb_cli
use_of_a_crate | sed -i "s/^low:/low: hex/" crates.txt | ran low pdb_cli
kit_of_another_name | echo "kit 2" >"$kit/KIT-ID" | ran low pdb_cli
kit_of_another_checker | echo "#" >>"$kit/bin/rattle" | ran low pdb_cli
kit_of_another_logic | rm out/stamp; echo more >"$kit/logic_built/x" | ran low pdb_cli
build_script | echo "# more" >>tools/build/build.sh | ran low pdb_cli
touched_file | touch crates/low/src/lib.rt | ran
what_no_build_reads | tee -a pdb_cli crates/low/{README.md,must-fail/x.edit,src/{.lib.rt.swp,lib.rt~}} >>crates/unused/src/lib.rt <<<"# more" | ran
order_of_the_crates | sort -r crates.txt >x; cat x >crates.txt | ran
what_rt_made | mkdir crates/{low,pdb_cli}/out; echo exit >crates/low/out/x.rt; cp crates/{low/out/x.rt,pdb_cli/out/pdb_cli} | ran
nothing | take_away sort | ran
no_list | rm out/stamp | ran
no_list_and_no_room | rm out/stamp; by=(bash -c "ulimit -f 0; exec \"\$@\"" bash "$launcher"); words=(status 7) | gave 7
kit_elsewhere | cp -r "$kit" "$at/2"; path=$at/2/bin:$work/bin | ran
no_kit | path=$work/bin | ran
no_kit_and_no_list | rm out/stamp; path=$work/bin | ran
no_kit_by_the_environment | path=$work/bin; by=("$env" PDB_PROVED_HERE=1 "$launcher") | ran
lost_program | rm out/pdb_cli | ran pdb_cli
changed_program | sed s/words/other/ out/pdb_cli >x; cat x >out/pdb_cli | ran pdb_cli
damaged_library | low LAW; : >out/proved/low.tar | ran low pdb_cli
repacked_library | echo "fn m" >>crates/pdb_cli/src/main.rt; cd out/proved; tar -xf low.tar; echo "fn evil" >low.rlib/text; tar -cf low.tar low.{rlib,new} | ran low pdb_cli
lost_library | echo "fn n" >>crates/pdb_cli/src/main.rt; rm -r out/proved | ran low pdb_cli
library_of_another_checkout | echo "fn o" >>crates/pdb_cli/src/main.rt; cp -r out "$at/y"; rm -r out; mv "$at/y" out; chown -R --reference=. out | ran low pdb_cli
edit_in_the_build | low LOT; order edit_once | ran low low pdb_cli pdb_cli
failed_build_then_none | low LIT; order fail_at_last; start; disorder fail_at_last | ran low pdb_cli pdb_cli pdb_cli
read_only | chmod -R a-w . | ran
read_only_and_no_list | rm -f out/stamp | ran'
try_edit() {
    enter edits && rest && : >"$at/orders/calls" && rm -rf "${at:?}/bin" && do_there "$2" && start && check "$1" "$3"
    : >"$at/orders/calls" && start && check "$1: once more" "${3/ran*/ran}"
}
# Edits in quick turn, and, where files have their times in seconds, two within a second.
try_quick() {
    local stale=0 i
    for i in {10..14}; do { low "$i" && start && is_run && low "x$i" && low "$i" && start && is_run; } || stale=1; done
    check 'edits in quick turn are each seen' '[ "$stale.$(calls "low begins")" = 0.5 ]'
    cp "$kit/bin/rt" "$kit/bin/du"
    for i in {20..23}; do { low "$((i - 1))" && start && low "$i" && start && is_run; } || stale=1; done
    check 'so are two within a second, where files have their times in seconds' '[ "$stale.$(calls "low begins")" = 0.10 ]'
    rm "$kit/bin/du"
}
group_edits() {
    make_case edits && start && : >"$at/orders/calls" && try_quick
    sleep 4 && : >"$at/orders/calls" && start && check 'once all is old the list is kept' 'ran && [ "$(cat "$checkout/out/stamp")" = "proved $(as_launcher list_all)" ]'
    for_rows try_edit "$edits"
}

# First starts that end with nothing run.
failures=$(
    printf 'no_%s | take_away %s | refused "can be read and compared"\n' {sort,sha256sum,stat,tail}{,}
    printf 'no_%s | take_away %s | refused "cannot be"\n' {flock,mkdir}{,}
    printf 'no_%s | take_away %s | refused "not built"\n' {cp,mv,mktemp}{,}
)'
log_is_a_folder | mkdir -p out/build.log | refused "cannot be written"
lock_is_a_folder | mkdir -p out/lock | refused "cannot be"
folder_is_read_only | mkdir out; chmod a-w out | refused "cannot be written"
checkout_is_read_only | chmod a-w . | refused "cannot be written" && [ "$(wc -l <"$at/stderr")" = 1 ]
folder_unreadable | chmod 0 crates/low/src | refused "can be read and compared"
file_unreadable | chmod 0 crates/low/src/lib.rt | refused "can be read and compared"
link_inside_a_source_folder | ln -s "$place/old.rt" crates/low/src/linked.rt | refused "linked.rt is a link"
folder_inside_that_is_a_link | ln -s "$place" crates/low/specs/deep | refused "deep is a link"
folder_that_is_a_link | mv crates/low x; ln -s ../x crates/low | refused "low is a link"
no_list_of_crates | rm crates.txt | refused "can be read and compared"
no_line_of_the_program | sed -i /^pdb_cli/d crates.txt | refused "no line of pdb_cli"
more_in_the_list | sed -i "s/^low:/low jobs=1:/" crates.txt | refused "more than libraries"
ring_in_the_list | sed -i "s/^low:/low: pdb_cli/" crates.txt | refused "not built"
no_script | rm tools/build/build.sh | refused "cannot be read"
no_script_at_all | rm tools/build/sources.sh | refused "cannot be read"
sources_never_rest | order edit | refused "change"
build_makes_nothing | order fail_at_once | refused "not built"
build_leaves_a_program | order fail_at_last | refused "not built" && said "^error: what is made is wrong$"
build_has_no_program | order make_none | refused "cannot be copied"
kit_has_an_empty_line | : >"$kit/KIT-ID" | refused "cannot be read"
no_kit | path=$work/bin | refused "rt, the command of the Rattle kit, is not on the PATH"
no_rattle | rm "$kit/bin/rattle" | refused "cannot be read"
handles | echo "Handles allowed: Wait." >HANDLES | refused "not built" && said "HANDLES does not allow Threads"
no_handles | rm HANDLES | refused "not built"
kit_of_a_shell_script | printf "%s\n" "#!/bin/sh" "exit 0" >"$kit/bin/rattle" | refused "low is not proved"
kit_that_says_less | answer verdict_low 0 "logic=proved functions=1" | refused "low is not proved"
kit_that_proves_no_function | answer verdict_low 0 "logic=proved functions=0 sum=$tail" | refused "low is not proved"
kit_of_another_logic | answer verdict_low 0 "logic=proved functions=1 sum=0$tail" | refused "low is not proved"
kit_that_says_more | answer verdict_low 0 "as if logic=proved functions=1 sum=$tail" | refused "low is not proved"
library_that_hides | answer verdict_low 0 "logic=proved functions=1 hides=1 sum=$tail" | refused "low is not proved"
library_in_c | answer verdict_low 0 "logic=proved functions=1 foreign=low::f sum=$tail" | refused "low is not proved"
library_of_kept_proofs | answer verdict_low 0 "logic=proved functions=1 sum=$tail incremental=trusted" | refused "low is not proved"
library_before_its_verdict | answer verdict_low 0 "logic=proved functions=1 sum=$tail"; echo >>"$at/orders/verdict_low" | refused "low is not proved"
program_of_another_handle | answer verdict_pdb_cli 0 "${verdict/Threads+Wait/Net}" | refused "pdb_cli is not proved"
program_with_a_function_less | answer verdict_pdb_cli 0 "${verdict/ functions=1/ functions=}" | refused "pdb_cli is not proved"'
verdict=$(sed -n "s/^verdict='\(.*\)'$/\1/p" "$root/tools/build/build.sh") tail=${verdict#* sum=}
try_failure() { make_case "not_$1" "$2" && start && check "$1" "$3" && check "$1: nothing is left" 'eventually is_alone'; }
group_failures() { for_rows try_failure "$failures"; }

# First starts that build.
firsts='plain | true | ran low pdb_cli && said "^pdb_cli: 1 of 2 crates proved after [0-9]* s (pdb_cli at work)$" && [ "$(stat -c %a "$checkout/out")" = 700 ]
log | true | [ "$(grep -c "^fn .*: proved$" "$checkout/out/build.log")" = 2 ] && said "^pdb_cli: 2 of 2 crates proved after [0-9]* s$"
copy_of_sources_alone | mkdir crates/low/out; touch crates/low/out/x.rt | ! grep "README\|edit\|x.rt\|unused" "$at/orders/copy"
input | head -c 100000 /dev/urandom >"$at/in"; input=$at/in; words=(copy) | wrote 0 "$input"
environment | by=("$env" RT_ALLOW_C=1 RT_BACKEND=rattle GLOBIGNORE="*" GIT_DIR=x POSIXLY_CORRECT=1 "$launcher") | ran low pdb_cli
no_terminal_and_no_streams | by=("$(type -P setsid)" -w bash -c "exec \"\$@\" <&- 2>&-" bash "$launcher") | ran low pdb_cli
no_nproc | rm "$kit/bin/nproc" | ran low pdb_cli
one_processor | add_more; echo 1 >"$at/orders/processors" | is_run && in_turn low top right left pdb_cli
little_memory | add_more; echo "MemAvailable: 3000000 kB" >"$at/orders/memory" | is_run && in_turn low top right left pdb_cli
longest_chain | add_more; echo 1 >"$at/orders/processors"; printf "fn left\n%.0s" {1..9} >crates/left/src/lib.rt | is_run && in_turn low left top right pdb_cli
failing_once | order fail_once_low | ran low low pdb_cli && said "one after the other"
killed_once | order die_once_pdb_cli | ran low pdb_cli pdb_cli && said "one after the other"
refused_beside_others | add_more; order refuse_left hold_top hold_right | refused "left is not proved" && said "^fn left::f: not proved$"
refused | order refuse_low | refused "low is not proved" && [ "$(calls begins)" = 1 ]'
try_first() { make_case "first_$1" "$2" && start && check "first start, $1" "$3" && check "first start, $1: nothing is left" 'eventually is_alone'; }
group_firsts() {
    for_rows try_first "$firsts"
    enter first_refused && disorder refuse_low && start
    check 'once it is mended the program runs' 'ran low low pdb_cli'
    make_case beside 'add_more; order hold_left hold_right' && by=("$env" TMOUT=1 "$launcher") && start_beside
    check 'crates that do not use each other are proved at once' 'eventually have_begun top left right'
    check 'once a minute it says which crates are at work' 'eventually said "^pdb_cli: . of 5 .* after [2-9] s (left, right at work)$"'
    check 'the program waits for all that it uses' 'waits pdb_cli && disorder hold_left && waits pdb_cli'
    disorder hold_right && finish
    check 'and then runs, each crate proved once' 'ran left low pdb_cli right top'
    for few in 'processors 2' 'memory MemAvailable: 7300000 kB' 'limit 8000000000'; do
        make_case "few ${few%% *}" 'add_more; order hold_top hold_right' && echo "${few#* }" >"$at/orders/${few%% *}"
        [ "${few%% *}" != limit ] || echo 600000000 >"$at/orders/held"
        start_beside
        check "at $few two are proved at once, and no more" 'eventually have_begun top right && waits left'
        disorder hold_top hold_right && finish
    done
}

# Starts that are ended by a signal to the launcher or, with `all`, to its whole group, as by a terminal; and two starts at once.
group_ends() {
    for end in 'INT 130' 'INT 130 all' 'TERM 143' 'HUP 129 all' 'KILL 137' 'KILL 137 all' 'KILL 137 at_once'; do
        read -r signal wanted all <<<"$end"
        make_case "ended $end" 'order hold'
        set -m && start_beside && set +m
        eventually have_begun low
        kill "-$signal" -- "$([ "$all" != all ] || echo -)$going"
        finish 2>/dev/null
        check "$end: the launcher is ended by the signal, and runs nothing" 'gave "$wanted"'
        [ "$all" = at_once ] || check "$end: nothing goes on, and nothing is left" 'eventually is_alone'
        disorder hold && start
        check "$end: the next start builds" 'is_run && have_begun pdb_cli'
    done
    make_case both && start_two pdb_cli 0
    check 'of two starts one builds, and both run the program' 'ran low pdb_cli'
    make_case both_fail 'order fail_at_last' && start_two pdb_cli 125
    check 'a start that waited for a build that failed runs nothing' 'refused "not built"'
}
# Starts the launcher while $1, the launcher or .ci/run, builds, and lets that go on once the launcher waits. Goes on with the
# launcher; the other ends with status $2.
start_two() {
    order hold && by=("$checkout/$1") words=() && start_beside .first
    first=$going by=("$launcher") words=(sources)
    eventually have_begun "${3-low}" && start_beside
    check "beside $1, status $2: the launcher says that it waits" 'eventually said waiting'
    disorder hold && finish
    await "$first"
    check "beside $1, status $2: this ends by itself" "[ $? = $2 ]"
}

# What passes through.
try_pass() { enter streams && do_there "$2" && start && check "$1" "$3"; }
# Has the launcher start at a terminal of its own, with these words for `env`.
on_terminal() { by=("$env" "$@" "$(type -P script)" -qec "$(printf '%q ' "$launcher") environment >seen" /dev/null) words=(); }
saw() { read -r name _ <"$place/seen" && [ "$name" = "$1" ]; }
odd=('' 'two words' '' '*' $'a\nb\n' - -- --help "'" '"$x"' \\ $'\xff\xfe' "$(printf '%b' "$(printf '\\x%x' {1..255})")." '')
streams='words | words=(words "${odd[@]}"); printf "%s\0" "${odd[@]}" >"$at/wanted" | wrote 0 "$at/wanted"
streams | head -c 300000 /dev/urandom >"$at/in"; input=$at/in; words=(copy) | wrote 0 "$input" && said "^on standard error$"
no_input | words=(copy) | gave 0
no_words | words=() | gave 0 "0 words"
an_empty_word | words=("") | gave 0 "1 words"
more_than_prove_here | words=(prove-here x) | gave 0
own_signal | words=(kill) | gave 143
folder | words=(place) | gave 0 "$place"
link_to_a_link | by=("$at/links/two"); words=(place) | gave 0 "$place"
on_the_PATH | by=("$env" "PATH=$at/links:$path" two); words=(place) | gave 0 "$place"
relative_name | place=$checkout; by=(./pdb_cli); words=(place) | gave 0 "$place"
CDPATH | place=$checkout/tools; by=("$env" "CDPATH=$work:/" ../pdb_cli); words=(place) | gave 0 "$place"
word_of_bash | place=$checkout/tools; by=(bash ../pdb_cli); words=(place) | gave 0 "$place"
folder_that_is_a_link | place=$at/links/in; by=(../pdb_cli); words=(status 7) | gave 7
closed_streams | by=(bash -c "exec \"\$@\" <&- >&- 2>&-" bash "$launcher"); words=(status 7) | gave 7
terminal | on_terminal | saw 1
terminal_set | on_terminal PDB_PROGRESS=0 | saw 0
terminal_set_to_nothing | on_terminal PDB_PROGRESS= | saw glibc.malloc.hugetlb=1
no_terminal | by=("$env" -u GLIBC_TUNABLES "$launcher"); words=(environment) | gave 0 "not set glibc.malloc.hugetlb=1"
progress_set | by=("$env" PDB_PROGRESS=2 GLIBC_TUNABLES=a=1 "$launcher"); words=(environment) | gave 0 "2 a=1:glibc.malloc.hugetlb=1"
pages_set | by=("$env" GLIBC_TUNABLES=glibc.malloc.hugetlb=0 "$launcher"); words=(environment) | gave 0 "not set glibc.malloc.hugetlb=0"
version | words=(--version) | [ "$(sed "s/[0-9a-f]\{64\}/D/" "$at/stdout" | xargs)" = "proved here, with the kit D kit 1 pdb_cli 9 sources D" ]
last_line | words=(status 0) | [ "$(tail -n 1 "$checkout/out/pdb_cli")" = "$(sed -n 3p "$checkout/out/built")" ]'
group_streams() {
    make_case streams && start && : >"$at/orders/calls"
    do_there 'mkdir "$at/links"; ln -s "$launcher" "$at/links/one"; ln -s one "$at/links/two"; ln -s "$checkout/tools" "$at/links/in"'
    for_rows try_pass "$streams"
    for i in 0 1 2 3 77 125 126 127 255; do try_pass "the status $i" "words=(status $i)" "gave $i"; done
    check 'none of these builds' '[ "$(calls begins)" = 0 ]'
    words=(solve) && start_beside && eventually [ -e "$place/made.unkept" ] && kill "$going" && finish
    check 'a maker that is ended leaves no temporary file' '[ "$status" = 143 ] && [ ! -e "$place/made.unkept" ]'
}

# Starts with dist/, and with the commands alone that a released program needs.
sha() { sha256sum <"$1" | cut -c 1-64; }
# Turns a bit of the byte at $2 of the file $1; makes dist/ of a program with these lines, as if released of the same sources.
turn() { printf '%b' "\\x$(printf %x "$(($(od -An -tu1 -j "$2" -N 1 "$1") ^ 1))")" | dd of="$1" bs=1 seek="$2" conv=notrunc status=none; }
repack() {
    printf '%s\n' "$@" >"$at/other" && gzip -9nc "$at/other" >dist/pdb_cli.gz
    sed -i "s/^program .*/program $(sha "$at/other")/; s/^packed .*/packed $(sha dist/pdb_cli.gz)/" dist/RELEASE
}
released='fresh | true | ran && [ "$(cat "$at/stderr")" = "pdb_cli: this program was proved where it was released, not here: ./pdb_cli prove-here proves it here" ]
beside_the_kit | path=$kit/bin:$work/bin | ran
beside_what_no_build_reads | tee -a pdb_cli crates/low/{README.md,src/.lib.rt.swp} >>crates/unused/src/lib.rt <<<"# more" | ran
version | words=(--version) | grep -qx "proved where it was released, with the kit [0-9a-f]\{64\} kit 1" "$at/stdout"
other_source | low LOW | refused "made of other sources" && said "not on the PATH"
other_source_and_the_kit | low LOW; path=$kit/bin:$work/bin | ran low pdb_cli && said "made of other sources"
other_list_of_crates | sed -i "s/^low:/low: hex/" crates.txt | refused "made of other sources"
other_digest | sed -i "s/^program .*/program $(sha HANDLES)/" dist/RELEASE | refused "dist/pdb_cli.gz is not what dist/RELEASE names"
other_record | sed -i "s/^program /program /;1q" dist/RELEASE | refused "dist/RELEASE is no record"
other_machine | cp "$kit/bin/rt" "$at/else/bin/uname"; echo Linux aarch64 >"$at/orders/machine"; path=$at/else/bin:$path | refused "Linux x86_64, and this is Linux aarch64"
older_libc | repack "#!/bin/sh" "echo version GLIBC_2.99 not found >&2; exit 1" | refused "needs Linux on x86-64-v2 and a C library with GLIBC_2.2.5, doesn.t run here: version GLIBC_2.99 not found"
no_loader | repack "#!/no/loader" | refused "run here: it: "
dist_is_a_link | mv dist x; ln -s x dist | refused "dist is a link"
record_is_a_link | mv dist/RELEASE x; ln -s ../x dist/RELEASE | refused "dist/RELEASE is a link"
program_is_a_link | mv dist/pdb_cli.gz x; ln -s ../x dist/pdb_cli.gz | refused "dist/pdb_cli.gz is a link"
no_gzip | take_away gzip "$work/least"; path=$at/bin | refused "cannot be unpacked"
by_the_environment_none | by=("$env" PDB_PROVED_HERE=1 "$launcher") | refused "not on the PATH"
by_the_environment_proved | path=$kit/bin:$work/bin; by=("$env" PDB_PROVED_HERE=1 "$launcher") | ran low pdb_cli
by_the_environment_any | by=("$env" PDB_PROVED_HERE=0 "$launcher") | ran
read_only | chmod a-w . | ran && [ ! -e "$checkout/out" ] && [ -z "$(ls "$at/tmp")" ]
nowhere_to_write | chmod a-w . "$at/tmp" | refused "no folder can be made"'
released+=$'\n'$(
    for byte in 0 4 9 30 400; do echo "byte_$byte | turn dist/pdb_cli.gz $byte | refused 'dist/pdb_cli.gz is not what dist/RELEASE names'"; done
    for byte in 0 8 72 81 240; do echo "byte_${byte}_of_the_record | turn dist/RELEASE $byte | refused dist/"; done
)
# Starts in turn in one checkout, each with the list of the one before.
again='once_more | true | ran && [ ! -s "$at/stderr" ]
by_the_list | take_away sort "$work/least"; path=$at/bin | ran && [ ! -s "$at/stderr" ]
not_by_the_list | by=("$env" PDB_PROVED_HERE=1 "$launcher") | refused "not on the PATH"
kept_program_changed | echo "echo more" >>out/pdb_cli | ran
other_program_released | repack "#!/bin/sh" "echo other" | gave 0 other
other_source | low LOW | refused "made of other sources"'
# `prove-here`, where the kit is there.
proofs='same | true | [ "$status" = 0 ] && grep -qx "the program is that of dist/, byte for byte" "$at/stdout" && [ "$(calls begins)" = 2 ]
other_program | repack "#!/bin/sh" "echo other" | [ "$status" = 1 ] && said "the program is not that of dist/"
byte_turned | turn dist/pdb_cli.gz 30 | [ "$status" = 1 ] && said "is not what dist/RELEASE names"
other_source | low LOW | [ "$status" = 1 ] && said "made of other sources"
none | rm -r dist | [ "$status" = 1 ] && said "dist/ has no program"
not_proved | order refuse_low | refused "low is not proved"
no_kit | path=$work/least | refused "not on the PATH"'
make_released() { make_case "$1" "cp -r '$work/dist' . && path=\$work/least; $2"; }
try_released() { make_released "released_$1" "$2" && start && check "released, $1" "$3"; }
try_again() { enter released_fresh && path=$work/least && rest && do_there "$2" && start && check "released, $1" "$3"; }
try_proof() { make_released "proof_$1" "path=\$kit/bin:\$work/bin words=(prove-here); $2" && start && check "prove-here, $1" "$3"; }
group_released() {
    for_rows try_released "$released" && for_rows try_again "$again" && for_rows try_proof "$proofs"
    enter proof_same && words=(--version) && start
    check 'what prove-here has proved is run' 'grep -q "^proved here, with" "$at/stdout"'
    words=(prove-here) && start
    check 'prove-here takes nothing that is kept' '[ "$status" = 0 ] && [ "$(calls begins)" = 4 ]'
    make_released maker 'chmod a-w .' && words=(solve) && start_beside && eventually [ -e "$place/made.unkept" ] && kill "$going" && finish
    check 'what is unpacked for one start is removed by a signal too' '[ "$status" = 143 ] && [ -z "$(ls "$at/tmp")" ] && [ ! -e "$place/made.unkept" ]'
    local starts=() each
    make_released race true
    for each in {1..8}; do start_beside ".$each" && starts+=("$going"); done
    for each in {1..8}; do
        going=${starts[each - 1]} && finish && mv "$at/stdout.$each" "$at/stdout" && mv "$at/stderr.$each" "$at/stderr"
        check "released, start $each of 8 at once" ran
    done
}

# What whoever supplies out/ can put there: a program that is none, with a good record of it, but for the folder $1, if that is
# given.
plant() {
    mkdir -p out && printf '%s\n' '#!/bin/sh' 'echo evil' >out/pdb_cli && chmod +x out/pdb_cli
    as_launcher 'now=$(digest) && find_kit && printf "%s\n" "program $(sha256sum <"$program" | cut -c 1-64)" "sources ${now% *}" "kit $(name_kit)"' >x
    printf 'proved %s\n' "${1-$(as_launcher folder)}" | cat - x >out/built
}
attacks='committed | plant; commit | refused "git tracks files"
cloned | plant; commit; mv "$checkout" "$at/origin"; git clone -q "$at/origin" "$checkout" | refused "git tracks files"
copied | plant "1 1.000000000" | ran low pdb_cli
link | plant; mv out y; ln -s y out | refused "out is a link"'
try_attack() { make_case "attack_$1" "$2" && start && check "out/ that is $1" "$3"; }
group_attacks() {
    for_rows try_attack "$attacks"
    make_case own && start && rest && (cd "$checkout" && "${plain[@]}" "$env" HOME="$at" bash -c "$(declare -f commit) && commit") && start
    check 'out/ that is committed where it was made' 'refused "git tracks files"'
    [ "${#plain[@]}" != 0 ] || return
    make_case another 'plant; chmod 777 out' && chown -R 0:0 "$checkout/out" && rest && start
    check "out/ that is another user's" 'refused "cannot be written" && said "is another user.s, so nothing in it is taken"'
    make_released another_released 'plant; chmod 777 out; path=$work/least' && chown -R 0:0 "$checkout/out" && rest && start
    check "out/ that is another user's, beside dist/" 'ran && said "is another user.s, so nothing in it is taken" && grep -q evil "$checkout/out/pdb_cli"'
}

# The command that tests everything: its status and its last line.
gate() { by=("$checkout/.ci/run") && start && by=("$launcher") words=(sources); }
try_gate() { make_case "gate_$1" "words=(); $2" && gate && check ".ci/run, $1" "counted $3"; }
counted() { [ "$status" = "$1" ] && [ "$(tail -n 1 "$at/stdout")" = "$2 passed, $3 failed" ]; }
stale() { [ "$(tail -n 2 "$at/stdout" | head -n 1)" = 'dist/ has no program of these sources: tools/build/release.sh makes it' ]; }
gates='all_passes | true | 0 14 0 && stale && grep -q "^5 passed" "$at/stdout" && grep -q "^== [0-9]* s: env RT_JOBS=4 rt ci$" "$at/stdout" && [ "$(calls "^check_runs.sh$")$(calls "^check_page.py$")" = 11 ]
failure_of_rt_ci | answer rt 1 "4 passed, 1 failed" | 1 9 1
failure_of_the_runs | answer check_runs.sh 1 "2 passed, 1 failed" | 1 13 1
failure_of_the_page | answer check_page.py 1 "3 passed, 1 failed" | 1 13 1
failure_of_the_launcher | answer check_launcher.sh 1 "1 passed, 1 failed" | 1 13 1
failure_with_status_0 | answer check_runs.sh 0 "2 passed, 1 failed" | 1 13 1
status_that_is_not_0 | answer rt 1 "5 passed, 0 failed" | 1 10 1
script_that_breaks_off | answer check_runs.sh 0 "line 7: unbound variable" | 1 11 1
rt_ci_that_breaks_off | answer rt 0 Killed | 1 5 1
nothing_tried | answer check_runs.sh 0 "0 passed, 0 failed" | 1 11 1
no_program | order make_none | 1 7 1
gate_that_stops_at_once | order fail_at_once | 1 2 2
source_that_changes | order edit_once | 1 10 1
no_rt | path=$work/bin | 1 2 2
no_script | rm tools/checks/check_launcher.sh | 1 12 1
no_functions | rm tools/build/build.sh | 1 0 1
out_that_git_tracks | plant; commit | 1 2 1
released | cp -r "$work/dist" . | 0 15 0 && ! stale && grep -qx "the program is that of dist/, byte for byte" "$at/stdout"
byte_turned | cp -r "$work/dist" .; turn dist/pdb_cli.gz 30 | 1 14 1 && said "is not what dist/RELEASE names"
other_program_released | cp -r "$work/dist" .; repack "#!/bin/sh" "echo other" | 1 14 1 && said "is not that of dist/"
other_program_by_that_name | cp -r "$work/dist" .; name=$(sed -n 1p dist/RELEASE); repack "#!/bin/sh" "echo other"; sed -i "1s/.*/$name/" dist/RELEASE | 1 14 1 && said "is not that of dist/"
other_sources | cp -r "$work/dist" .; low LOW | 0 14 0 && stale
release | cp -r "$work/dist" .; words=(release) | 0 15 0 && [ "$(calls "^check_page.py --release$")" = 1 ]
release_of_other_sources | cp -r "$work/dist" .; low LOW; words=(release) | 1 14 1 && stale
other_word | words=(releases) | 2 0 0 || [ "$status" = 2 ]'
group_gates() {
    for_rows try_gate "$gates"
    enter gate_all_passes && start
    check "the launcher runs the gate's program, and builds nothing" 'ran pdb_cli'
    order fail_at_once && words=() && gate
    check 'the program of an earlier gate is not run' 'counted 1 2 2'
    enter gate_failure_of_rt_ci && start
    check 'the launcher takes over no program of a gate that failed' 'ran low pdb_cli pdb_cli'
    make_case gate_beside && start_two .ci/run 0 pdb_cli
    check "a start beside the gate runs the gate's program" 'ran pdb_cli'
}

# Makes dist/ by release.sh, of what is committed and was proved here alone, for the cases that have one.
make_release() {
    make_case template commit && by=("$checkout/tools/build/release.sh") words=() && start
    check 'nothing is released that is not proved' '[ "$status" = 1 ] && said "no program is kept" && [ ! -e "$checkout/dist" ]'
    by=("$launcher") words=(sources) && start && answer page.sh 1 "not made" && by=("$checkout/tools/build/release.sh") words=() && start
    check 'nothing is released where no page is made' '[ "$status" = 1 ] && [ ! -e "$checkout/dist" ]'
    answer page.sh 0 made && mkdir "$checkout/out/page" && echo '<!doctype html>' >"$checkout/out/page/pdb_cli.html" && start
    check 'what is proved is released' '[ "$status" = 0 ] && tail -n 5 "$at/stdout" | cmp -s - "$checkout/dist/RELEASE"' && cp -r "$checkout/dist" "$work"
    check 'the page is released too' 'cmp -s "$checkout/"{out/page,dist}/pdb_cli.html'
    by=("$launcher") && low LOW && start && by=("$checkout/tools/build/release.sh") && start
    check 'nothing is released that is not committed' '[ "$status" = 1 ] && said "other sources" && cmp -s "$work/dist/RELEASE" "$checkout/dist/RELEASE"'
}

groups=(edits failures firsts ends streams released attacks gates)
make_release >"$work/said"
for group in "${groups[@]}"; do { "group_$group"; echo "== all of $group"; } >"$work/said.$group" 2>&1 & done
wait
cat "$work/said" "${groups[@]/#/$work/said.}" | tee "$work/all"
passed=$(grep -c '^ok ' "$work/all") failed=$(grep -c '^FAILED ' "$work/all")
failed=$((failed + ${#groups[@]} - $(grep -c '^== all of ' "$work/all")))
echo "$passed passed, $failed failed"
[ "$failed" = 0 ]
