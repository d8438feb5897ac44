#!/usr/bin/env bash
# Stands in for the command of the kit, or the script of .ci/run, under whose name tools/checks/check_launcher.sh has put it. An order
# is a file in the folder `orders`, and tells it what to do; the file `calls` there gets a line for each call. A crate is
# compiled to its text, with the texts of what it uses. Under the name `whole` it writes that of the program of the checkout $1.
shopt -s nullglob
at=$([[ $0 == /* ]] || echo "$PWD/")$0
[[ $at != */tools/@(build|checks)/* ]] || at=${at%/*}
at=${at%/*/*/*}
orders=$at/orders
is_ordered() { [ -e "$orders/$1" ]; }
end_if() { ! is_ordered "$1" || { echo "$3" && exit "$2"; }; }
once() { is_ordered "$1" && rm "$orders/$1"; }
note() { echo "$*" >>"$orders/calls"; }
edit() { echo 'fn edited' >>"$(echo "$at/a "*)/crates/low/src/lib.rt"; }
text() { (cd "$1" && cat "${0%/*/*}/KIT-ID" {src,specs}/{,*/}*.{rt,antt}); }
whole() {
    text "crates/$1"
    for name in $(grep "^$1:" crates.txt | cut -d : -f 2- | tr , ' '); do [ ! -d "crates/$name" ] || whole "$name"; done
}
# Does what may be ordered while a check is at work on the crate $1.
work_on() {
    [ -z "${RT_ALLOW_C+set}${RT_BACKEND+set}" ] || exit 2
    echo "$$" >>"$orders/processes"
    note "$1 begins"
    end_if fail_at_once 2 'error: nothing is made'
    if once edit_once || is_ordered edit; then edit; fi
    for _ in {1..4000}; do is_ordered hold || is_ordered "hold_$1" || break; sleep 0.05; done
    end_if "refuse_$1" 1 "fn $1::f: not proved"$'\nlogic=not-proved'
    ! once "fail_once_$1" || exit 2
    ! once "die_once_$1" || kill -KILL $$
}
# Ends the check of the crate $1 with the verdict that the build wants, or with that which is ordered.
judge() {
    local verdict
    verdict=$(sed -n "s/^verdict='\(.*\)'$/\1/p" ../../tools/build/build.sh)
    [ "$1" = pdb_cli ] || verdict="logic=proved functions=1 sum=${verdict#* sum=}"
    echo "fn $1::f: proved"
    note "$1 ends"
    if is_ordered "verdict_$1"; then cat "$orders/verdict_$1"; else echo "$verdict"; fi
}
# Makes the program $1 of the text on standard input.
make_program() {
    { printf '#!/usr/bin/env bash\nmade=%q\n' "$(cat)" && sed '1,/^# The program:/d' "$0"; } >"$1" && chmod +x "$1"
    ! is_ordered make_none || rm "$1"
    end_if fail_at_last 1 'error: what is made is wrong'
}
case ${0##*/} in
nproc) cat "$orders/processors" ;;
sed) if [[ $* == *MemAvailable* ]]; then set -- "$1" "$2" "$orders/"{memory,limit,held}; fi
    PATH=${PATH#*:} exec sed "$@" ;;
sleep) PATH=${PATH#*:} exec sleep "${1/60/1}" ;; # (a minute is a second)
du) PATH=${PATH#*:} exec du "${@/%.%N/}" ;; # (times in whole seconds)
uname) echo "$(<"$orders/machine")" ;;
whole) cd "$1" && whole pdb_cli ;;
rt)
    [ "$*" = ci ] && work_on pdb_cli && mkdir -p crates/pdb_cli/out && cat "$orders/rt" || exit
    whole pdb_cli | make_program crates/pdb_cli/out/pdb_cli && exit "$(cat "$orders/rt.status")"
    ;;
rattle)
    name=${PWD##*/} made="${*: -1}"
    : >"$TMPDIR/rattle.$$"
    [ "$1 $2 $3" = "build --crate-name $name" ] && [[ $name == pdb_cli || $* == *' --statements '* ]] || exit 2
    work_on "$name"
    if [ "$name" = pdb_cli ]; then (cd ../.. && find crates -type f) >"$orders/copy"; else mkdir "$made" && made+=/text; fi
    text . >"$made"
    for word; do
        case $word in
        std=* | hex=*) [ "${word#*=}" = "${0%/*/*}/rlibs/${word##*/}" ] || exit 2 ;;
        *=*.rlib) cat "${word#*=}/text" >>"$made" || exit 2 ;;
        esac
    done
    judge "$name"
    ;;
rattle-link) [ "$5" = -o ] && make_program "$6" <"$7" ;;
*) note "${0##*/}${*:+ $*}" && cat "$orders/${0##*/}" && exit "$(cat "$orders/${0##*/}.status")" ;;
esac
exit
# The program:
# shellcheck disable=SC2317
# It needs GLIBC_2.2.5 of the C library.
case ${1-} in
--version) echo 'pdb_cli 9' && tail -n 1 "$0" ;;
sources) printf '%s\n' "$made" ;;
words) [ "$#" = 1 ] || printf '%s\0' "${@:2}" ;;
status) exit "$2" ;;
kill) kill -TERM $$ ;;
copy) cat && echo 'on standard error' >&2 ;;
place) pwd ;;
environment) echo "${PDB_PROGRESS-not set} ${GLIBC_TUNABLES-not set}" ;;
make-table | solve) : >made.unkept && exec 9>made.unkept && for _ in {1..600}; do sleep 0.1; done ;;
'') echo "$# words" ;;
esac
exit
