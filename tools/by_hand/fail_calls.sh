#!/usr/bin/env bash
# Runs the program once for each of its system calls, with that one failing, for each way to fail below. Such a run must
# answer as the run does in which nothing fails, or tell the fault: `fault read NAME` or `fault write NAME` with status 2, or
# `no memory` with status 3, or with status 2 nothing, or of `prove` the first of its lines, where the lines can't be written.
# Where it tells a fault, it must leave its files as they were, those beside them with names that end in `.unkept` too; and
# otherwise as the run does in which nothing fails.
#
#     echo '3 2 1 0 ; ULDRUL' | tools/by_hand/fail_calls.sh
#     tools/by_hand/fail_calls.sh table FILE --workers 4 </dev/null
#
# Its arguments are the program's words, and its standard input is the program's. Names are those of files in the folder that
# it is called in, of which each run gets a copy, with what stands under the first names of their temporary files. It needs
# `strace`, `gdb` and `python3`, Debian's packages. The calls are those of the program's first thread, behind those by which the
# system starts it, and those of its other threads, in the order in which these make them, whichever it is. A line is written
# for each kind of call, with what was answered, and for each run that ends otherwise; last `N passed, M failed`. The status is 0
# if all passed, and otherwise not. The program is that of the variable PROGRAM, a path; without it, the launcher builds it where
# that is needed.
set -uo pipefail

# How each call may fail. Of `brk` the system tells no error, but that memory ends where it did. `munmap` is left out: glibc
# aborts where a thread's stack can't be given back, which Linux doesn't refuse of a whole mapping.
declare -A faults=(
    [read]='error=EIO error=EINTR' [openat]='error=EACCES error=EMFILE error=ENOMEM' [statx]=error=EIO [close]=error=EIO
    [write]='error=ENOSPC error=EPIPE error=EINTR retval=0' [mmap]=error=ENOMEM [mprotect]=error=ENOMEM [brk]=retval=0
    [clone3]='error=EAGAIN error=ENOSYS' [getrandom]='error=ENOSYS error=EAGAIN'
    [rt_sigaction]=error=EINVAL [rename]='error=EIO error=EACCES' [fsync]='error=EIO error=ENOSPC' [unlink]=error=EIO
)

root=$(dirname "$(dirname "$(dirname "$(readlink -f "${BASH_SOURCE[0]}")")")")
program=${PROGRAM-}
if [ -z "$program" ]; then
    "$root/pdb_cli" --help >/dev/null </dev/null || exit
    program=$root/out/pdb_cli
fi
work=$(mktemp -d) || exit
trap 'rm -r "$work"' EXIT

mkdir "$work/given" && cat >"$work/input"
for word in "$@"; do
    for file in "$word" "$word.unkept" "$word.1.unkept"; do
        [ ! -f "$file" ] || cp --parents -- "$file" "$work/given"
    done
done

# Names and digests of the files that a run has left.
list_files() {
    (cd "$work/files" && find . -type f -exec sha256sum {} + | sort)
}

# Runs a command by which the program is run, in a copy of the files.
run_by() {
    local status=0
    rm -rf "$work/files" && cp -a "$work/given" "$work/files"
    (cd "$work/files" && exec "$@") || status=$?
    echo "status $status" >>"$work/output"
    list_files >"$work/left"
}

# Runs the program with the words behind $1. $1 says which call of the first thread fails, and is empty where none does: then
# the calls of all threads are listed.
run() {
    local how=(-f)
    [ -z "$1" ] || how=(-e "inject=$1")
    run_by strace "${how[@]}" -q -o "$work/calls" "$program" "${@:2}" \
        <"$work/input" >"$work/output" 2>"$work/errors"
}

# Runs the program with the words behind $3, where the call $1 of another thread than the first fails by $2 that comes behind
# $before others. The status is not 0 where there was none.
run_thread() {
    local call=$1 result=$2 words='' streams
    [ "$#" = 2 ] || printf -v words '%q ' "${@:3}"
    printf -v streams '<%q >%q 2>%q' "$work/input" "$work/output" "$work/errors"
    [[ $result = retval=* ]] || result=$(python3 -c 'import errno, sys; print(-getattr(errno, sys.argv[1]))' "${result#*=}")
    SHELL=$BASH run_by gdb -batch -nx -q -ex "set \$before = $before" -ex "set \$result = ${result#*=}" \
        -ex "catch syscall $call" -ex "set args $words $streams" \
        -x "$root/tools/by_hand/fail_thread_call.gdb" "$program" </dev/null >"$work/debugger" 2>&1
    grep -q '^a call has failed' "$work/debugger"
}

# How often a call was made by the first thread, in the lines of standard input.
count_of() {
    grep -c "^$first *$1("
}

# Whether this is standard input's name, or one of the words behind it.
is_name() {
    local word
    for word in - "${@:2}"; do
        [ "$1" != "$word" ] || return 0
    done
    return 1
}

# Whether the run has left the files as this list has them.
has_left() {
    cmp -s "$work/left" "$work/$1"
}

# Whether the run has written the first of its lines, and ended with status 2. The line of a status has 9 bytes.
is_cut_short() {
    local bytes
    bytes=$(($(wc -c <"$work/output") - 9))
    [ "$(tail -n 1 "$work/output")" = 'status 2' ] && cmp -s -n "$bytes" "$work/output" "$work/own_answer"
}

# Sets `told` to what the run with the words behind $1 has answered, in which the call $1 failed; its status is not 0 where
# that is no right answer, or the run has left other files than it may.
judge() {
    local lines=()
    mapfile -t lines <"$work/output"
    told='something else'
    # A sentence that says why may be wanting.
    ! grep -qv '^pdb_cli: ' "$work/errors" || return
    if cmp -s "$work/output" "$work/own_answer"; then
        told='its own answer'
        has_left after
    elif [ "${lines[*]}" = 'no memory status 3' ]; then
        told='no memory'
        has_left before
    elif [[ ${lines[0]} =~ ^(fault\ (read|write))\ (.*)$ && ${lines[*]:1} = 'status 2' ]] &&
        is_name "${BASH_REMATCH[3]}" "${@:2}"; then
        told=${BASH_REMATCH[1]}
        has_left before
    elif [ "$1 ${lines[*]}" = 'write status 2' ]; then
        told='nothing, status 2'
        has_left after
    elif [ "$1 $2" = 'write prove' ] && is_cut_short; then
        told='its first lines, status 2'
        has_left after
    else
        return 1
    fi
}

run '' "$@"
if ! grep -q SIGPIPE "$work/calls"; then
    echo 'strace is not there, or may not follow the program'
    exit 1
fi
mv "$work/output" "$work/own_answer"
mv "$work/left" "$work/after"
mv "$work/calls" "$work/own_calls"
rm -rf "$work/files" && cp -a "$work/given" "$work/files" && list_files >"$work/before"
read -r first _ <"$work/own_calls"

passed=0
failed=0

# Counts a run, with the program's words behind $2: $1 is the call that failed, and $2 says how.
count() {
    if judge "$1" "${@:3}"; then
        passed=$((passed + 1))
    else
        failed=$((failed + 1))
        printf 'FAILED: %s %s:\n' "$1" "$2"
        cat "$work/output" "$work/errors" "$work/left"
    fi
    answers[$told]=$((${answers[$told]-0} + 1))
}

# Has each call $1 of the program fail in the way $2, with the program's words behind them.
fail_each() {
    local call=$1 fault=$2 number from to before=0
    local -A answers=()
    shift 2
    # The program's own calls begin where it turns off the signal of a closed pipe.
    from=$(sed '/SIGPIPE/Q' "$work/own_calls" | count_of "$call")
    to=$(count_of "$call" <"$work/own_calls")
    for ((number = from + 1; number <= to; number++)); do
        run "$call:$fault:when=$number" "$@"
        count "$call" "$fault, call $number" "$@"
    done
    if [ "$(grep -v "^$first " "$work/own_calls" | grep -c "^[0-9]* *$call(")" != 0 ]; then
        while run_thread "$call" "$fault" "$@"; do
            before=$((before + 1))
            count "$call" "$fault, call $before of other threads" "$@"
        done
        if [ "$before" = 0 ]; then
            failed=$((failed + 1))
            echo "FAILED: $call $fault: other threads make that call, and gdb has none of theirs fail"
        fi
    fi
    for told in "${!answers[@]}"; do
        echo "$call $fault: ${answers[$told]} times $told" >>"$work/table"
    done
}

: >"$work/table"
for call in "${!faults[@]}"; do
    for fault in ${faults[$call]}; do
        fail_each "$call" "$fault" "$@"
    done
done
sort "$work/table"
echo "$passed passed, $failed failed"
[ "$passed" != 0 ] && [ "$failed" = 0 ]
