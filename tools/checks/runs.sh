# Checks of the program's runs: what it writes, where it writes it, and its status. To be sourced by a script of bash whose only word,
# if it has one, is the program to run; without it, that is the launcher, which builds what is not built. The script has `root`, the
# folder of the repository, and then `passed` and `failed`; its folder is an empty one of its own, `files` in the folder `work`.
#
# The status is 2 where there is no program to run.

if [ "$#" -gt 1 ]; then
    echo "usage: $0 [PROGRAM]" >&2
    exit 2
fi
program=$(readlink -f "${1-$root/pdb_cli}")
if ! "$program" --help >/dev/null; then
    echo "there is no program to run: $program --help fails" >&2
    exit 2
fi
# The program itself, where bash's own need of memory is not to count.
bare=${1+$program}
bare=${bare:-$root/out/pdb_cli}

work=$(mktemp -d) || exit 2
trap 'rm -r "$work"' EXIT
mkdir "$work/files"
cd "$work/files" || exit 2
passed=0
failed=0
input=/dev/null
# How many lines a run of `parts` skips, as `1 of 5`, where it skips any, and the first, as `line 2 of F: x`; and of how many open
# parts a budget ended the search.
skipped=
first=
ended=

# Runs the program with these words, and keeps what it writes and its status.
run() {
    status=0
    "$program" "$@" <"$input" >"$work/output" 2>"$work/errors" || status=$?
}

# Counts a check, whose name is $1, by the status of the words behind it. Without any it fails.
check() {
    local name=$1
    shift
    if [ "$#" != 0 ] && "$@"; then
        passed=$((passed + 1))
        return
    fi
    failed=$((failed + 1))
    printf 'FAILED: %s: status %s; standard output: %s; standard error: %s\n' \
        "$name" "$status" "$(head -c 400 "$work/output" | tr '\n' '|')" "$(head -c 400 "$work/errors" | tr '\n' '|')"
}

# Whether standard error has nothing, or, where the answer was no yes, one sentence that says why; and before that, of an answer for
# which lines are skipped or a budget ended searches, the lines that say of how many, and which is the first.
told_at_most_why() {
    local besides=$work/errors lines=()
    if [ "$status" -lt 2 ]; then
        [ -z "$skipped" ] || lines+=("pdb_cli: lines that tell of no part of this bound, and were skipped: $skipped"
            "pdb_cli: the first of them is $first")
        [ -z "$ended" ] || lines+=("pdb_cli: parts that are open since a budget ended their search: $ended")
    fi
    if [ "${#lines[@]}" != 0 ]; then
        head -n "${#lines[@]}" "$work/errors" | cmp -s - <(printf '%s\n' "${lines[@]}") || return
        besides=$work/besides
        tail -n +$((${#lines[@]} + 1)) "$work/errors" >"$besides"
    fi
    [ ! -s "$besides" ] || { [ "$status" != 0 ] && [ "$(sed 's/^pdb_cli: .*/sentence/' "$besides")" = sentence ]; }
}

# Whether the run ended with status $1, wrote exactly the lines behind it, and to standard error at most why.
wrote() {
    local wanted=$1
    shift
    [ "$status" = "$wanted" ] && told_at_most_why && printf '%s\n' "$@" | cmp -s - "$work/output"
}

# A run with the words behind `:` must write these lines with this status: expect NAME STATUS LINE.. : WORD..
expect() {
    local name=$1 wanted=$2 lines=()
    shift 2
    while [ "$1" != : ]; do
        lines+=("$1")
        shift
    done
    shift
    run "$@"
    check "$name" wrote "$wanted" "${lines[@]}"
}

# Answers must be joined by their digests and this line: joins NAME LINE BOARD N K ANSWERS.. [--goal last]
joins() {
    local name=$1 line=$2 lines=() file digest
    shift 2
    for file in "${@:4}"; do
        [ "$file" != --goal ] || break
        digest=$(sha256sum <"$file")
        lines+=("sha256 ${digest%% *}")
    done
    expect "$name" 0 "${lines[@]}" "$line" : parts "$@"
}

# A table file must be answered by its digest and this line: table NAME STATUS LINE WORD..
table() {
    local digest
    digest=$(sha256sum <"$1")
    expect "table $1 ${*:4}" "$2" "sha256 ${digest%% *}" "$3" : table "$1" "${@:4}"
}

# Whether the run ended with this line and the status that goes with it, and standard error has these lines behind `pdb_cli: ` and
# nothing else: told_whole LINE SENTENCE..
told_whole() {
    local line=$1 wanted=0
    shift
    case $line in
    refused* | [0-9]*) wanted=1 ;;
    fault*) wanted=2 ;;
    'no memory') wanted=3 ;;
    esac
    [ "$status" = "$wanted" ] && [ "$(tail -n 1 "$work/output")" = "$line" ] &&
        { [ "$#" = 0 ] || printf 'pdb_cli: %s\n' "$@"; } | cmp -s - "$work/errors"
}

# A run must be told so: says LINE WORDS SENTENCE.. The words have spaces between them; where the first is `<NAME`, that file is the
# standard input.
says() {
    local line=$1 words=()
    read -ra words <<<"$2"
    shift 2
    if [[ ${words[0]} == '<'* ]]; then
        input=${words[0]#<}
        words=("${words[@]:1}")
    fi
    run "${words[@]}"
    input=/dev/null
    check "all that ${words[*]} tells" told_whole "$line" "$@"
}

# The byte $2 of the file $1 becomes $3, in hexadecimal.
change() {
    printf '%b' "\\x$3" | dd of="$1" bs=1 seek="$2" conv=notrunc status=none
}

# Makes the library that is preloaded under this name.
make_preload() {
    cc -O1 -shared -fPIC -o "$work/$1.so" "$root/tools/preload/$1.c" || exit 2
}

# Runs the program with the words behind $1 while threads are held until $1 of them are at work at once, and sets `most` to the most
# that ever were.
hold() {
    status=0
    (export PDB_PROGRESS=1 THREADS=$1 LD_PRELOAD=$work/hold_threads.so && exec "$bare" "${@:2}") \
        >"$work/output" 2>"$work/errors" 9>"$work/held" || status=$?
    most=$(wc -c <"$work/held")
}

# A run with the words behind $2 must have $1 threads at work at once in one stage, and end with the line $2, a yes:
# held THREADS LINE WORD..
held() {
    hold "$1" "${@:3}"
    check "$1 workers at once: ${*:3}" [ "$status.$(tail -n 1 "$work/output").$most" = "0.$2.$1" ]
}
