#!/usr/bin/env bash
# Has the parts of a bound answered, round after round, until they say the bound.
#
#     parts.sh [--tasks T] [--goal last] BOARD N K COMMAND..
#
# In each round the claims of the parts that are still open go to the file `open`, and COMMAND has them answered. It reads
# the claims and writes the answers; or it is `sbatch .. part.sbatch SETS TABLES..`, whose array then has a task for each
# open claim, but at most T tasks. What it writes is shown, and kept in answers/command.lines and answers/command.errors. The
# goal is handed on to `parts`, and to COMMAND as its last words.
#
# It runs in a folder with the file BOARD and `pdb_cli` (a copy of out/pdb_cli). It makes the folder `answers` there, and
# reads the files answers/*.lines. It may be stopped and started again; one at a time in a folder. The status is 0 if the
# bound is said. It stops with a sentence and the status 1 where `parts` fails or says that the bound is false, where a line of
# the round says that something is refused or has failed, and where a round answers nothing.
set -uo pipefail
shopt -s nullglob

# Says why it stops, and stops.
stop() {
    printf 'parts.sh: %s\n' "$1" >&2
    exit 1
}

# Writes the claims of the open parts to `open`, and sets `count` to how many they are. Where none is open it says the
# bound, and ends.
find_open() {
    local status=0 said
    said=$(./pdb_cli parts "$board" "$bound" "$parts" /dev/null answers/*.lines "${goal[@]}" 2>&1 >open.new) || status=$?
    if grep '^refused O2 by ' open.new; then
        rm -f open.new
        stop 'the bound is false: these moves are fewer'
    fi
    if [ "$status" != 1 ] || ! grep -q ' part ' open.new; then
        cat open.new
        rm -f open.new
        [ "$status" != 0 ] || { rm -f open && exit; }
        [ -z "$said" ] || printf '%s\n' "$said" >&2
        stop "\`parts\` ended with status $status and names no open part, so nothing is sent"
    fi
    # A task that reads `open` meanwhile has the old or the new one.
    mv open.new open || stop 'the file open cannot be written'
    count=$(wc -l <open)
}

# The lines of all answers that say what is refused, or has failed, in order.
find_trouble() {
    cat /dev/null answers/*.lines | grep -E '^(refused|fault|no memory)' | sort
}

most=0 goal=()
while [[ ${1-} == --* ]]; do
    case $1 in
    --tasks) most=${2-} ;;
    --goal) goal=(--goal "${2-}") ;;
    *) break ;;
    esac
    shift 2 || shift
done
if [ "$#" -lt 4 ] || [[ ! $most =~ ^(0|[1-9][0-9]{0,4})$ ]]; then
    echo 'usage: parts.sh [--tasks T] [--goal last] BOARD N K COMMAND..' >&2
    exit 2
fi
board=$1 bound=$2 parts=$3
shift 3
mkdir -p answers || stop 'there is no folder answers, and it cannot be made'
known=$(find_trouble)
find_open
for ((round = 1; ; round++)); do
    tasks=$((most > 0 && most < count ? most : count)) before=$count
    echo "round $round: $count of $parts parts open$( ((most == 0)) || echo ", tasks: $tasks")"
    status=0
    # These two are what sbatch reads in place of --wait and --array.
    SBATCH_WAIT=1 SBATCH_ARRAY_INX=0-$((tasks - 1)) "$@" "${goal[@]}" <open 2> >(tee -a answers/command.errors >&2) |
        tee -a answers/command.lines || status=$?
    find_open
    trouble=$(comm -13 <(echo "$known") <(find_trouble) | uniq)
    if [ -n "$trouble" ]; then
        printf '%s\n' "$trouble"
        stop "that is refused or failed, so it stops here, with $count of $parts parts open"
    fi
    if ((count >= before)); then
        # Over a network a file may be seen late.
        sleep "${PARTS_WAIT-30}"
        find_open
    fi
    ((count < before)) || stop "round $round answered no part, and its command ended with status $status, so it \
stops here, with $count of $parts parts open: answers/*.errors may say why"
done
