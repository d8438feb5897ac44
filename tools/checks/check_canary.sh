#!/usr/bin/env bash
# Has the scripts that check the program's runs check one that spoils a digit, a letter or a status (tools/checks/spoiled.sh). Each must
# tell a failure, and is ended then, so of most only the front runs.
#
#     tools/checks/check_canary.sh [PROGRAM]
#
# PROGRAM is the program that is spoiled; without it, that is what the launcher builds. A line is written for each script that tells no
# failure within its time, and last the line `N passed, M failed`. The status is 0 if all passed, 1 if one failed, and 2 where there is
# no program.
set -uo pipefail

root=$(dirname "$(dirname "$(dirname "$(readlink -f "${BASH_SOURCE[0]}")")")")
. "$root/tools/checks/runs.sh"
seconds=600

# What is spoiled of which command, and the words of a script, to which the program is added. What takes longest comes first.
spoils='output make-table check_sizes.sh
errors parts check_errors.sh
output prove check_runs.sh
output optimal check_runs.sh
status bound check_runs.sh
output table check_runs.sh
errors make-table check_errors.sh
status make-table check_limits.sh
status replay check_runs.sh
output solve check_work.sh
status prove check_work.sh
output solve check_tour.sh
output prove check_tour.sh
output prove check_choose.sh
output prove check_prove.py --every 100000
status table try_hostile.py --inputs 10 --program
output parts try_hostile.py --inputs 10 --program'

# Runs a script until it tells a failure, and keeps whether it does: try NUMBER KIND COMMAND SCRIPT WORD..
try() {
    local folder=$work/$1 output=$work/$1.output script
    mkdir "$folder" && : >"$output"
    export REAL=$bare SPOIL="$2 $3" SPOILED=$work/$1.spoiled TMPDIR=$folder
    timeout "$seconds" "$root/tools/checks/$4" "${@:5}" "$root/tools/checks/spoiled.sh" </dev/null >"$output" 2>&1 &
    script=$!
    until grep -q '^FAILED' "$output" || ! kill -0 "$script" 2>/dev/null; do sleep 0.2; done
    kill "$script" 2>/dev/null
    wait "$script"
    if [ -s "$SPOILED" ] && grep -q '^FAILED' "$output"; then
        echo passed
    else
        echo "FAILED: $4 tells no failure where the $2 of $3 is spoiled, but: $(tail -n 1 "$output")"
    fi >"$work/$1.told"
}

tried=0
while read -r words; do
    [ "$(jobs -rp | wc -l)" -lt 4 ] || wait -n
    tried=$((tried + 1))
    # shellcheck disable=SC2086
    try "$tried" $words &
done <<<"$spoils"
wait
cat "$work"/*.told | grep -v '^passed$'
passed=$(cat "$work"/*.told | grep -c '^passed$')
failed=$((tried - passed))

echo "$passed passed, $failed failed"
[ "$failed" = 0 ]
