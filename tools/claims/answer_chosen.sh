#!/usr/bin/env bash
# Answers the claim of docs/results/korf_felner_2002_chosen.claims on the board of this number, over the tables that were chosen for it,
# and compares what is written with docs/results.
#
#     tools/claims/answer_chosen.sh NUMBER [WORKERS]
#
# NUMBER is that of docs/RESULTS.md, and there are 4 workers where no number is said. Tables, sets and the claim are made in the folder
# that it is run in: a table as `tMASK`, where no file is there yet. A run takes up to 9 GB of memory, and its tables up to 7.2 GB of the
# disk. The status is 0 where all lines are the same, 1 where they differ or a run failed, and 2 where the words are wrong.
set -uo pipefail

root=$(dirname "$(dirname "$(dirname "$(readlink -f "${BASH_SOURCE[0]}")")")")
results=$root/docs/results/korf_felner_2002_chosen
number=${1:-}
workers=${2:-4}
if [ $# -gt 2 ] || ! line=$(grep -n "^$number," "$results.csv") || [[ ! $number =~ ^[0-9]+$ ]]; then
    echo 'usage: tools/claims/answer_chosen.sh NUMBER [WORKERS], where NUMBER is one of docs/results/korf_felner_2002_chosen.csv' >&2
    exit 2
fi
# The first line of the file names its columns.
place=$((${line%%:*} - 1))
IFS=, read -r _ _ _ _ masks sets <<<"$line"
read -ra masks <<<"$masks"

for mask in "${masks[@]}"; do
    [ -e "t$mask" ] || "$root/pdb_cli" make-table 5 "$mask" "t$mask" --workers "$workers" || exit 1
done
IFS=';' read -ra lines <<<"$sets"
printf 'set %s\n' "${lines[@]}" >sets && sed -n "${place}p" "$results.claims" >claims || exit 1
"$root/pdb_cli" prove claims sets "${masks[@]/#/t}" --workers "$workers" |
    diff - <(awk -v place="$place" '{ block = block $0 "\n" } !/^sha256 / { if (++count == place) printf "%s", block; block = "" }' "$results.answers") || exit 1
