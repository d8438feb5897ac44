#!/usr/bin/env bash
# A task of a Slurm array that answers its share of the claims in the file `open`: of T tasks, numbered from 0, task I takes
# each Tth line from its own on. All processors that Slurm gives it share one run, and so one copy of the tables in memory.
#
#     sbatch --array=0-14 part.sbatch SETS TABLES.. [--goal last]
#
# Each answer is added to the task's file as soon as it is proved, so a task that is killed loses only the claim that it was
# at. One that Slurm starts again goes on from there: it claims what no line of `answers` has answered yet.
#
# It runs in a folder that all nodes see, which has `pdb_cli` (a copy of out/pdb_cli), `open`, the set text, the tables, and
# a folder `answers`. parts.sh makes `open` and `answers`, and submits this.
#SBATCH --job-name=parts
#SBATCH --output=answers/%A.%a.lines
#SBATCH --error=answers/%A.%a.errors
#SBATCH --open-mode=append
#SBATCH --requeue
set -uo pipefail

# The claims that a line of `answers` says yes to. A last line without its end is none: with the dot it fits no claim.
answered() {
    { cat answers/*.lines && echo .; } |
        sed -n "s|^part \\([0-9/]*\\) of bound \\([0-9]*\\) of \\([0-9 ]*\\)$end\$|\\3 : \\2 part \\1|p"
}

end=
[[ " $* " != *' --goal last '* ]] || end=' with the blank last'

share=$(sed -n "$((SLURM_ARRAY_TASK_ID + 1))~${SLURM_ARRAY_TASK_COUNT}p" open) || exit
claims=$(grep -vxFf <(answered) <<<"$share")
if [ -z "$claims" ]; then
    echo 'each claim of this share is answered' >&2
    exit
fi
workers=$((${SLURM_CPUS_ON_NODE:-1} < 64 ? ${SLURM_CPUS_ON_NODE:-1} : 64))
printf 'start %s, %s workers: open are %s of the %s claims of this share\n' "${SLURM_RESTART_COUNT:-0}" "$workers" \
    "$(wc -l <<<"$claims")" "$(wc -l <<<"$share")" >&2
exec ./pdb_cli prove - "$@" --workers "$workers" <<<"$claims"
