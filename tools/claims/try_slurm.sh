#!/usr/bin/env bash
# Tries docs/CLUSTER.md on this machine alone. It sets up Slurm with two nodes, and runs the page's blocks in turn in an
# empty folder beside a checkout. Then comes what may happen on a cluster: a task that Slurm starts again after some
# answers, a task that is killed, and mistakes. By hand.
#
#     tools/claims/try_slurm.sh [PROGRAM]
#
# PROGRAM is out/pdb_cli where none is named. All of Slurm is set up from nothing in a folder of its own, which is removed
# at the end. It needs root, and Debian's packages slurmctld, slurmd, slurm-client, munge and parallel. Each command is
# shown, with what it writes. The status is 0 if all went as it should, which the last line then says.
set -euo pipefail

root=$(dirname "$(dirname "$(dirname "$(readlink -f "${BASH_SOURCE[0]}")")")")
program=$(readlink -f "${1-$root/out/pdb_cli}")
at=$(mktemp -d)
# Ends what was started, and removes the folder.
stop() {
    for file in "$at"/slurm/*.pid; do [ ! -s "$file" ] || kill "$(<"$file")" || true; done
    sleep 1
    rm -rf "$at"
}
trap stop EXIT

# Slurm, from nothing. A task that is started again waits for `cred_expire` seconds.
mkdir -p "$at"/slurm/{state,n1,n2} "$at/claim"
host=$(hostname -s)
cat >"$at/slurm/slurm.conf" <<CONF
ClusterName=desk
SlurmctldHost=$host(127.0.0.1)
SlurmctldPort=16817
SlurmUser=root
SlurmdUser=root
SlurmdParameters=config_overrides
AuthInfo=socket=$at/slurm/munge.socket,cred_expire=5
ProctrackType=proctrack/pgid
ReturnToService=2
SlurmctldPidFile=$at/slurm/slurmctld.pid
SlurmdPidFile=$at/slurm/%n.pid
SlurmdSpoolDir=$at/slurm/%n
StateSaveLocation=$at/slurm/state
SlurmctldLogFile=$at/slurm/slurmctld.log
SlurmdLogFile=$at/slurm/%n.log
TaskPlugin=task/none
SelectType=select/cons_tres
SelectTypeParameters=CR_CPU_Memory
JobAcctGatherType=jobacct_gather/none
NodeName=n1 NodeHostname=$host NodeAddr=127.0.0.1 Port=16821 CPUs=2 RealMemory=2000
NodeName=n2 NodeHostname=$host NodeAddr=127.0.0.1 Port=16822 CPUs=2 RealMemory=2000
PartitionName=all Nodes=n1,n2 Default=YES State=UP
CONF
(umask 077 && head -c 1024 /dev/urandom >"$at/slurm/key")
munged --force --key-file="$at/slurm/key" --socket="$at/slurm/munge.socket" --pid-file="$at/slurm/munge.pid" \
    --log-file="$at/slurm/munge.log" --seed-file="$at/slurm/seed"
export SLURM_CONF=$at/slurm/slurm.conf
slurmctld
slurmd -N n1
slurmd -N n2
until [ "$(sinfo --noheader --format=%D --states=idle)" = 2 ]; do sleep 1; done

# Shows a command, and runs it.
show() {
    printf '$ %s\n' "${1//$'\n'/$'\n$ '}"
    eval "$1"
}

# What must hold: shows the sentence $1 if the command behind it succeeds, and else ends.
must() {
    "${@:2}" || { echo "FAILED: $1"; exit 1; }
    echo "# $1"
}

# Whether file $1 has each line that begins with `part` in file $2, and has no such line twice.
keeps() {
    [ "$(grep ^part "$2" | grep -cvxFf "$1")" = 0 ] && [ "$(grep ^part "$1" | sort | uniq --repeated | wc -l)" = 0 ]
}

# Whether a command fails, and says the words $1 on standard error.
stops() {
    echo "\$ $2"
    if eval "$2" 2>said; then return 1; fi
    cat said && grep -q "$1" said
}

# The page beside a stand-in for a checkout.
mkdir -p "$at/pdb_cli/out"
ln -s "$root/tools" "$at/pdb_cli/tools"
ln -s "$program" "$at/pdb_cli/out/pdb_cli"
ln -s "$program" "$at/pdb_cli/pdb_cli"
cd "$at/claim"
show 'sinfo --format="%N %c %m %T"'
blocks=$(grep -c '^```bash$' "$root/docs/CLUSTER.md")
for ((i = 1; i <= blocks; i++)); do
    status=0
    show "$(awk -v wanted="$i" '/^```/ { into = /^```bash$/ && ++blocks == wanted; next } into' \
        "$root/docs/CLUSTER.md")" || status=$?
    # The last block has a claim that is false.
    must "block $i of the page ends with status $status" [ "$status" = "$((i == blocks))" ]
done

echo '# A task that Slurm starts again after three answers, and one that is killed.'
rm -r answers
: >run
run='./parts.sh --tasks 2 board 78 15 sbatch --exclusive --mem=1G --time=10 part.sbatch sets t0 t1 t2 t3'
show "$run >run &"
runner=$!
until job=$(sed -n 's/^Submitted batch job //p' run) && [ -n "$job" ] && [ -f "answers/$job.0.lines" ] &&
    [ "$(grep -c ^part "answers/$job.0.lines")" -ge 3 ]; do sleep 0.1; done
show 'squeue --format="%.8i %.4K %.9T %N"'
show "scontrol requeue ${job}_0"
show "scancel ${job}_1"
sleep 1
cp "answers/$job.0.lines" before
show "grep ^part answers/$job.0.lines"
wait "$runner" || true
show 'cat run'
show "cat answers/$job.0.errors"
must 'the task took up where it was' grep -q '^start 1, 2 workers: open are [1-5] of ' "answers/$job.0.errors"
show "grep ^part answers/$job.0.lines"
must 'what was answered before is kept, and not claimed again' keeps "answers/$job.0.lines" before
must 'the bound is said' grep -q '^joined bound 78 of .* from 15 parts, by lines that were read$' run

echo '# Many boards under Slurm.'
show "echo '14 1 9 6 4 8 12 5 7 2 3 0 10 11 13 15 : 45' >claims"
must 'all bounds hold' eval \
    "show './many_boards.py claims 7 --tasks 2 sbatch --exclusive --mem=1G --time=10 part.sbatch sets t0 t1 t2 t3'"

echo '# Mistakes end with a sentence.'
export PARTS_WAIT=1
tables='t0 t1 t2 t3'
must 'no board: nothing is sent' stops 'ended with status 2' './parts.sh no_board 78 15 echo sent'
must 'a board that is none: nothing is sent' stops 'ended with status 1' './parts.sh sets 78 15 echo sent'
must 'no set text' stops 'refused or failed' "./parts.sh --tasks 2 board 78 17 sbatch part.sbatch no_sets $tables"
must 'no tables among the words' stops 'answered no part' './parts.sh --tasks 2 board 78 17 sbatch part.sbatch sets'
show 'grep -hA 1 ^error: answers/*.errors | head -n 2'
must 'no such partition' stops 'answered no part' "./parts.sh board 78 17 sbatch -p big part.sbatch sets $tables"
show "echo '1 5 2 3 4 9 0 7 8 10 6 11 12 13 14 15' >near"
must 'a false bound' stops 'the bound is false' "./parts.sh near 7 1 ./pdb_cli prove - sets $tables"
echo 'all went as it should'
