#!/usr/bin/env python3
"""Runs the gate and prints, as a Markdown table, the processor seconds that each crate cost in it: its check and its tests
from nothing, and its edits that must fail.

Usage: tools/by_hand/time_gate.py [COMMAND WORD..]; without COMMAND it is `rt ci --anew`, which takes over nothing that an earlier
run has proved. A kit before rattle-kit-13f takes nothing over, and has no such word: there give `rt ci`. By hand, on an idle
machine. What the command writes goes through, the table comes behind it, and the status is the command's. The seconds are
those of the checker's processes, read every half second, so each process may be half a second short; those of edits have the
check in them over which a crate's edits are tried.
"""

import collections
import os
import subprocess
import sys
import time

TICKS = os.sysconf("SC_CLK_TCK")
KINDS = ("check", "tests", "edits")
PAUSE = 0.5


def stat_of(pid):
    """The parent of a process, when it began, and its processor seconds."""
    with open(f"/proc/{pid}/stat") as file:
        fields = file.read().rpartition(")")[2].split()
    return int(fields[1]), int(fields[19]), (int(fields[11]) + int(fields[12])) / TICKS


def work_of(pid):
    """The crate that a process of the checker works on and what for, or None of another process."""
    with open(f"/proc/{pid}/cmdline", "rb") as file:
        words = file.read().decode(errors="replace").split("\0")
    if "--crate-name" not in words or os.path.basename(words[0]) != "rattle":
        return None
    crate = words[words.index("--crate-name") + 1]
    if "rt-edit-" in os.readlink(f"/proc/{pid}/cwd"):
        return crate, "edits"
    return crate, "tests" if "--test" in words else "check"


def processes():
    """What is known of each process."""
    found = {}
    for name in filter(str.isdigit, os.listdir("/proc")):
        try:
            found[int(name)] = stat_of(name)
        except OSError:
            pass
    return found


def is_below(pid, root, found):
    """Whether a process stands below another."""
    while pid in found and pid != root:
        pid = found[pid][0]
    return pid == root


def look(root, spent):
    """Notes what the checker's processes below the root have spent so far."""
    found = processes()
    for pid, (_, began, seconds) in found.items():
        if not is_below(pid, root, found):
            continue
        try:
            work = work_of(pid)
        except OSError:
            continue
        if work:
            spent[pid, began, work] = seconds


def line(name, seconds):
    """A line of the table, with the sum of these seconds behind them."""
    return f"| {name} | " + " | ".join(f"{each:,.0f}" for each in [*seconds, sum(seconds)]) + " |"


def table(spent):
    """The lines of the table, the dearest crate first."""
    sums = collections.defaultdict(lambda: dict.fromkeys(KINDS, 0))
    for (_, _, (crate, kind)), seconds in spent.items():
        sums[crate][kind] += seconds
    yield "| crate | " + " | ".join(KINDS) + " | all |"
    yield "|---|" + "---|" * len(KINDS) + "---|"
    for crate, row in sorted(sums.items(), key=lambda item: -sum(item[1].values())):
        yield line(f"`{crate}`", [row[kind] for kind in KINDS])
    yield line("all", [sum(row[kind] for row in sums.values()) for kind in KINDS])


def main():
    root = os.path.dirname(os.path.dirname(os.path.dirname(os.path.abspath(__file__))))
    began = time.monotonic()
    command = subprocess.Popen(sys.argv[1:] or ["rt", "ci", "--anew"], cwd=root)
    spent = {}
    while command.poll() is None:
        look(command.pid, spent)
        time.sleep(PAUSE)
    print(f"\n{(time.monotonic() - began) / 60:.0f} minutes\n", *table(spent), sep="\n")
    return command.returncode


if __name__ == "__main__":
    sys.exit(main())
