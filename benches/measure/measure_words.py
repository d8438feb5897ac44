#!/usr/bin/env python3
"""Measures searches over edge words: `prove` by one worker beside benches/peers/edge_kernel.c, in turns.

    benches/measure/measure_words.py FOLDER ROUNDS PROGRAM..

Programs are pdb_cli, of one version or of several. Tables that aren't in FOLDER yet are made there, by the first program, and
the kernel is compiled there. A run is given one claim CLAIMS times. Until the first answer the tables are checked and words
are made, so what is taken is the processor time from one answer to the next, but for the last one; the kernel tells that of each
of its searches. Printed are nanoseconds a board: the least, and the median in brackets. Slow phases of a machine last for minutes, so
look at the least, and only at what was measured in one run.
"""

import os
import pathlib
import re
import statistics
import subprocess
import sys
import time

ROOT = pathlib.Path(__file__).resolve().parents[2]
KERNEL = ROOT / "benches/peers/edge_kernel.c"
CLAIMS = 4
LONGEST = 12
# What is claimed, and the side and the masks of the tables, each set of which is taken with its transposed one.
CASES = (
    ("3 1 4 18 24 5 12 6 9 19 7 21 8 2 20 11 10 22 23 14 13 15 0 17 16 : 79", 5, (230, 17176, 1149952, 929792, 31457280)),
    ("15 2 12 11 14 13 9 5 1 3 8 7 0 10 6 4 : 65", 4, (818, 2252, 62464)),
)


def table_of(folder, program, side, mask):
    """The file of a table, made where it isn't there yet."""
    file = folder / f"table_{side}_{mask}"
    if not file.exists():
        subprocess.run([program, "make-table", str(side), str(mask), str(file)], check=True, stdout=subprocess.DEVNULL)
    return str(file)


def write_sets(file, count):
    """Writes the set of all tables, and the transposed one."""
    members = [str(number) for number in range(count)]
    file.write_text(f"set {' '.join(members)}\nset {' '.join(member + 't' for member in members)}\n")


def processor_seconds(process):
    """The seconds of processor time that a process has taken."""
    return time.clock_gettime((~process.pid << 3) | 2)


def seconds_of_program(program, claims, sets, tables):
    """The seconds of processor time from each answer of a run to the next, but for the last one: then the run may have ended."""
    words = [program, "prove", "--workers", "1", str(claims), str(sets), *tables]
    pages = {"GLIBC_TUNABLES": "glibc.malloc.hugetlb=1"}
    with subprocess.Popen(words, stdout=subprocess.PIPE, env={**pages, **os.environ}, text=True) as process:
        times = []
        for line in process.stdout:
            if line.startswith("bound "):
                times.append(processor_seconds(process) if len(times) + 1 < CLAIMS else None)
    if len(times) != CLAIMS:
        sys.exit(f"{program} has not answered each claim with a yes")
    return [after - before for before, after in zip(times, times[1:-1])]


def boards_and_seconds_of_kernel(kernel, claims, sets, tables):
    """How many boards the kernel expands for the claim, and the seconds of each search."""
    with open(claims) as lines:
        said = subprocess.run(
            [str(kernel), str(sets), "1", str(LONGEST), *tables], check=True, stdin=lines, stdout=subprocess.PIPE, text=True
        ).stdout
    found = re.findall(r"^boards (\d+) found 0 milliseconds ([\d.]+)$", said, re.MULTILINE)
    if len(found) != CLAIMS:
        sys.exit("the kernel has not refuted each claim")
    return int(found[0][0]), [float(milliseconds) / 1e3 for _, milliseconds in found]


def measure(folder, rounds, programs, kernel, case):
    """Prints a row for the kernel and for each program, on one claim."""
    claim, side, masks = case
    tables = [table_of(folder, programs[0], side, mask) for mask in masks]
    claims, sets = folder / "claims", folder / "sets"
    claims.write_text(f"{claim}\n" * CLAIMS)
    write_sets(sets, len(tables))
    boards, seconds = 0, {name: [] for name in ["kernel", *programs]}
    for _ in range(rounds):
        for program in programs:
            seconds[program] += seconds_of_program(program, claims, sets, tables)
        boards, searches = boards_and_seconds_of_kernel(kernel, claims, sets, tables)
        seconds["kernel"] += searches
    least = min(seconds["kernel"])
    for name, taken in seconds.items():
        one, middle = min(taken) / boards * 1e9, statistics.median(taken) / boards * 1e9
        print(f"| {claim} | {boards:,} | {name} | {one:.1f} ({middle:.1f}) | {min(taken) / least:.2f} |", flush=True)


def main():
    if len(sys.argv) < 4:
        sys.exit(__doc__)
    folder, rounds, programs = pathlib.Path(sys.argv[1]), int(sys.argv[2]), sys.argv[3:]
    kernel = folder / "edge_kernel"
    subprocess.run(["cc", "-O3", "-march=x86-64-v2", "-pthread", "-o", str(kernel), str(KERNEL)], check=True)
    print("| claim | boards | searched by | ns a board, least (median) | to the kernel |\n|---|---|---|---|---|")
    for case in CASES:
        measure(folder, rounds, programs, kernel, case)


if __name__ == "__main__":
    main()
