#!/usr/bin/env python3
"""Prints README's table of sizes and times: what it takes to make and to check tables of the 15- and the 24-puzzle. Writes
the numbers to benches/plots/sizes.csv too, of which benches/plots/plot_sizes.py draws docs/sizes.svg.

    benches/measure/measure_sizes.py PROGRAM FOLDER [ROUNDS]

For each table it makes the file in FOLDER, which wants 4.2 GB of room, and checks it by one and by four workers. What the
digest alone takes is measured on the same bytes with a wrong byte in the header: such a file is refused behind its digest.
Runs are taken in turns, ROUNDS times (3 where nothing is said); given is the least. Times are the wall clock's, from the
start of the process to its end, with the file in the system's cache; memory is the most that was resident.
"""

import csv
import os
import pathlib
import subprocess
import sys
import time

TABLES = ((4, 62), (4, 126), (4, 254), (4, 510), (5, 62), (5, 126))
WRONG_PLACE = 7


def run(words):
    """The seconds that a run takes, and the most bytes that were resident."""
    begin = time.monotonic()
    process = subprocess.Popen(words, stdout=subprocess.DEVNULL)
    _, status, usage = os.wait4(process.pid, 0)
    seconds = time.monotonic() - begin
    if os.waitstatus_to_exitcode(status) not in (0, 1):
        sys.exit(f"{' '.join(words)} failed")
    return seconds, usage.ru_maxrss * 1024


def set_byte(file, place, value):
    """Changes one byte of a file."""
    with open(file, "r+b") as it:
        it.seek(place)
        it.write(bytes((value,)))


def least(runs):
    return min(seconds for seconds, _ in runs)


def measure(program, folder, side, mask, rounds):
    """What is measured of one table, by the names of the columns of sizes.csv, and the peaks of memory to check and to make."""
    file = folder / f"table_{side}_{mask}"
    check = [program, "table", str(file)]
    made, by_one, by_four, digests = [], [], [], []
    for _ in range(rounds):
        made.append(run([program, "make-table", str(side), str(mask), str(file), "--workers", "4"]))
        by_one.append(run([*check]))
        by_four.append(run([*check, "--workers", "4"]))
        set_byte(file, WRONG_PLACE, 1)
        digests.append(run(check))
        set_byte(file, WRONG_PLACE, 0)
    size = file.stat().st_size
    file.unlink()
    found = {
        "side": side,
        "mask": mask,
        "megabytes": size / 1e6,
        "make": least(made),
        "check_by_1": least(by_one),
        "check_by_4": least(by_four),
        "to_digest": least(by_four) / least(digests),
    }
    return found, max(peak for _, peak in by_four), max(peak for _, peak in made)


def line(found, check_peak, make_peak):
    """One line of the table."""
    return (
        "| {puzzle}: {tiles} tiles ({side}, {mask}) | {megabytes:,.0f} MB | {check:.2f} GB | {build:.2f} GB "
        "| {make:.1f} s | {check_by_1:.1f} s | {check_by_4:.1f} s | {to_digest:.1f} |"
    ).format(
        puzzle=found["side"] ** 2 - 1,
        tiles=found["mask"].bit_count(),
        check=check_peak / 1e9,
        build=make_peak / 1e9,
        **found,
    )


def write_numbers(rows):
    """Writes sizes.csv, with times to a hundredth of a second."""
    with (pathlib.Path(__file__).resolve().parents[1] / "plots/sizes.csv").open("w", newline="") as file:
        numbers = csv.DictWriter(file, rows[0].keys(), lineterminator="\n")
        numbers.writeheader()
        for row in rows:
            numbers.writerow({name: f"{it:.2f}" if isinstance(it, float) else it for name, it in row.items()})


def main():
    program, folder = os.path.realpath(sys.argv[1]), pathlib.Path(sys.argv[2])
    rounds = int(sys.argv[3]) if len(sys.argv) > 3 else 3
    print("| table | file | memory to check | memory to make | to make | to check, 1 worker | 4 workers | 4 workers to the digest |")
    print("|---|---|---|---|---|---|---|---|")
    rows = []
    for side, mask in TABLES:
        found, check_peak, make_peak = measure(program, folder, side, mask, rounds)
        print(line(found, check_peak, make_peak), flush=True)
        rows.append(found)
    write_numbers(rows)


main()
