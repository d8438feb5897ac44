#!/usr/bin/env python3
"""Writes benches/plots/choosing.csv, of which benches/plots/plot_choosing.py draws docs/choosing.svg: how many boards
tools/choose_tables.py expects of each claim on the 24-puzzle in docs/results, over the tables of docs/RESULTS.md with their transposed
set, and over two sets that are chosen for it, or one with its transposed set where that leaves fewer.

    benches/measure/measure_fifty.py FOLDER

FOLDER has the tables 4326, 25368, 3247104 and 30277632 of side 5, each under its mask. A choice takes half a minute of processor time,
of few boards ten. Boards that the file has already are passed over; a line is added once its board is done.
"""

import csv
import pathlib
import re
import subprocess
import sys

ROOT = pathlib.Path(__file__).resolve().parents[2]
MASKS = ["4326", "25368", "3247104", "30277632"]
COLUMNS = ["number", "below", "known", "chosen", "masks"]


def claims():
    """The number of each board, the bound that is claimed, and the claim of it."""
    for file in sorted((ROOT / "docs/results").glob("korf_felner_2002*.csv")):
        with file.open() as rows:
            for row, claim in zip(csv.DictReader(rows), file.with_suffix(".claims").read_text().splitlines()):
                board = re.split(" [;:] ", claim)[0]
                yield row["number"], row["moves"], f"{board} : {row['moves']}\n"


def choose(claim, tables):
    """The boards expected over the tables of RESULTS, and over chosen ones, and the masks of these."""
    words = [ROOT / "tools/choose_tables.py", "-", "--memory", "9", "--tables", *tables]
    said = subprocess.run(words, input=claim, capture_output=True, text=True, check=True).stdout
    known = re.search(r" transposed .*, over (\S+) boards$", said, re.M)[1]
    chosen = re.search(r"^# claim 0, below \d+: (\S+) boards$", said, re.M)[1]
    return f"{float(known):.0f}", f"{float(chosen):.0f}", " ".join(re.findall(r"^\./pdb_cli make-table .* t(\d+) ", said, re.M))


def main():
    tables = [str(pathlib.Path(sys.argv[1]) / mask) for mask in MASKS]
    file = ROOT / "benches/plots/choosing.csv"
    if not file.exists():
        file.write_text(",".join(COLUMNS) + "\n")
    with file.open() as rows:
        done = {row["number"] for row in csv.DictReader(rows)}
    for number, below, claim in claims():
        if number not in done:
            row = ",".join((number, below, *choose(claim, tables)))
            with file.open("a") as out:
                out.write(row + "\n")


main()
