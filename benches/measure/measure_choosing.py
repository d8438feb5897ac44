#!/usr/bin/env python3
"""Prints the tables of docs/CHOOSING.md: how many boards tools/choose_tables.py expects, beside those that `prove` expanded.

    benches/measure/measure_choosing.py FOLDER [NUMBER..] >measured.md

FOLDER has the tables 4326, 25368, 3247104 and 30277632 of side 5, each under its mask. The first table is of the boards of
docs/results/korf_felner_2002.csv, over these and their transposed sets. The second is of the boards of these NUMBERS: tables are
chosen for each alone, with room for one set, for one with its transposed, and for two.
"""

import csv
import pathlib
import re
import subprocess
import sys

ROOT = pathlib.Path(__file__).resolve().parents[2]
MASKS = ["4326", "25368", "3247104", "30277632"]
CHOICES = {"one set": ["--sets", "1"], "one set and its transposed": ["--memory", "6"], "two sets": ["--memory", "9"]}


def chosen(claims, *words):
    """What the chooser expects of these claims, a number each, and the lines that it writes."""
    run = subprocess.run([ROOT / "tools/choose_tables.py", "-", *words], input=claims, capture_output=True, text=True, check=True)
    expected = [float(it) for it in re.findall(r"^# claim \d+, below \d+: (\S+) boards$", run.stdout, re.M)]
    return expected, run.stdout.splitlines()


def main():
    folder, numbers = pathlib.Path(sys.argv[1]), sys.argv[2:]
    results = ROOT / "docs/results"
    rows = list(csv.DictReader((results / "korf_felner_2002.csv").open()))
    claims = (results / "korf_felner_2002.claims").read_text().splitlines(True)
    tables = [str(folder / mask) for mask in MASKS]
    expected, _ = chosen("".join(claims), "--take", ",".join(MASKS), "--width", "1000", "--tables", *tables)
    print("| no. | below | expected | boards | expected to boards |\n|---|---|---|---|---|")
    for row, boards in zip(rows, expected):
        print(f"| {row['number']} | {row['moves']} | {boards:.2g} | {int(row['boards']):,} | {boards / int(row['boards']):.2f} |")
    print("\n| no. | chosen | expected | memory | processor time |\n|---|---|---|---|---|")
    for row, claim in zip(rows, claims):
        for name, words in CHOICES.items() if row["number"] in numbers else ():
            (boards,), lines = chosen(claim, *words)
            memory, time = (line.split(": ", 1)[1] for line in lines if re.match("# (memory|processor time):", line))
            print(f"| {row['number']} | {name} | {boards:.2g} | {memory} | {time} |", flush=True)


main()
