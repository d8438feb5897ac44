#!/usr/bin/env python3
"""Prints docs/RESULTS.md: the boards of the literature whose shortest solutions are proved, by the answers kept in docs/results.

    tools/claims/make_results.py >docs/RESULTS.md

NAME.claims has boards and moves, as `prove` reads them, and NAME.answers is what it wrote. NAME.csv has a line for each claim: its
number in the literature, the moves that it is said to have there, and how many boards the last search expanded, which found no shorter
solution, or nothing where that were fewer than 65,536; of a board with tables of its own also the seconds of processor time, the masks of
the tables and the sets, with `;` between them. The files must agree, and the moves must solve the boards.
"""

import csv
import pathlib
import re
import sys

sys.path.insert(0, str(pathlib.Path(__file__).resolve().parents[1] / "plain"))

from plain_answers import goal, moved, side_of

ROOT = pathlib.Path(__file__).resolve().parents[2]
INTRODUCTION = """\
# Boards of the literature

Each board here has a solution of so many moves, and none of fewer. `prove` says so, and that it says so only where it is true is [proved](../README.md#what-is-proved). The run that answers checks the tables too, whoever made them.

The boards, and the lengths that the papers are said to give, were written down from memory, and none has been compared with its paper. That `prove` finds just these lengths speaks for them; compare a board with its paper before you cite it as the paper's.

The blank is first in the goal board. `tools/claims/show_solution.py` shows the solutions of answers, move by move.
"""
KORF = """\
## The 15-puzzle: Korf's hundred boards

Korf (1985) published them with his search by iterative deepening, the first that found their shortest solutions. They have {least} to {most} moves. The files: [boards and moves](results/korf_1985.claims), [answers](results/korf_1985.answers), and [how many boards](results/korf_1985.csv) the last search expands, which finds no shorter solution, if 65,536 or more. This makes the tables and compares all hundred answers, in less than 20 seconds:

```
./pdb_cli make-table 4 tiles:1,5,6,9,10,13 left
./pdb_cli make-table 4 tiles:7,8,11,12,14,15 right
./pdb_cli make-table 4 tiles:2,3,4 top
printf 'set 0 1 2\\nset 0t 1t 2t\\n' >sets
./pdb_cli prove docs/results/korf_1985.claims sets left right top --workers 4 | diff - docs/results/korf_1985.answers
```
"""
KORF_AND_FELNER = """\
## The 24-puzzle: {count} boards of Korf and Felner

These are {count} of the fifty random boards of Korf and Felner (2002), with solutions of {least} to {most} moves. The files: [boards and moves](results/korf_felner_2002.claims), and [answers](results/korf_felner_2002.answers). The tables have 3.6 GB, and the run takes 4.9 GB:

```
./pdb_cli make-table 5 tiles:1,2,5,6,7,12 t0 --workers 4
./pdb_cli make-table 5 tiles:3,4,8,9,13,14 t1 --workers 4
./pdb_cli make-table 5 tiles:10,11,15,16,20,21 t2 --workers 4
./pdb_cli make-table 5 tiles:17,18,19,22,23,24 t3 --workers 4
printf 'set 0 1 2 3\\nset 0t 1t 2t 3t\\n' >sets
./pdb_cli prove docs/results/korf_felner_2002.claims sets t0 t1 t2 t3 --workers 4 |
    diff - docs/results/korf_felner_2002.answers
```

The last searches expand {boards} boards in all. Several runs wrote these answers, each by four workers, in 2.8 hours of processor time together. Of that 1.8 hours went into six boards, of which `prove` found the moves of numbers 24, 41, 42, 45 and 49 from the board alone. Some counts were noted within a percent.
"""
CHOSEN = """\
## The 24-puzzle: {count} boards over chosen tables

These boards of Korf and Felner have solutions of {least} to {most} moves. Tables were [chosen](CHOOSING.md) for each, since those above leave more boards. The files: [boards and moves](results/korf_felner_2002_chosen.claims), [answers](results/korf_felner_2002_chosen.answers) with the digests of the tables, and their [masks and sets](results/korf_felner_2002_chosen.csv). One command makes the tables of a board, answers its claim and compares, here number {first}; it takes up to 9 GB of memory, and 7.2 GB of the disk:

```
tools/claims/answer_chosen.sh {first}
```

The last searches expand {boards} boards in all, noted within a percent. The runs took {hours:.1f} hours of processor time, beside other work.
"""
OPEN = """\
## {count} boards of Korf and Felner that are open

Nothing is proved here of these. Below are the lengths that they are said to have, and how many boards [`tools/choose_tables.py`](CHOOSING.md) expects that the tables above leave of a search for fewer moves; chosen tables may leave less. The [claims](results/korf_felner_2002_open.claims) stand in this order. So each goes on, here the first:

```
sed -n 1p docs/results/korf_felner_2002_open.claims >claims
tools/choose_tables.py claims --memory 9 >run.sh
sh run.sh
```

Numbers 19 and 48 are left out: as they are remembered, they have no solution by parity.
"""
# A search of fewer than 65,536 boards tells nothing while it runs.
FEW = "few"


def is_solved(board, letters):
    """Whether the moves stay on the board and lead home."""
    for letter in letters:
        board = board and moved(board, letter)
    return board == goal(side_of(board))


def rows(name):
    """The number, the moves and the boards of each claim, by three files that agree."""
    folder = ROOT / "docs" / "results"
    claims = (folder / f"{name}.claims").read_text().splitlines()
    answers = [it for it in (folder / f"{name}.answers").read_text().splitlines() if not it.startswith("sha256 ")]
    with (folder / f"{name}.csv").open() as file:
        counts = list(csv.DictReader(file))
    if not len(claims) == len(answers) == len(counts):
        sys.exit(f"{name}: {len(claims)} claims, {len(answers)} answers, {len(counts)} counts")
    for claim, answer, count in zip(claims, answers, counts):
        board, _, letters = claim.partition(" ; ")
        if answer != f"optimal {count['moves']} of {claim}" or len(letters) != int(count["moves"]):
            sys.exit(f"{name}: this is no answer to {claim}: {answer}")
        if not is_solved(tuple(map(int, board.split())), letters):
            sys.exit(f"{name}: the moves don't solve {claim}")
        boards = int(count["boards"] or 0)
        yield count["number"], int(count["moves"]), f"{boards:,}" if boards else FEW


def table(shown, across):
    """A table of so many claims side by side, in columns from top to bottom."""
    height = -(-len(shown) // across)
    yield "| " + " | ".join(["no.", "moves", "boards"] * across) + " |"
    yield "|" + "---|" * 3 * across
    for row in range(height):
        cells = []
        for number, moves, boards in shown[row::height]:
            cells += [number, str(moves), boards]
        yield "| " + " | ".join(cells + [""] * (3 * across - len(cells))) + " |"


def lengths(shown):
    """A table of the moves alone, of ten claims a row."""
    yield "| no. | moves |"
    yield "|---|---|"
    for first in range(0, len(shown), 10):
        row = shown[first : first + 10]
        yield f"| {row[0][0]} to {row[-1][0]} | {' '.join(str(moves) for _, moves, _ in row)} |"


def open_rows(name):
    """The number, the moves and the expected boards of each claim that is open, by two files that agree."""
    folder = ROOT / "docs" / "results"
    claims = (folder / f"{name}.claims").read_text().splitlines()
    with (folder / f"{name}.csv").open() as file:
        counts = list(csv.DictReader(file))
    if [it.rpartition(" : ")[2] for it in claims] != [it["moves"] for it in counts]:
        sys.exit(f"{name}: the claims and the counts are not of the same boards")
    for count in counts:
        yield count["number"], int(count["moves"]), f"{int(count['boards']):,}"


def open_section(name, text, across):
    shown = list(open_rows(name))
    print()
    print(text.format(count=len(shown)))
    print("\n".join(table(shown, across)))


def hours(name):
    """The hours of processor time that the claims of these results took, where that is noted."""
    with (ROOT / "docs" / "results" / f"{name}.csv").open() as file:
        return sum(float(it.get("seconds", 0)) for it in csv.DictReader(file)) / 3600


def section(name, text, lines_of):
    shown = list(rows(name))
    moves = [it for _, it, _ in shown]
    boards = sum(int(it.replace(",", "")) for _, _, it in shown if it != FEW)
    print()
    print(text.format(count=len(shown), first=shown[0][0], least=min(moves), most=max(moves), boards=f"{boards:,}", hours=hours(name)))
    print("\n".join(lines_of(shown)))


def main():
    print(INTRODUCTION, end="")
    section("korf_1985", KORF, lengths)
    section("korf_felner_2002", KORF_AND_FELNER, lambda shown: table(shown, 2))
    section("korf_felner_2002_chosen", CHOSEN, lambda shown: table(shown, 2))
    open_section("korf_felner_2002_open", OPEN, 2)


main()
