#!/usr/bin/env python3
"""Has the bounds of many boards proved, each threshold by threshold, by parts.sh.

    many_boards.py CLAIMS K COMMAND..

CLAIMS is a file with a line `BOARD : N` for each board. Of each, the bounds that are 6, 4 and 2 moves lower come before N. A
threshold takes six to ten times as long as the one two moves lower. So the first two aren't cut: the second is about as long
as one of some dozens of parts of the last. The last two have K parts each. COMMAND is that of parts.sh, with --tasks T and --goal last
before it.

After each bound it says how long that took, and how long the board may still take, if the bound took ten seconds or more. Both
have the check of the tables in them, so over large tables they are too high at first. With PDB_PROGRESS=1 in the environment
of the searches it also says how many boards they told of. A false claim is dropped, and the moves that show it are said. It may
be stopped and started again: what is answered stays answered. The status is 0 if all bounds hold, and 1 if some are false, or
where parts.sh stops. It runs in the folder of parts.sh.
"""

import glob
import os
import pathlib
import re
import subprocess
import sys
import time

FACTORS = (6, 10)  # how many times as long a threshold takes as the one two moves lower
LOWER = (6, 4, 2, 0)  # how many moves lower than N the bounds are
CUT = 2  # from how many moves lower on they are cut into parts
TELLING = 10  # of fewer seconds most go to starting, and tell nothing of what is left


def read_claims(name):
    """The boards and bounds of a claims text."""
    claims = []
    try:
        lines = pathlib.Path(name).read_text(encoding="ascii").splitlines()
    except (OSError, ValueError) as error:
        sys.exit(f"many_boards.py: {name}: {error}")
    for number, line in enumerate(lines):
        if not line.strip() or line.startswith("#"):
            continue
        found = re.fullmatch(r"\s*([\d\s]+?)\s*:\s*(\d+)\s*", line)
        if not found:
            sys.exit(f"many_boards.py: line {number} of {name} is no `BOARD : N`")
        claims.append((" ".join(str(int(it)) for it in found[1].split()), int(found[2])))
    return claims


def ask(board, bound, parts, command):
    """Runs parts.sh on a bound: None if it holds, and the moves that show it to be false where it is."""
    pathlib.Path("board.now").write_text(board + "\n", encoding="ascii")
    options = 0
    while command[options] in ("--tasks", "--goal"):
        options += 2
    words = ["./parts.sh", *command[:options], "board.now", str(bound), parts, *command[options:]]
    with subprocess.Popen(words, stdout=subprocess.PIPE, text=True) as run:
        last = ""
        for line in run.stdout:
            last = line
            if line.startswith("round "):
                print(f"  {bound}: {line}", end="", flush=True)
    if run.returncode == 0:
        return None
    false = re.fullmatch(rf"refused O2 by (\w*) ?of {board} : {bound}( with the blank last)?\n", last)
    if not false:
        sys.exit(f"{last}many_boards.py: stopped at {board} : {bound}")
    return false[1]


def sizes():
    """The sizes of the files of errors, which progress goes to."""
    return {name: os.path.getsize(name) for name in glob.glob("answers/*.errors")}


def boards_since(before):
    """How many boards the searches told of, by the last line of progress on each claim since the files had these sizes."""
    last = {}
    for name in glob.glob("answers/*.errors"):
        text = pathlib.Path(name).read_bytes()[before.get(name, 0):]
        for claim, boards in re.findall(rb"^pdb_cli: claim (\d+), below \d+: (\d+) boards", text, re.MULTILINE):
            last[name, claim] = int(boards)
    return sum(last.values())


def in_words(seconds):
    """A time in the greatest unit of which it has two."""
    for name, size in (("days", 86400), ("hours", 3600), ("minutes", 60)):
        if seconds >= 2 * size:
            return f"{seconds / size:.0f} {name}"
    return f"{seconds:.0f} seconds"


def prove(board, bound, parts, command):
    """Proves a bound threshold by threshold, and says whether it holds."""
    for lower in LOWER:
        if lower > bound:
            continue
        started, before = time.monotonic(), sizes()
        moves = ask(board, bound - lower, parts if lower <= CUT else "1", command)
        took, boards = time.monotonic() - started, boards_since(before)
        if moves is not None:
            print(f"  false, and dropped: {len(moves)} moves solve it, {moves}", flush=True)
            return False
        told = f", {boards:,} boards or more" if boards else ""
        if lower and took >= TELLING:
            least, most = [sum(took * factor ** step for step in range(1, lower // 2 + 1)) for factor in FACTORS]
            told += f"; up to {bound} it may take {in_words(least)} to {in_words(most)} more"
        print(f"  {bound - lower} holds, after {in_words(took)}{told}", flush=True)
    return True


def main():
    if len(sys.argv) < 4:
        sys.exit("usage: many_boards.py CLAIMS K COMMAND..")
    claims = read_claims(sys.argv[1])
    held = 0
    for number, (board, bound) in enumerate(claims, 1):
        print(f"board {number} of {len(claims)}: {board} : {bound}", flush=True)
        held += prove(board, bound, sys.argv[2], sys.argv[3:])
    print(f"{held} of {len(claims)} bounds hold")
    return held != len(claims)


sys.exit(main())
