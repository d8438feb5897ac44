#!/usr/bin/env python3
"""Says of each claim of a file whether it holds by answer lines, as `pdb_cli parts` joins them, and by moves, as `pdb_cli replay` plays them.

    join_claims.py CLAIMS ANSWERS.. [--goal last]

CLAIMS has a claim a line, `BOARD : N` or `BOARD ; MOVES`. ANSWERS are files of lines that `prove` wrote. For each claim the counts K are
found that their lines on parts of its bound have, and `parts BOARD N K` is run on the files with such lines; of moves N is their count.
The program's own lines are written, digests once each. Of moves that are as many as a bound that was joined, a line says so, and what
that rests on. `parts` believes the lines that it reads: so what is said here is as true as they are.

It runs in a folder with `pdb_cli` (a copy of out/pdb_cli). The status is 0 if each claim holds, 1 if one doesn't or is open, and 2 for
words, claims or files that can't be read.
"""

import re
import subprocess
import sys

TOLD = re.compile(rb"(?:part \d+/(\d+) of bound (\d+) of ([\d ]+?)|refused (?:O2 by[ A-Z]*|K\d) of ([\d ]+) : (\d+) part \d+/(\d+))( with the blank last)?\n")


def stop(why):
    print(f"join_claims.py: {why}", file=sys.stderr)
    sys.exit(2)


def read_claims(name):
    """The claims of a file: the numbers of each board, and a bound or moves."""
    claims = []
    try:
        with open(name, encoding="ascii") as file:
            lines = file.read().splitlines()
    except (OSError, ValueError) as error:
        stop(f"{name}: {error}")
    for number, line in enumerate(lines):
        if not line.strip() or line.startswith("#"):
            continue
        found = re.fullmatch(r"([\d\s]+?)\s*(?::\s*(\d+)|;\s*([UDLR\s]*))\s*", line.strip())
        if not found:
            stop(f"line {number} of {name} is neither `BOARD : N` nor `BOARD ; MOVES`")
        board = " ".join(str(int(it)) for it in found[1].split())
        claims.append((board, int(found[2]) if found[2] else None, "".join((found[3] or "").split())))
    return claims


def find_answers(names, goal):
    """For each board and bound the counts of parts that lines tell of, with the files that have such lines."""
    answers = {}
    for name in names:
        try:
            with open(name, "rb") as file:
                for line in file:
                    it = TOLD.fullmatch(line)
                    if it and (it[7] is not None) == (goal == "last"):
                        board, bound, count = (it[3], it[2], it[1]) if it[1] else it.group(4, 5, 6)
                        files = answers.setdefault((board.decode(), int(bound)), {}).setdefault(int(count), [])
                        if name not in files:
                            files.append(name)
        except OSError as error:
            stop(f"{name}: {error.strerror}")
    return answers


def run(words, text):
    """The lines of a run of the program on a text, and its status."""
    done = subprocess.run(["./pdb_cli", *words], input=text, stdout=subprocess.PIPE, stderr=subprocess.PIPE, text=True)
    if done.returncode not in (0, 1):
        stop(f"`{' '.join(words)}` ended with status {done.returncode}: {done.stdout}{done.stderr}".strip())
    return done.stdout.splitlines(), done.returncode


class Joiner:
    def __init__(self, answers, options):
        self.answers = answers
        self.options = options
        self.end = ", with the blank last" if options[1:] == ["last"] else ""
        self.written = set()

    def write(self, lines):
        for line in lines:
            if line not in self.written:
                print(line)
            if line.startswith("sha256 "):
                self.written.add(line)

    def join(self, board, bound):
        """Joins a bound by the first count of parts of which each has a line: the count, or None."""
        counts = self.answers.get((board, bound), {})
        told = f"join_claims.py: no line tells of a part of bound {bound} of {board}"
        for count, files in sorted(counts.items()):
            if count > 65535 or count % 2 == 0:
                continue
            lines, status = run(["parts", "-", str(bound), str(count), *files, *self.options], board)
            if status == 0 or lines[-1].startswith("refused"):
                self.write(lines)
                return count if status == 0 else None
            told = f"join_claims.py: open are {len(lines)} of {count} parts of bound {bound} of {board}"
        print(told)
        return None

    def holds(self, board, bound, moves):
        """Whether a claim holds, which is said."""
        if bound is not None:
            return self.join(board, bound) is not None
        lines, status = run(["replay", *self.options], f"{board} ; {moves}")
        if status:
            print(f"{lines[-1]}\njoin_claims.py: the moves don't solve {board} ; {moves}")
            return False
        count = int(lines[-1].split()[1])
        parts = self.join(board, count)
        if parts is None:
            return False
        print(lines[-1])
        print(f"join_claims.py: {count} moves are the fewest of {board} ; {moves}, by a replay and by {parts} parts whose lines were read{self.end}")
        return True


def main():
    words = sys.argv[1:]
    options = []
    if "--goal" in words:
        place = words.index("--goal")
        options = words[place : place + 2]
        del words[place : place + 2]
    if len(words) < 2 or options and options[1:] not in (["first"], ["last"]):
        print("usage: join_claims.py CLAIMS ANSWERS.. [--goal last]", file=sys.stderr)
        sys.exit(2)
    claims = read_claims(words[0])
    joiner = Joiner(find_answers(words[1:], options[1] if options else "first"), options)
    held = sum(joiner.holds(*claim) for claim in claims)
    print(f"join_claims.py: {held} of {len(claims)} claims hold by what was read")
    return held != len(claims)


sys.exit(main())
