#!/usr/bin/env python3
"""Runs `prove` on whole puzzles and judges each line by a breadth-first search over boards, by docs/FORMATS.md (the plain
answers of tools/plain/plain_answers.py). Nothing of the program is used.

    tools/checks/check_prove.py [--every N] [--thorough] [--processes N] [PROGRAM]

PROGRAM is the program to run; without it, that is what the launcher builds. These are tried:

- each board of side 2, and every Nth of side 3 (8 if not given), with a solution and without, in each form of a claim, true
  and false; by 1, 2, 7 and 64 workers, over full and over folded tables;
- a claims text cut to each length, and with each byte changed to many others (to all with --thorough);
- budgets: the least that is enough, counted by a search of this script's own, and one board less;
- claims from standard input; runs that are killed;
- boards of side 4, where `solve` and `optimal` must say the same.

A line is written for each check that fails, and last `N passed, M failed`, where each line that answers a claim is a check.
The status is 0 if all passed. It needs the C compiler `cc`, for tables.
"""

import argparse
import concurrent.futures
import functools
import itertools
import pathlib
import random
import re
import subprocess
import sys
import tempfile
import time

sys.path.insert(0, str(pathlib.Path(__file__).resolve().parents[1] / "plain"))

from plain_answers import (
    REVERSE,
    STANDARD_INPUT,
    Claim,
    Ended,
    Run,
    answer,
    goal,
    has_solution,
    layers,
    least_moves,
    moved,
    read_sets,
    read_tables,
    right_line,
    side_of,
    table_of,
    ways,
)
from plain_search import Search

ROOT = pathlib.Path(__file__).resolve().parents[2]
WORKERS = [1, 2, 7, 64]
# Boards that one thread searches before all workers do.
ALONE = 65_536
LONGEST = 12  # moves of a string that need not be tried
# Bytes that mean something in a claims text, and some that don't.
TELLING = b"0123456789 \t\r\n;:UDLRu-#\x00\xff"
SMALL_CLAIMS = b"3 2 1 0\n1 0 2 3 : 1\n3 2 1 0 ; ULDRUL\n0 1 2 3 ;\n 3 2 1 0 : 7"


class Checks:
    """Counts checks, and tells those that fail."""

    def __init__(self):
        self.passed = self.failed = 0

    def that(self, name, holds, shown=""):
        self.passed += bool(holds)
        self.failed += not holds
        if not holds and self.failed <= 50:
            print(f"FAILED: {name}: {shown}"[:600], flush=True)

    def equal(self, name, told, wanted):
        self.that(name, told == wanted, f"told {told!r}, wanted {wanted!r}")


class Program:
    """The program, started in a folder that has the tables, the sets and the claims."""

    def __init__(self, path, folder):
        self.path, self.folder = path, pathlib.Path(folder)

    def keep(self, name, data):
        (self.folder / name).write_bytes(data)

    def run(self, *words, given=b""):
        """The status and what is written; what goes to standard error counts as written, but for a sentence that says why the
        answer is no yes."""
        ended = subprocess.run([self.path, *words], cwd=self.folder, input=given, capture_output=True)
        says_why = ended.returncode and re.fullmatch(rb"pdb_cli: .*\n", ended.stderr)
        return ended.returncode, ended.stdout + (b"" if says_why else ended.stderr)

    def table(self, name, side, mask):
        self.keep(name, subprocess.check_output([self.folder / "plain_table", str(side), str(mask)]))

    def lines(self, claims, sets, tables, *flags):
        """The status and what is written for these claims."""
        self.keep("claims", b"".join(b"%s\n" % str(claim).encode() for claim in claims))
        return self.run("prove", *flags, "claims", sets, *tables)

    def answers(self, checks, claims, sets, tables, *flags):
        """The lines that answer these claims, without the digests; each is judged."""
        budget = int(flags[flags.index("--budget") + 1]) if "--budget" in flags else 2**64 - 1
        status, written = self.lines(claims, sets, tables, *flags)
        name = f"prove {' '.join(flags)} of {len(claims)} claims over {sets}"
        lines = written.split(b"\n")
        digests, told, rest = lines[: len(tables) + 1], lines[len(tables) + 1 : -1], lines[-1]
        checks.that(f"{name}: digests", all(re.fullmatch(b"sha256 [0-9a-f]{64}", line) for line in digests), digests)
        checks.equal(f"{name}: lines", (len(told), rest), (len(claims), b""))
        for claim, line in zip(claims, told):
            checks.equal(f"{name}: {claim}", line, judged(claim, line, budget))
        is_good = all(line.startswith((b"optimal ", b"bound ")) for line in told)
        checks.equal(f"{name}: status", status, int(not is_good))
        return told


@functools.cache
def judged(claim, line, budget):
    """The line that answers a claim, given what was told; many runs tell the same."""
    return right_line(claim, line, budget)


# Boards and claims.


def shortest_letters(board):
    """The letters of a shortest solution."""
    letters, least = "", least_moves(board)
    while least:
        after = [(letter, moved(board, letter)) for letter in ways(side_of(board), board.index(0))]
        letter, board = next((letter, there) for letter, there in after if least_moves(there) < least)
        letters, least = letters + letter, least - 1
    return letters


def all_boards(side):
    """All boards that have a solution, nearest first."""
    least_moves((1, 0) + tuple(range(2, side * side - 2)) + (side * side - 1, side * side - 2))
    return list(itertools.chain(*layers(side)[0]))


def forms(board, letters):
    """Claims of each form, true and false ones, on a board with this shortest solution."""
    count = len(letters)
    yield Claim(board)
    yield Claim(board, bound=count)
    yield Claim(board, bound=count + 1 + len(board) % 2)
    yield Claim(board, letters=letters)
    yield Claim(board, letters=letters + "RL")
    if count:
        yield Claim(board, letters=letters[:-1])
        yield Claim(board, bound=count - 1)
    yield Claim(board, letters="U" * side_of(board))


def without_solution(board):
    one, other = len(board) - 1, len(board) - 2
    return tuple({one: other, other: one}.get(number, number) for number in board)


def kinds(told):
    """What lines say apart from moves that a search has found."""
    return [re.sub(rb" ;( [UDLR]+)?$", b"", re.sub(rb" by( [UDLR]+)? of ", b" of ", line)) for line in told]


# What is tried.


def whole_puzzle(program, checks, claims, sets, tables):
    """All claims by all numbers of workers, over full and folded tables."""
    told = {fold: program.answers(checks, claims, sets, tables, "--workers", "4", *fold) for fold in ((), ("--fold",))}
    checks.equal(f"folded tables over {sets}", kinds(told["--fold",]), kinds(told[()]))
    few = claims if len(claims) < 20_000 else claims[:: len(claims) // 20_000]
    for fold in told:
        by = [program.lines(few, sets, tables, "--workers", str(count), *fold) for count in WORKERS]
        for count, lines in zip(WORKERS[1:], by[1:]):
            checks.that(f"{count} workers over {sets} {fold}", lines == by[0])
        if few is claims:
            checks.that(f"4 workers over {sets} {fold}", by[0][1].split(b"\n")[len(tables) + 1 : -1] == told[fold])


def side_2(program, checks):
    tables = ["tiles_12", "tile_3", "tile_1"]
    for name, mask in zip(tables, [6, 8, 2]):
        program.keep(name, table_of(2, mask))
    boards = all_boards(2)
    claims = [claim for board in boards for claim in forms(board, shortest_letters(board))]
    claims += [Claim(board, bound=bound) for board in boards for bound in [*range(9), 100, 254, 255]]
    claims += [Claim(board, letters=shortest_letters(board) + "RLDU" * 70) for board in boards if board.index(0) == 0]
    for board in map(without_solution, boards):
        claims += [Claim(board), Claim(board, bound=0), Claim(board, bound=255), Claim(board, letters="")]
    for number, text in enumerate([b"set 0\n", b"set 0 1\n", b"set 1 2 2t\nset 0t\n", b"set 1\n"]):
        program.keep(f"sets_{number}", text)
        whole_puzzle(program, checks, claims, f"sets_{number}", tables)


def side_3(program, checks, every):
    tables = ["tiles_1_to_4", "tiles_5_to_8"]
    program.table(tables[0], 3, 30)
    program.table(tables[1], 3, 480)
    program.keep("sets", b"set 0 1\n")
    program.keep("both_sets", b"set 0 1\nset 0t 1t\n")
    boards = all_boards(3)[:: every]
    claims = [claim for board in boards for claim in forms(board, shortest_letters(board))]
    for board in map(without_solution, boards[::20]):
        claims += [Claim(board), Claim(board, bound=1)]
    random.Random(3).shuffle(claims)
    whole_puzzle(program, checks, claims, "both_sets", tables)
    whole_puzzle(program, checks, claims[::50], "sets", tables)
    return claims, tables


def changed_texts(thorough):
    yield from (SMALL_CLAIMS[:length] for length in range(len(SMALL_CLAIMS) + 1))
    for place in range(len(SMALL_CLAIMS)):
        for byte in range(256) if thorough else TELLING:
            yield SMALL_CLAIMS[:place] + bytes([byte]) + SMALL_CLAIMS[place + 1 :]


def small_runs(program, texts):
    """What is wrong of the runs on these texts, and how many there are."""
    names = ("-", "small_sets", "tiles_12")
    files = {name: (program.folder / name).read_bytes() for name in names[1:]}
    wrong, count = [], 0
    for text in texts:
        status, written = program.run("prove", *names, given=text)
        ended = Ended(written, status, {})
        right = answer(Run("prove", names, {STANDARD_INPUT: text, **files}), ended)
        count += 1
        if (right.written, right.status) != (written, status):
            wrong.append(f"the text {text!r}: told {written!r} {status}, wanted {right.written!r} {right.status}")
    return wrong, count


def broken_texts(program, checks, settings):
    program.keep("small_sets", b"set 0\n")
    texts = list(changed_texts(settings.thorough))
    parts = [texts[first :: settings.processes] for first in range(settings.processes)]
    with concurrent.futures.ProcessPoolExecutor(settings.processes) as pool:
        for wrong, count in pool.map(small_runs, [program] * len(parts), parts):
            checks.passed += count - len(wrong)
            for line in wrong:
                checks.that("a changed text", False, line)


def texts_of_many_lines(program, checks):
    """As many lines as a text may have, and one more; another side; and a text over its limit."""
    line, most = b"0 1 2 3:0\n", 2**20
    for text, last in [(line * most, b"bound 0 of 0 1 2 3"), (line * (most + 1), b"refused Q1 at line %d" % most)]:
        status, written = program.run("prove", "-", "small_sets", "tiles_12", given=text)
        wanted = most if last.startswith(b"bound") else 1
        lines = written.split(b"\n")[2:-1]
        checks.equal(f"{len(text)} bytes of lines", (len(lines), set(lines)), (wanted, {last}))
        checks.equal(f"{len(text)} bytes of lines: status", status, int(wanted == 1))
    for remarks in (b"\n" * (most - 1), b"#\n" * (most - 1)):
        status, written = program.run("prove", "-", "small_sets", "tiles_12", given=remarks + line)
        checks.equal("a claim behind remarks", (status, written.split(b"\n")[2:]), (0, [b"bound 0 of 0 1 2 3", b""]))
        status, written = program.run("prove", "-", "small_sets", "tiles_12", given=line + remarks + b"\n")
        checks.equal("one remark too many", (status, written.split(b"\n")[2:]), (1, [b"refused Q1 at line %d" % most, b""]))
    program.keep("claims", line * 3 + b"0 1 2 3 4 5 6 7 8\n0 1 2 3\n")
    status, written = program.run("prove", "claims", "small_sets", "tiles_12")
    checks.equal("a board of another side", (status, written.split(b"\n")[2:]), (1, [b"refused Q2 at line 3", b""]))
    with open(program.folder / "claims", "wb") as text:
        text.truncate(2**26 + 1)
    told = program.run("prove", "claims", "small_sets", "tiles_12")
    checks.equal("a text over its limit", told, (2, b"fault size claims\n"))


def boards_expanded(search, claim):
    """How many boards the searches for a claim expand: for a bound, those of thresholds that are lower by four and more, and its own;
    else those of all thresholds up to a solution."""
    board, search.expanded, search.exceeds = claim.board, 0, float("inf")
    parity = sum(divmod(board.index(0), side_of(board))) % 2
    if claim.bound is not None:
        thresholds = [*range(parity, claim.bound - 4, 2), claim.bound - 1]
    else:
        thresholds = range(parity, least_moves(board) + 1, 2)
    for threshold in thresholds:
        if board != goal(side_of(board)) and search.says(board) <= threshold:
            search.solves(board, threshold)
    return search.expanded


def budgets(program, checks, claims, tables):
    sets = program.folder / "sets"
    files = [(program.folder / name).read_bytes() for name in tables]
    search = Search(read_sets(sets.read_bytes(), read_tables(files, False)))
    able = [claim for claim in claims if claim.letters is None and has_solution(claim.board)]
    able = [claim for claim in able if claim.bound in (None, least_moves(claim.board)) and least_moves(claim.board) < 24]
    for claim in able[:40]:
        expanded = boards_expanded(search, claim)
        if not 1 < expanded <= ALONE:
            continue
        enough = program.answers(checks, [claim], "sets", tables, "--budget", str(expanded), "--workers", "2")
        spent = program.answers(checks, [claim], "sets", tables, "--budget", str(expanded - 1), "--workers", "2")
        checks.that(f"{claim} by {expanded} boards", enough and enough[0].startswith((b"optimal", b"bound")), enough)
        checks.equal(f"{claim} by a board less", spent, [f"refused K1 of {claim}".encode()])
    for budget in ["1", "10", "100"]:
        told = program.answers(checks, claims[:2000], "sets", tables, "--budget", budget, "--workers", "4")
        checks.that(f"a budget of {budget} is spent", any(line.startswith(b"refused K1 of ") for line in told))


def large_budgets(program, checks):
    """Bounds that take more boards than one thread searches alone: the least budget is the same for all workers. Over one table words
    are made of it, over nine the sums of all are asked."""
    masks = [2**tile for tile in range(1, 9)] + [14]
    tables = [f"side_3_{mask}" for mask in masks]
    for table, mask in zip(tables, masks):
        program.table(table, 3, mask)
    large_budget(program, checks, b"set 0\n", tables[-1:], 29)
    large_budget(program, checks, b"set 0 1 2\nset 3 4t 5\nset 6t 7t\nset 8\n", tables, 31)


def large_budget(program, checks, sets, tables, bound):
    program.keep("large_sets", sets)
    claim = Claim((8, 0, 6, 5, 4, 7, 2, 3, 1), bound=bound)
    files = [(program.folder / table).read_bytes() for table in tables]
    search = Search(read_sets(sets, read_tables(files, False)), program.strings)
    expanded = boards_expanded(search, claim)
    checks.that("more boards than one thread searches alone", expanded > ALONE, expanded)
    for workers in WORKERS:
        for budget, wanted in [(expanded, b"bound %d" % bound), (expanded - 1, b"refused K1")]:
            flags = ["--budget", str(budget), "--workers", str(workers)]
            told = program.answers(checks, [claim], "large_sets", tables, *flags)
            checks.that(f"{budget} boards by {workers}", told and told[0].startswith(wanted), told)


def streams(program, checks, claims, tables):
    """Claims from standard input, and runs that are killed: their lines are a front of those of the whole run."""
    text = b"".join(b"%s\n" % str(claim).encode() for claim in claims)
    program.keep("claims", text)
    words = ["prove", "--workers", "3", "claims", "both_sets", *tables]
    began = time.monotonic()
    whole = program.run(*words)
    seconds = time.monotonic() - began
    words[3] = "-"
    checks.that("claims from standard input", program.run(*words, given=text) == whole)
    without_end = program.run(*words, given=text[:-1])
    checks.that("claims without the last LF", without_end[1].split(b"\n")[3:] == whole[1].split(b"\n")[3:])
    words[3] = "claims"
    draw, cut = random.Random(9), 0
    for _ in range(12):
        with open(program.folder / "lines", "wb") as lines:
            started = subprocess.Popen([program.path, *words], cwd=program.folder, stdout=lines, stderr=subprocess.DEVNULL)
            time.sleep(draw.uniform(0, seconds))
            started.kill()
            started.wait()
        told = (program.folder / "lines").read_bytes()
        cut += 0 < len(told) < len(whole[1])
        checks.that("the lines of a run that is killed", whole[1].startswith(told), told[-200:])
    checks.that("some runs were killed between lines", cut > 0)


def walk(draw, side, steps):
    board, last = goal(side), None
    for _ in range(steps):
        last = draw.choice([letter for letter in ways(side, board.index(0)) if letter != REVERSE.get(last)])
        board = moved(board, last)
    return board


def side_4(program, checks):
    """`solve` finds what `prove` proves, and `optimal` says so of the log."""
    tables = ["tiles_1_to_5", "tiles_6_to_10", "tiles_11_to_15"]
    for name, mask in zip(tables, [62, 1984, 63488]):
        program.table(name, 4, mask)
    program.keep("sets_4", b"set 0 1 2\nset 0t 1t 2t\n")
    draw = random.Random(4)
    boards = [walk(draw, 4, steps) for steps in [10, 24, 30, 36, 40, 44]]
    shortest = []
    for board in boards:
        program.keep("board", " ".join(map(str, board)).encode())
        words = ["board", "sets_4", "log", *tables, "--workers", "4"]
        _, written = program.run("solve", *words, "--budget", "20000000", "--replace")
        letters = re.search(rb"^moves ?([UDLR]*)$", written, re.MULTILINE)
        checks.that(f"solve {board}", letters, written)
        shortest.append(letters[1].decode() if letters else "")
        program.keep("puzzle", f"{' '.join(map(str, board))} ; {shortest[-1]}".encode())
        _, written = program.run("optimal", "puzzle", *words[1:])
        checks.that(f"optimal {board}", written.endswith(b"\noptimal %d\n" % len(shortest[-1])), written)
    claims = []
    for board, letters in zip(boards, shortest):
        claims += [Claim(board), Claim(board, letters=letters), Claim(board, bound=len(letters))]
        claims += [Claim(board, letters=letters + "RL"), Claim(board, bound=len(letters) + 1)]
    program.keep("claims", "\n".join(map(str, claims)).encode())
    by = [program.run("prove", "claims", "sets_4", *tables, "--workers", workers) for workers in ["4", "1"]]
    checks.that("boards of side 4 by 1 and 4 workers", by[0] == by[1])
    told = by[0][1].split(b"\n")[4:-1]
    checks.equal("boards of side 4: status and lines", (by[0][0], len(told)), (1, len(claims)))
    for claim, line in zip(claims, told):
        count = len(shortest[boards.index(claim.board)])
        is_false = len(claim.letters or "") > count or (claim.bound or 0) > count
        begins = b"refused O2" if is_false else b"bound %d of" % count if claim.bound else b"optimal %d of" % count
        checks.that(f"{claim}", line.startswith(begins) and line == right_line(claim, line, 2**64 - 1), line)


def read_settings():
    parser = argparse.ArgumentParser(description=__doc__.split("\n\n")[0])
    parser.add_argument("--every", type=int, default=8)
    parser.add_argument("--thorough", action="store_true")
    parser.add_argument("--processes", type=int, default=4)
    parser.add_argument("program", nargs="?", type=pathlib.Path)
    settings = parser.parse_args()
    if settings.program is None:
        subprocess.run([ROOT / "pdb_cli", "--help"], stdin=subprocess.DEVNULL, stdout=subprocess.DEVNULL, check=True)
        settings.program = ROOT / "out" / "pdb_cli"
    settings.program = settings.program.resolve(strict=True)
    return settings


def main():
    settings, checks = read_settings(), Checks()
    with tempfile.TemporaryDirectory() as folder:
        program = Program(settings.program, folder)
        for source in ["tools/plain/plain_table.c", "benches/peers/edge_kernel.c"]:
            made = program.folder / pathlib.Path(source).stem
            subprocess.run(["cc", "-O2", "-pthread", "-o", made, ROOT / source], check=True)
        found = subprocess.run([program.folder / "edge_kernel", str(LONGEST)], check=True, capture_output=True, text=True)
        program.strings = found.stdout.split()
        side_2(program, checks)
        broken_texts(program, checks, settings)
        texts_of_many_lines(program, checks)
        claims, tables = side_3(program, checks, settings.every)
        budgets(program, checks, claims, tables)
        large_budgets(program, checks)
        streams(program, checks, claims[:20_000], tables)
        side_4(program, checks)
    print(f"{checks.passed} passed, {checks.failed} failed")
    sys.exit(checks.failed != 0)


if __name__ == "__main__":
    main()
