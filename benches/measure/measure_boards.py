#!/usr/bin/env python3
"""Prints a table of logs of many lemmas beside those of one lemma, for boards of the 15- and the 24-puzzle. Writes the numbers to
benches/plots/logs.csv too, of which benches/plots/plot_logs.py draws docs/logs.svg.

    benches/measure/measure_boards.py PROGRAM FOLDER [ROUNDS]

The boards are ends of random walks (`benches/peers/make_log.c board SIDE SEED STEPS`), over tables that `make-table` makes in FOLDER:
three of five tiles on side 4, six of four tiles on side 5. `solve` writes the log of many lemmas, and
`benches/peers/make_log.c log BOARD - 0` that of one, of the same tree.

- A share is the most tree bytes that one of so many workers checks, where each draws the next lemma as soon as it is free. It
  follows from the log alone. Printed is how many times it goes into the tree.
- Runs of `bound` on both logs, by 1, 2 and 4 workers, are taken in turns, ROUNDS times (3 where nothing is said). What a log
  takes is the least run less the least on a log of one leaf over the same tables, by as many workers: processor time for one
  worker, and the wall clock's for all.
- The memory of `solve` is the most that was resident, less that of `solve` on the goal board, so that tables don't count.
"""

import csv
import heapq
import os
import pathlib
import subprocess
import sys
import time
from dataclasses import dataclass

TABLES = {4: (818, 2252, 62464), 5: (198, 792, 202752, 811008, 1082400, 31457280)}
BOARDS = [(4, seed, None) for seed in range(101, 107)] + [(5, seed, 60) for seed in range(101, 103)]
WORKERS = (1, 2, 4)
BUDGET = "1000000000000"
LEAST_SECONDS = 0.1


@dataclass
class Run:
    """What a run takes, in seconds of the clock and of processors and in bytes that were resident, and what it writes."""

    wall: float
    processor: float
    peak: int
    written: str


def run(words):
    """Runs a program."""
    begin = time.monotonic()
    process = subprocess.Popen(words, stdout=subprocess.PIPE)
    written = process.stdout.read().decode()
    _, status, usage = os.wait4(process.pid, 0)
    seconds = time.monotonic() - begin
    if os.waitstatus_to_exitcode(status) != 0:
        sys.exit(f"{' '.join(words)} failed: {written}")
    return Run(seconds, usage.ru_utime + usage.ru_stime, usage.ru_maxrss * 1024, written)


class Puzzle:
    """The tables of a side, and the programs that read them."""

    def __init__(self, program, folder, side):
        self.program, self.folder, self.side = program, folder, side
        self.maker = str(folder / "make_log")
        self.sets = self.write("sets", "set " + " ".join(map(str, range(len(TABLES[side])))))
        self.tables = [str(folder / f"table_{side}_{mask}") for mask in TABLES[side]]
        for mask, table in zip(TABLES[side], self.tables):
            run([program, "make-table", str(side), str(mask), table])
        goal = self.write("goal", " ".join(map(str, range(side * side))))
        self.idle = self.solve(goal, "leaf").peak

    def write(self, name, text):
        file = self.folder / f"{name}_{self.side}"
        file.write_text(text + "\n")
        return str(file)

    def solve(self, board, log):
        words = [self.program, "solve", board, self.sets, str(self.folder / log), *self.tables]
        return run([*words, "--budget", BUDGET, "--workers", "4"])

    def bound(self, board, log, workers):
        words = [self.program, "bound", board, self.sets, str(self.folder / log), *self.tables]
        return run([*words, "--workers", str(workers)])

    def board(self, seed, steps):
        words = [self.maker, "board", str(self.side), str(seed), *([] if steps is None else [str(steps)])]
        return run(words).written.strip()


def trees_of(log):
    """The bytes of the tree of each lemma."""
    cells, at, found = log[5] ** 2, 10, []
    while at < len(log):
        tree = int.from_bytes(log[at + cells + 1 : at + cells + 5], "big")
        found.append(tree)
        at += cells + 5 + tree
    return found


def share(trees, workers):
    """The most bytes that a worker checks."""
    loads = [0] * workers
    for tree in trees:
        heapq.heappushpop(loads, loads[0] + tree)
    return max(loads)


def least_runs(puzzle, board, rounds):
    """The least seconds, of the clock and of processors, of a run on each log, by each number of workers."""
    runs = {}
    for _ in range(rounds):
        for workers in WORKERS:
            for log in ("leaf_log", "one", "many"):
                runs.setdefault((log, workers), []).append(puzzle.bound(board, log, workers))
    return {name: (min(it.wall for it in them), min(it.processor for it in them)) for name, them in runs.items()}


def measure(puzzle, seed, steps, rounds):
    """What is measured of a board, by the names of the columns of logs.csv."""
    numbers = puzzle.board(seed, steps)
    board = puzzle.write("board", numbers)
    solved = puzzle.solve(board, "many")
    run([puzzle.maker, "log", numbers, "-", "0", str(puzzle.folder / "one"), *puzzle.tables])
    run([puzzle.maker, "log", numbers, "0", "0", str(puzzle.folder / "leaf_log"), *puzzle.tables])
    one, many = (trees_of((puzzle.folder / log).read_bytes()) for log in ("one", "many"))
    runs = least_runs(puzzle, board, rounds)
    found = {
        "side": puzzle.side,
        "seed": seed,
        "moves": int(solved.written.split()[-1]),
        "tree": sum(one),
        "bytes": (puzzle.folder / "many").stat().st_size,
        "one_bytes": (puzzle.folder / "one").stat().st_size,
        "lemmas": len(many),
        "memory": max(0, solved.peak - puzzle.idle),
    }
    for workers in WORKERS:
        found[f"share_of_{workers}"] = share(many, workers)
    for log in ("one", "many"):
        found[f"{log}_processor"] = runs[log, 1][1] - runs["leaf_log", 1][1]
        for workers in WORKERS:
            found[f"{log}_by_{workers}"] = runs[log, workers][0] - runs["leaf_log", workers][0]
    return found


def line(found):
    """One line of the table. Processor times are compared where they are long enough."""
    shares = " | ".join(f"{found['tree'] / found[f'share_of_{workers}']:.1f}" for workers in WORKERS)
    is_long = found["one_processor"] >= LEAST_SECONDS
    ratio = f"{found['many_processor'] / found['one_processor']:.2f}" if is_long else ""
    return (
        f"| {found['side']}, {found['seed']} | {found['moves']} | {found['one_bytes']:,} | {found['bytes']:,} | {found['lemmas']:,} "
        f"| {shares} | {ratio} | {found['memory'] / 1e6:.1f} MB |"
    )


def write_numbers(rows):
    """Writes logs.csv, with times to a millisecond."""
    with (pathlib.Path(__file__).resolve().parents[1] / "plots/logs.csv").open("w", newline="") as file:
        numbers = csv.DictWriter(file, rows[0].keys(), lineterminator="\n")
        numbers.writeheader()
        for row in rows:
            numbers.writerow({name: f"{it:.3f}" if isinstance(it, float) else it for name, it in row.items()})


def main():
    program, folder = os.path.realpath(sys.argv[1]), pathlib.Path(sys.argv[2])
    rounds = int(sys.argv[3]) if len(sys.argv) > 3 else 3
    source = pathlib.Path(__file__).resolve().parents[1] / "peers/make_log.c"
    run(["cc", "-O2", "-march=x86-64-v2", "-o", str(folder / "make_log"), str(source)])
    puzzles = {side: Puzzle(program, folder, side) for side in TABLES}
    print("| side, seed | moves | one lemma | many: bytes | lemmas | 1 worker | 2 | 4 | processor time | memory |")
    print("|---|---|---|---|---|---|---|---|---|---|")
    rows = []
    for side, seed, steps in BOARDS:
        rows.append(measure(puzzles[side], seed, steps, rounds))
        print(line(rows[-1]), flush=True)
        write_numbers(rows)


main()
