#!/usr/bin/env python3
"""Chooses tables for claims: the masks and the set text with which `prove` expands few boards, and what that is expected to take.

    tools/choose_tables.py CLAIMS --tiles 6 --sets 2 --memory 6 >run.sh

CLAIMS is a claims text of `prove`, of boards that are alike: one choice is made for all of them. What is written is a script: it makes
the tables and the set text, answers the claims, and ends at the first of these that fails. Its comments say how many boards are
expected at each threshold, in which time and memory, and whether choosing pays beside the tables of `--instead`. Nobody has to
trust any of this: `prove` checks the tables, and its answers hold for all sets. For the same input the choice is the same.

How: boards of the search are sampled at a third of the moves, the patterns are counted on them by A* over tables of three tiles, and
of all partitions into connected patterns the one is taken whose sums are greatest on the mean. The boards that this set leaves are
sampled too, and it is chosen anew. The boards that it leaves are sampled for the next set, which is the one that leaves the fewest
of them; a set's mirror image costs no memory, and is tried too.

The kernel, choose_tables.c, is compiled by `cc` into `$XDG_CACHE_HOME/pdb_cli` or `~/.cache/pdb_cli`. With PDB_PROGRESS=1 or a
terminal, standard error tells what is done. The status is 0, or 2 where the words or the claims are wrong.
"""

import argparse
import hashlib
import os
import pathlib
import re
import shlex
import struct
import subprocess
import sys

ROOT = pathlib.Path(__file__).resolve().parents[1]
LONGEST_STRING = 12
FIRST_LOOK = 65536
LEVELS_OF_ALL = 3
MOST_SETS, MOST_TABLES, MOST_WORDED, MOST_WORD_BYTES, MOST_MOVES = 16, 16, 8, 1 << 30, 254
MOST_TILES = {3: 8, 4: 8, 5: 6}
# Korf and Felner's tables of the 24-puzzle (2002).
KNOWN = {(5, 6): [4326, 25368, 3247104, 30277632]}
# Processor time of `prove` in nanoseconds: to make an entry of a table, to check one, to make the words of one, and to expand a board
# over so many sets by words, with four workers at work. A board over sums takes SLOWER times as long. A node of A* takes NODE.
MAKE, CHECK, WORDS, SLOWER, NODE = 40, 20, 8, 3, 400
EXPAND = [52, 80, 110]
# Where only the board is given, a shortest solution is taken to have so many moves for one of the sums.
STRETCH = 1.22


class Mistake(Exception):
    """What is wrong with the words or the claims."""


def tell(text):
    if sys.stderr.isatty() or os.environ.get("PDB_PROGRESS", "0") not in ("", "0"):
        print(f"choose_tables: {text}", file=sys.stderr, flush=True)


def built(source, *flags):
    """The program of a source in C, compiled where it wasn't yet."""
    folder = pathlib.Path(os.environ.get("XDG_CACHE_HOME") or pathlib.Path.home() / ".cache") / "pdb_cli"
    folder.mkdir(parents=True, exist_ok=True)
    digest = hashlib.sha256(source.read_bytes() + (ROOT / "tools/sliding.h").read_bytes()).hexdigest()
    program = folder / f"{source.stem}-{digest[:16]}"
    if not program.exists():
        tell(f"compiling {source.name}")
        made = program.with_name(f"{program.name}.{os.getpid()}")
        subprocess.run(["cc", "-O3", "-march=native", *flags, "-o", made, source, "-lm"], check=True)
        made.rename(program)
    return program


def automaton_of(strings):
    """The states of the strings' automaton (Aho and Corasick 1975), without those that complete one."""
    trie, ends, link = [[0] * 4], [False], [0]
    for string in strings:
        state = 0
        for letter in map("UDLR".index, string):
            if not trie[state][letter]:
                trie[state][letter] = len(trie)
                trie.append([0] * 4)
                ends.append(False)
                link.append(0)
            state = trie[state][letter]
        ends[state] = True
    order = [0]
    for state in order:
        ends[state] |= ends[link[state]]
        for letter in range(4):
            after, beyond = trie[state][letter], trie[link[state]][letter] if state else 0
            if after:
                link[after] = beyond
                order.append(after)
            else:
                trie[state][letter] = beyond
    kept = [state for state in order if not ends[state]]
    number = {state: place for place, state in enumerate(kept)}
    return b"".join(struct.pack("=4i", *(number.get(after, -1) for after in trie[state])) for state in kept)


def automaton_file():
    kernel = built(ROOT / "benches/peers/edge_kernel.c", "-pthread")
    name = kernel.with_name(f"{kernel.name}.strings")
    if not name.exists():
        tell("making the automaton")
        strings = subprocess.run([kernel, str(LONGEST_STRING)], check=True, capture_output=True, text=True).stdout.split()
        made = name.with_name(f"{name.name}.{os.getpid()}")
        made.write_bytes(automaton_of(strings))
        made.rename(name)
    return name


def masks_text(sets):
    return "/".join(",".join(map(str, parts)) for parts in sets) or "-"


class Kernel:
    """choose_tables.c, which is asked line by line."""

    def __init__(self, side, sizes, tables):
        words = [built(ROOT / "tools/choose_tables.c"), side, automaton_file(), ",".join(map(str, sizes)), *tables]
        self.process = subprocess.Popen(list(map(str, words)), stdin=subprocess.PIPE, stdout=subprocess.PIPE, text=True)

    def ask(self, line):
        try:
            self.process.stdin.write(line + "\n")
            self.process.stdin.flush()
        except BrokenPipeError:
            pass
        said = self.process.stdout.readline()
        if not said:
            raise Mistake("the kernel has ended")
        return said.split()

    def boards(self, board, fewer, sets, width, seed):
        return float(self.ask(f"walk {fewer} {width} {seed} 0 0 {masks_text(sets)} {board}")[1])

    def sample(self, board, fewer, sets, width, level, many):
        self.ask(f"walk {fewer} {width} 1 {level} {many} {masks_text(sets)} {board}")

    def forget(self):
        self.ask("forget")

    def best(self, sets, paired):
        said = self.ask(f"best {int(paired)} {masks_text(sets)}")
        if said[0] == "none":
            raise Mistake("the tiles have no partition into connected patterns of these sizes")
        return list(map(int, said[3].split(",")))

    def seconds(self):
        """The processor time that the nodes looked at so far are said to take: the same in each run, as a clock's is not."""
        return int(self.ask("nodes")[0]) * NODE / 1e9


class Claim:
    """A board, and for fewer than how many moves it is searched: None where the claim doesn't say."""

    def __init__(self, line, place):
        found = re.fullmatch(r"\s*([0-9\s]+?)\s*(?:;([UDLR\s]*)|:\s*([0-9]+)(?:\s+part\s+[0-9]+/[0-9]+)?)?\s*", line)
        numbers = list(map(int, found[1].split())) if found else []
        self.side = {9: 3, 16: 4, 25: 5}.get(len(numbers))
        if not self.side or sorted(numbers) != list(range(len(numbers))):
            raise Mistake(f"line {place} is no claim on a board of side 3, 4 or 5")
        odd = sum(a > b for i, b in enumerate(numbers) for a in numbers[:i]) + sum(divmod(numbers.index(0), self.side))
        if odd % 2:
            raise Mistake(f"the board of line {place} has no solution, by parity")
        self.board = " ".join(map(str, numbers))
        moves, bound = found[2], found[3]
        self.fewer = int(bound) if bound is not None else len("".join(moves.split())) if moves is not None else None
        self.is_bare = self.fewer is None


def read_claims(name):
    text = sys.stdin.read() if name == "-" else pathlib.Path(name).read_text()
    lines = enumerate(text.splitlines())
    claims = [Claim(line, place) for place, line in lines if line.strip() and not line.startswith("#")]
    if len({claim.side for claim in claims}) != 1:
        raise Mistake("there are no claims, or boards of several sides")
    return claims


def sizes_of(side, tiles):
    left = side * side - 1
    return [tiles] * (left // tiles) + ([left % tiles] if left % tiles else [])


def entries_of(side, size):
    entries = min(size + 1, side**2 - size)
    for place in range(size):
        entries *= side**2 - place
    return entries


def words_of(side, size):
    return 4 * side ** (2 * size)


def has_words(side, sizes):
    return len(sizes) <= MOST_WORDED and all(words_of(side, size) <= MOST_WORD_BYTES for size in sizes)


def memory_of(side, sizes):
    """The memory of a run: the tables, and then the words, for which one table after the other is given back."""
    tables = [entries_of(side, size) for size in sizes]
    words = [words_of(side, size) for size in sizes]
    return max(sum(tables), sum(words) + max(tables) if has_words(side, sizes) else 0)


def seconds_of(side, sizes, sets, boards):
    """The processor time to make tables of these sizes, and to expand so many boards over them in a run."""
    entries = sum(entries_of(side, size) for size in sizes)
    each = EXPAND[sets - 1] if sets <= len(EXPAND) else EXPAND[-1] * sets / len(EXPAND)
    if has_words(side, sizes) and boards > entries / 3:
        return entries * MAKE / 1e9, (entries * (CHECK + WORDS) + boards * each) / 1e9
    return entries * MAKE / 1e9, (entries * CHECK + boards * each * SLOWER) / 1e9


def mirrored(parts, side):
    return [sum(1 << (tile % side * side + tile // side) for tile in range(side * side) if mask >> tile & 1) for mask in parts]


class Plan:
    """Tables, and the sets over them: a mask and its mirror image are one table."""

    def __init__(self, side, sets):
        self.side, self.sets, self.masks, lines = side, sets, [], []
        for parts in sets:
            members = []
            for mask, image in zip(parts, mirrored(parts, side)):
                if mask not in self.masks and image not in self.masks:
                    self.masks.append(mask)
                members.append((self.masks.index(mask), "") if mask in self.masks else (self.masks.index(image), "t"))
            lines.append("set " + " ".join(f"{number}{letter}" for number, letter in sorted(members)))
        self.text = "\n".join(lines)
        self.sizes = [mask.bit_count() for mask in self.masks]

    def fits(self, gigabytes):
        return len(self.masks) <= MOST_TABLES and memory_of(self.side, self.sizes) <= gigabytes * 1e9


def some(claims, most):
    """At most so many of the claims, evenly spread."""
    step = max(1, len(claims) / most)
    return [claims[int(place * step)] for place in range(min(most, len(claims)))]


class Choice:
    def __init__(self, kernel, claims, options):
        self.kernel, self.claims, self.options, self.known = kernel, some(claims, options.of), options, {}
        self.side = claims[0].side
        sizes = sizes_of(self.side, options.tiles)
        if memory_of(self.side, sizes) > options.memory * 1e9:
            raise Mistake(f"a set of such tables takes {memory_of(self.side, sizes) / 1e9:.1f} GB: fewer tiles a table take less")
        # Where no second partition has room, the second set is the mirror image of the first, and both are chosen as one.
        self.is_paired = options.sets > 1 and memory_of(self.side, 2 * sizes) > options.memory * 1e9

    def total(self, sets):
        """About how many boards the sets leave of all claims that are looked at."""
        key = masks_text(sets)
        if key not in self.known:
            boards = (self.kernel.boards(claim.board, claim.fewer, sets, self.options.width, 1) for claim in self.claims)
            self.known[key] = sum(boards)
            tell(f"{self.known[key]:.3g} boards over {key}")
        return self.known[key]

    def sample(self, sets):
        """Adds samples of the boards which the sets leave at a third of the moves; without sets the boards of the claims themselves."""
        for claim in self.claims:
            many = -(-self.options.samples // len(self.claims)) if sets else 1
            level = claim.fewer // LEVELS_OF_ALL if sets else 0
            self.kernel.sample(claim.board, claim.fewer if sets else MOST_MOVES, sets, self.options.width, level, many)

    def started(self, parts):
        return [parts, mirrored(parts, self.side)] if self.is_paired else [parts]

    def first(self):
        """The best partition on the boards, then that on these and the survivors of it, and so on; of these the one that leaves the
        fewest. A set that is good on the survivors of one alone may be bad."""
        self.kernel.forget()
        self.sample([])
        found = [self.kernel.best([], self.is_paired)]
        for _ in range(self.options.rounds):
            self.sample(self.started(found[-1]))
            found.append(self.kernel.best([], self.is_paired))
            if found[-1] in found[:-1]:
                break
        return min(map(self.started, found), key=self.total)

    def more(self, sets):
        """A set more, that which leaves the fewest boards, or None where none has room."""
        self.kernel.forget()
        self.sample(sets)
        parts = [self.kernel.best(sets, False), *(mirrored(parts, self.side) for parts in sets)]
        tried = [sets + [it] for it in parts if set(it) not in map(set, sets)]
        return min((it for it in tried if Plan(self.side, it).fits(self.options.memory)), key=self.total, default=None)

    def choose(self):
        chosen = self.first()
        while len(chosen) < self.options.sets and (longer := self.more(chosen)):
            chosen = longer
        return chosen


def guess(kernel, claim):
    """For fewer than how many moves a bare board is searched, by its sum over the partition that is best on it."""
    kernel.forget()
    kernel.sample(claim.board, MOST_MOVES, [], 1, 0, 1)
    return int(STRETCH * first_threshold(kernel, claim, [kernel.best([], False)]))


def first_threshold(kernel, claim, sets):
    return next(fewer for fewer in range(2, MOST_MOVES) if kernel.boards(claim.board, fewer, sets, 1, 1))


def thresholds(kernel, claim, sets, options):
    """The boards at each threshold: of a bare board up to where there are very many."""
    fewer = first_threshold(kernel, claim, sets) + 1 if claim.is_bare else claim.fewer
    boards = 0
    while boards <= options.most:
        boards = kernel.boards(claim.board, fewer, sets, options.width, 2)
        yield fewer, boards + (FIRST_LOOK if boards > FIRST_LOOK else 0)
        fewer += 2
        if not claim.is_bare:
            return


def duration(seconds):
    return f"{seconds:.2g} s" if seconds < 99 else f"{seconds / 60:.3g} min" if seconds < 5940 else f"{seconds / 3600:.3g} h"


def script(kernel, claims, sets, options):
    """The lines of the script, and what is expected."""
    side, plan, total = claims[0].side, Plan(claims[0].side, sets), 0
    taken = kernel.seconds()
    yield "set -e"
    for place, claim in enumerate(claims):
        for fewer, boards in thresholds(kernel, claim, sets, options):
            yield f"# claim {place}, below {fewer}: {boards:.2g} boards"
            total += boards
    make, answer = seconds_of(side, plan.sizes, len(sets), total)
    yield f"# memory: {memory_of(side, plan.sizes) / 1e9:.2g} GB"
    yield f"# processor time: {duration(taken)} to choose, {duration(make)} to make the tables, {duration(answer)} to answer"
    instead = options.instead or (None if options.take else KNOWN.get((side, options.tiles)))
    if instead:
        yield compared(kernel, claims, instead, options, taken + make + answer)
    for mask in plan.masks:
        tiles = ",".join(str(tile) for tile in range(side * side) if mask >> tile & 1)
        yield f"./pdb_cli make-table {side} tiles:{tiles} t{mask} --workers {options.workers}"
    yield "printf '{}\\n' >sets".format(plan.text.replace("\n", "\\n"))
    names = " ".join(f"t{mask}" for mask in plan.masks)
    yield f"./pdb_cli prove {shlex.quote(options.claims)} sets {names} --workers {options.workers}"


def compared(kernel, claims, parts, options, chosen):
    """Whether choosing pays, beside this partition with its mirror image."""
    side = claims[0].side
    sets = [parts, mirrored(parts, side)]
    boards = sum(boards for claim in claims for _, boards in thresholds(kernel, claim, sets, options))
    other = sum(seconds_of(side, Plan(side, sets).sizes, 2, boards))
    verdict = "choosing pays" if chosen < other else "choosing does not pay"
    masks = ",".join(map(str, parts))
    return f"# {verdict}: {duration(chosen)} in all; with {masks} and transposed {duration(other)}, over {boards:.2g} boards"


def masks_of(text):
    return list(map(int, text.split(",")))


def options_of(words):
    parser = argparse.ArgumentParser(description=__doc__, formatter_class=argparse.RawDescriptionHelpFormatter)
    parser.add_argument("claims", metavar="CLAIMS", help="a claims text, or - for standard input")
    parser.add_argument("--tiles", type=int, default=6, help="tiles of a table (6)")
    parser.add_argument("--sets", type=int, default=2, help="how many sets at most (2)")
    parser.add_argument("--memory", type=float, default=6, help="GB of memory that a run may take (6)")
    parser.add_argument("--workers", type=int, default=4, help="workers, for the script that is written (4)")
    parser.add_argument("--take", type=masks_of, help="masks of a set, with commas, to take it and its mirror image unchosen")
    parser.add_argument("--instead", type=masks_of, help="masks of a set, with commas, to compare with")
    parser.add_argument("--tables", nargs="*", default=[], metavar="FILE", help="tables that are there, to look their counts up")
    parser.add_argument("--samples", type=int, default=40, help="how many boards the patterns are counted on (40)")
    parser.add_argument("--width", type=int, default=300, help="boards of a level that stand for all (300)")
    parser.add_argument("--of", type=int, default=4, help="of how many claims the boards are looked at (4)")
    parser.add_argument("--rounds", type=int, default=3, help="how often the first set is chosen anew (3)")
    parser.add_argument("--most", type=float, default=1e10, help="a bare board's thresholds up to so many boards (1e10)")
    options = parser.parse_args(words)
    if min(options.tiles, options.sets, options.samples, options.width, options.of, options.workers) < 1 or options.rounds < 0:
        raise Mistake("a number is too small")
    return options


def main():
    try:
        options = options_of(sys.argv[1:])
        claims = read_claims(options.claims)
        side = claims[0].side
        sizes = sizes_of(side, options.tiles)
        if options.tiles > MOST_TILES[side] or options.sets > MOST_SETS or len(sizes) > MOST_TABLES:
            raise Mistake("a table has at most 6 tiles on side 5 and 8 on sides 3 and 4, and there are at most 16 tables and sets")
        kernel = Kernel(side, sizes, options.tables)
        choice = Choice(kernel, claims, options)
        for claim in claims:
            claim.fewer = guess(kernel, claim) if claim.is_bare else claim.fewer
        taken = [options.take, mirrored(options.take, side)][: options.sets] if options.take else choice.choose()
        for line in script(kernel, claims, taken, options):
            print(line, flush=True)
    except (Mistake, OSError, UnicodeDecodeError) as mistake:
        print(f"choose_tables: {mistake}", file=sys.stderr)
        sys.exit(2)


main()
