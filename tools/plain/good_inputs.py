"""Good inputs of every kind, drawn at random: puzzle texts, exact tables, set texts, logs that prove their bounds, patterns,
searches, claims and answers on parts of bounds."""

import functools
import itertools
import re
from dataclasses import dataclass

from plain_answers import (
    BRANCH,
    CITATION,
    LETTERS,
    REVERSE,
    Member,
    goal,
    leaves_of,
    moved,
    read_sets,
    read_table,
    read_tables,
    side_of,
    table_of,
    ways,
)

# Masks of patterns by their side, small enough for many tables a second.
MASKS = {
    2: [2, 4, 6, 8, 10, 12, 14],
    3: [2, 4, 6, 14, 22, 48, 112, 256, 384, 448, 30],
    4: [2, 32768, 6],
    5: [2, 16777216],
}
# Patterns whose tables are large enough to be checked by runs, by their sides.
LARGE = [(3, 126), (4, 30), (3, 510), (4, 1632), (3, 254), (4, 61440), (3, 380), (3, 438)]
# A tree of the bound 255 on side 2 has two chains of 255 nodes.
MOST_NODES = {2: 520, 3: 150, 4: 150, 5: 150}


def board_text(draw, board):
    """A board text of this board, with separators and leading zeros as they may be."""
    if draw.random() < 0.5:
        return b" ".join(b"%d" % number for number in board)
    text = draw.choice([b"", b" ", b"\n"])
    for number in board:
        text += (b"%02d" if draw.random() < 0.2 else b"%d") % number
        text += b"".join(draw.choices([b" ", b"\t", b"\r", b"\n"], k=draw.choice([1, 1, 1, 2, 3])))
    return text


def walk(draw, side, steps):
    """The board after so many moves from the goal board, and the letters that lead back."""
    board, letters = goal(side), ""
    for _ in range(steps):
        letter = draw.choice([letter for letter in ways(side, board.index(0)) if letter != letters[:1]])
        board = moved(board, letter)
        letters = REVERSE[letter] + letters
    return board, letters


def puzzle_text(draw, board, letters):
    separator = draw.choice([b"", b"", b" ", b"\n"])
    moves = separator.join(letter.encode() for letter in letters)
    return board_text(draw, board) + draw.choice([b";", b" ; "]) + moves + draw.choice([b"", b"\n"])


def puzzle(draw):
    side = draw.choice([2, 2, 3, 3, 3, 4, 5])
    board, letters = walk(draw, side, draw.choice([0, 1, 2, 5, 12, 40]))
    if draw.random() < 0.02:
        letters += "RL" * ((1000 - len(letters)) // 2)
    return puzzle_text(draw, board, letters)


def table(draw, side=None):
    side = side or draw.choice([2, 2, 2, 3, 3, 3, 4, 5])
    return table_of(side, draw.choice(MASKS[side]))


def set_text(draw, tables):
    """A set text over these table files, with some members transposed. The members of a line have no tile in common."""
    tables = [read_table(file) for file in tables]
    lines = b""
    for _ in range(draw.choice([1, 1, 1, 1, 2, 2, 3, 3, 16])):
        kinds = draw.choice([[False], [False], [True], [False, True]])
        members = [(number, is_transposed) for number in range(len(tables)) for is_transposed in kinds]
        taken, line = set(), []
        for number, is_transposed in sorted(draw.sample(members, draw.randint(1, len(members)))):
            tiles = Member(tables[number], is_transposed).tiles
            if not tiles & taken:
                taken |= tiles
                line.append((b"%dt" if is_transposed else b"%d") % number)
        lines += b"set " + b" ".join(line) + b"\n"
    return lines


class Prover:
    """Trees that refute in a log of a version, over sets and the lemmas that were proved before."""

    def __init__(self, draw, sets, version):
        self.draw, self.lemmas, self.nodes = draw, [], 0
        leaves = leaves_of(sets, version)
        self.said = functools.cache(lambda board: {byte: says(board) for byte, says in leaves.items()})

    def leaves(self, board, remaining):
        for byte, says in self.said(board).items():
            if says is None or says >= remaining:
                yield bytes([byte])

    def citations(self, board, remaining):
        for number, (claimed, bound, _) in enumerate(self.lemmas):
            if claimed == board and bound >= remaining:
                yield bytes([CITATION]) + number.to_bytes(4, "big")

    def tree(self, board, remaining, arriving=None):
        """A tree that refutes the board, or None where none was found."""
        self.nodes += 1
        ends = list(itertools.chain(self.leaves(board, remaining), self.citations(board, remaining)))
        if ends and self.draw.random() < 0.7:
            return self.draw.choice(ends)
        branch = self.branch(board, remaining, arriving)
        return self.draw.choice(ends) if branch is None and ends else branch

    def branch(self, board, remaining, arriving):
        if remaining < 1 or board == goal(side_of(board)) or self.nodes > MOST_NODES[side_of(board)]:
            return None
        tree = bytes([BRANCH])
        for letter in ways(side_of(board), board.index(0)):
            if letter != REVERSE.get(arriving):
                child = self.tree(moved(board, letter), remaining - 1, letter)
                if child is None:
                    return None
                tree += child
        return tree

    def prove(self, board, bound):
        """Adds a lemma of the board with the greatest bound up to this one that is found at once. Any leaf proves what it
        says."""
        told = min((bound if says is None else says for says in self.said(board).values()), default=0)
        for claimed in (bound, (bound + told) // 2, min(bound, told)):
            self.nodes = 0
            tree = self.tree(board, claimed)
            if tree is not None:
                self.lemmas.append((board, claimed, tree))
                return


def log_of(version, lemmas):
    side = side_of(lemmas[0][0])
    return b"PDBL" + bytes([version, side]) + len(lemmas).to_bytes(4, "big") + b"".join(
        bytes(board) + bytes([bound]) + len(tree).to_bytes(4, "big") + tree for board, bound, tree in lemmas
    )


def unsolvable(board):
    """The board with its two greatest numbers exchanged."""
    one, other = len(board) - 1, len(board) - 2
    return tuple({one: other, other: one}.get(number, number) for number in board)


@dataclass(frozen=True)
class LogCheck:
    """A board, the letters of a solution of it or None, a set text, the version and the lemmas of a log, table files, and
    whether the log is over folded tables."""

    board: tuple
    letters: str | None
    sets: bytes
    version: int
    lemmas: list
    tables: list
    fold: bool


def log_check(draw):
    side = draw.choice([2] * 5 + [3] * 3 + [4, 5])
    files = [table(draw, side) for _ in range(draw.choice([1, 1, 2, 2, 3, 16]))]
    sets_text = set_text(draw, files)
    version, fold = draw.choice([1, 2]), draw.random() < 0.3
    prover = Prover(draw, read_sets(sets_text, read_tables(files, fold)), version)
    board, letters = walk(draw, side, draw.randint(0, {2: 7, 3: 14, 4: 10, 5: 8}[side]))
    if draw.random() < 0.15:
        board, letters = unsolvable(board), None
    for _ in range(draw.choice([0, 0, 1, 3])):
        nearby = board
        for letter in draw.sample(LETTERS.decode(), 2):
            nearby = moved(nearby, letter) or nearby
        prover.prove(nearby, draw.randint(0, 10))
    steps = len(letters) if letters is not None else draw.choice([3, 8, 255])
    prover.prove(board, steps)
    return LogCheck(board, letters, sets_text, version, prover.lemmas, files, fold)


def side_and_mask(draw):
    """A side and a mask, most of them a pattern of few tiles."""
    side = draw.choice([2, 2, 3, 3, 3, 4, 5])
    how = draw.random()
    if how < 0.5:
        return side, draw.choice(MASKS[side])
    tiles = draw.sample(range(1, side * side), draw.randint(1, {2: 3, 3: 4, 4: 2, 5: 1}[side]))
    mask = sum(1 << tile for tile in tiles)
    if how < 0.75:
        return side, mask
    no_pattern = [
        (side, mask | 1),
        (side, 0),
        (side, mask | 1 << draw.randrange(side * side, 32)),
        (side, (1 << side * side) - 2 if side > 3 else (1 << side * side) - 1),
        (draw.choice([0, 1, 6, 7, 255]), mask),
        (draw.choice([256, 1000, 2**64]), mask),
        (side, draw.choice([2**32, 2**32 + mask, 2**70])),
    ]
    return draw.choice(no_pattern)


def board_to_solve(draw, side):
    """A board, most of them near the goal board, and how many boards may be expanded: few where the search is long."""
    steps = {2: 6, 3: 14, 4: 8, 5: 5}[side]
    board, _ = walk(draw, side, draw.randint(0, steps))
    most = draw.choice([1_000_000] * 6 + [10**12, 1, 2, 5, 20, 100, 1000])
    if side == 3 and draw.random() < 0.2:
        return tuple(draw.sample(range(9), 9)), draw.choice([1, 10, 100, 1000, 3000])
    if draw.random() < 0.1:
        return unsolvable(board), 1_000_000 if side == 2 else min(most, 20_000)
    return board, most


def search(draw):
    """A board, the budget of a search, a set text and tables."""
    side = draw.choice([2, 2, 2, 3, 3, 3, 4, 5])
    board, budget = board_to_solve(draw, side)
    files = [table(draw, side) for _ in range(draw.choice([1, 1, 1, 2, 3, 16]))]
    return board, budget, set_text(draw, files), files


def line_text(draw, board):
    """A board text of a line, which has no LF."""
    return board_text(draw, board).replace(b"\n", draw.choice([b" ", b"\t", b"\r"]))


def part_of_some(draw):
    """The index of a part, and how many there are."""
    count = draw.choice([1, 3, 3, 7, 15, 17, 63, 65]) if draw.random() < 0.97 else 65_535
    return draw.randrange(count), count


def claim_line(draw, side, steps):
    """A line of any kind on a board near the goal board, true or false, or on one that has no solution."""
    kind = draw.choice(["shortest", "moves", "bound", "part"])
    # Of a shorter solution there are too few letters to tell a part.
    far = 10 if kind == "part" and side == 3 else 0
    board, letters = walk(draw, side, draw.randint(far, steps + far))
    if draw.random() < 0.1:
        board = unsolvable(board)
    if kind == "shortest":
        return line_text(draw, board)
    if kind in ("bound", "part"):
        bound = max(len(letters) + draw.choice([-2, -1, 0, 0, 0, 1, 2]), 0)
        bound = draw.choice([0, 1, 255]) if draw.random() < 0.1 else bound
        part = b" part %d/%d" % part_of_some(draw) if kind == "part" else b""
        return line_text(draw, board) + draw.choice([b":", b" : "]) + b"%d" % bound + part + draw.choice([b"", b" ", b"\r"])
    letters += draw.choice(["", "", "", "RL", "DU", "R", "L"])
    return line_text(draw, board) + draw.choice([b";", b" ; "]) + letters.encode() + draw.choice([b"", b" ", b"\r"])


def claims_text(draw, side):
    steps = {2: 6, 3: 12, 4: 7, 5: 5}[side]
    lines = [claim_line(draw, side, steps) for _ in range(draw.choice([1, 1, 2, 3, 5, 20]))]
    for _ in range(draw.choice([0, 0, 1, 3])):
        lines.insert(draw.randint(0, len(lines)), draw.choice([b"", b" \t", b"\r", b"# 3 2 1 0 : 7", b"#", b"#\r"]))
    return b"\n".join(lines) + draw.choice([b"\n", b"\n", b""])


def claims(draw):
    """A claims text, the budget of each claim or none, a set text and tables."""
    side = draw.choice([2, 2, 2, 3, 3, 3, 4, 5])
    files = [table(draw, side) for _ in range(draw.choice([1, 1, 1, 2, 3, 16]))]
    budget = draw.choice([None, None, None, 10**12, 1, 2, 5, 20, 100, 1000])
    text = claims_text(draw, side)
    if side > 3 and re.search(rb": ?255", text):
        # Depth first, and so far down, a search of a large board hardly ends.
        budget = min(budget or 1000, 1000)
    return text, budget, set_text(draw, files), files


def answers_on_parts(draw):
    """A board, a bound, a count of parts, and texts of answer lines, most of which say that a part of that bound holds."""
    board, letters = walk(draw, draw.choice([2, 3, 4, 5]), draw.randint(0, 40))
    bound, (_, count) = draw.choice([len(letters), 0, 255]), part_of_some(draw)
    numbers = b" ".join(b"%d" % number for number in board)
    line = b"part %d/%d of bound %d of %b\n"
    lines = [line % (index, count, bound, numbers) for index in range(count)]
    if draw.random() < 0.5:
        lines.pop(draw.randrange(count))
    others = [
        line % (0, count + 2, bound, numbers),
        line % (0, count, (bound + 1) % 256, numbers),
        line % (0, count, bound, numbers[::-1]),
        b"refused K1 of %b : %d part 0/%d\n" % (numbers, bound, count),
        b"refused K2 of %b : %d part 0/%d\n" % (numbers, bound, count),
        b"refused O2 by %b of %b : %d part 0/%d\n" % (letters.encode(), numbers, bound, count),
        b"sha256 %064x\n" % draw.getrandbits(256),
        b"bound %d of %b\n" % (bound, numbers),
    ]
    lines += draw.sample(others, draw.randint(0, len(others)))
    draw.shuffle(lines)
    cuts = [0, *sorted(draw.randint(0, len(lines)) for _ in range(draw.choice([0, 0, 1, 2]))), len(lines)]
    texts = [b"".join(lines[one:other]) for one, other in zip(cuts, cuts[1:])]
    return board, bound, count, texts
