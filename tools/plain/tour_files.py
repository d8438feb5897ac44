#!/usr/bin/env python3
"""Writes the files of docs/TOUR.md: a claim on the 8-puzzle, in the formats of docs/FORMATS.md.

    tools/plain/tour_files.py FOLDER

Into FOLDER go two tables of a pattern database (`tiles_1_to_4`, `tiles_5_to_8`), the set text that adds them up
(`sets`), a board (`board`), the same with a shortest solution (`puzzle`), and a log which proves that no solution has
fewer moves (`log`). A second set text adds them up twice, the second time for the transposed board (`both_sets`), and a
log proves the same by both sets (`log_by_both`). Nothing of the program is used: what is written here is for the program to
judge.
"""

import itertools
import pathlib
import sys
from collections import Counter, deque

SIDE = 3
CELLS = range(SIDE * SIDE)
GOAL = tuple(CELLS)
BOARD = (0, 3, 2, 4, 1, 8, 7, 6, 5)
NO_REGION, NEVER = 254, 255
BRANCH, LEAF, CITATION = 0x00, 0x01, 0x20
REVERSE = {"U": "D", "D": "U", "L": "R", "R": "L"}


def ways(cell):
    """The letters of the blank's moves from a cell, in the order of a log, and the cells they lead to."""
    row, column = divmod(cell, SIDE)
    if row > 0:
        yield "U", cell - SIDE
    if row < SIDE - 1:
        yield "D", cell + SIDE
    if column > 0:
        yield "L", cell - 1
    if column < SIDE - 1:
        yield "R", cell + 1


# Tables. A placement is the list of the cells of a pattern's tiles.


def regions(placement):
    """The regions of the free cells, in the order of their least cells."""
    free = [cell for cell in CELLS if cell not in placement]
    found = []
    while free:
        region = [free[0]]
        for cell in region:
            region += [to for _, to in ways(cell) if to in free and to not in region]
        free = [cell for cell in free if cell not in region]
        found.append(region)
    return found


def slot(placement, cell):
    """The number of a free cell's region."""
    return next(slot for slot, region in enumerate(regions(placement)) if cell in region)


def counts(tiles):
    """The least number of moves of the tiles that bring them home and the blank to cell 0, for each placement and slot
    from which a walk leads there. The search goes breadth first from home: a move can be taken back, so it is the same
    length both ways."""
    home = (tiles, slot(tiles, 0))
    count, todo = {home: 0}, deque([home])
    while todo:
        here = todo.popleft()
        placement, region = here[0], regions(here[0])[here[1]]
        for place, cell in enumerate(placement):
            for _, to in ways(cell):
                if to in region:
                    after = placement[:place] + (to,) + placement[place + 1 :]
                    there = (after, slot(after, cell))
                    if there not in count:
                        count[there] = count[here] + 1
                        todo.append(there)
    return count


def table_file(tiles, count):
    width = min(len(tiles) + 1, len(CELLS) - len(tiles))
    entries = bytearray()
    for placement in itertools.permutations(CELLS, len(tiles)):
        slots = len(regions(placement))
        entries += bytes(count.get((placement, slot), NEVER) for slot in range(slots))
        entries += bytes([NO_REGION] * (width - slots))
    mask = sum(1 << tile for tile in tiles)
    header = b"PDBT" + bytes([1, SIDE, len(tiles), 0]) + mask.to_bytes(4, "big") + len(entries).to_bytes(8, "big")
    return header + entries


# Sets. A set is a list of members: the number of a table, and whether it is asked of the transposed board.

ONE_SET = [(0, False), (1, False)]
TRANSPOSED_SET = [(0, True), (1, True)]


def mirrored(cell):
    """The cell across the diagonal from the upper left to the lower right. A tile is mirrored as its own cell is."""
    row, column = divmod(cell, SIDE)
    return column * SIDE + row


def transposed(board):
    """The board with each cell and each number mirrored."""
    return tuple(mirrored(board[mirrored(cell)]) for cell in CELLS)


def set_text(sets):
    lines = (" ".join(f"{number}{'t' * is_transposed}" for number, is_transposed in members) for members in sets)
    return "".join(f"set {line}\n" for line in lines)


# The search: iterative deepening, with the greatest sum of the sets.


def moved(board, to):
    """The board after the blank went to an adjacent cell."""
    blank, cells = board.index(0), list(board)
    cells[blank], cells[to] = cells[to], 0
    return tuple(cells)


def lemma(board, bound, tree):
    return bytes(board) + bytes([bound]) + len(tree).to_bytes(4, "big") + tree


class Search:
    def __init__(self, patterns, sets):
        self.patterns = patterns  # the tiles of each table, and its counts
        self.sets = sets
        self.proved = {}  # the number and the bound of the lemma of a board
        self.met = Counter()  # how often a board was a branch, with so much remaining

    def told(self, number, board):
        """What a table tells of a board that can be solved, so that it doesn't tell never."""
        tiles, count = self.patterns[number]
        placement = tuple(board.index(tile) for tile in tiles)
        return count[placement, slot(placement, board.index(0))]

    def sum(self, members, board):
        return sum(self.told(number, transposed(board) if is_transposed else board) for number, is_transposed in members)

    def best_leaf(self, board):
        """What the first set says that says the most, and the byte of a leaf by it."""
        sums = [self.sum(members, board) for members in self.sets]
        most = max(sums)
        return most, bytes([LEAF + sums.index(most)])

    def refute(self, board, remaining, arriving=None):
        """A tree that refutes the board, or None, and the letters of a solution of fewer moves than remain, or None."""
        most, leaf = self.best_leaf(board)
        if most >= remaining:
            return leaf, None
        if board == GOAL:
            return None, ""
        number, bound = self.proved.get(board, (None, -1))
        if bound >= remaining:
            return bytes([CITATION]) + number.to_bytes(4, "big"), None
        self.met[board, remaining] += 1
        tree = bytes([BRANCH])
        for letter, to in ways(board.index(0)):
            if letter != REVERSE.get(arriving):
                child, moves = self.refute(moved(board, to), remaining - 1, letter)
                if moves is not None:
                    return None, letter + moves
                tree += child
        return tree, None

    def solve(self, board):
        """The letters of a shortest solution."""
        for bound in itertools.count(self.best_leaf(board)[0]):
            _, moves = self.refute(board, bound + 1)
            if moves is not None:
                return moves

    def log_file(self, board, bound):
        """A log whose last lemma is of this board. Of the boards that the search meets more than once, the one with the
        most remaining has a lemma of its own before it, which is then cited."""
        self.met.clear()
        self.refute(board, bound)
        repeated = [(remaining, met) for (met, remaining), times in self.met.items() if times > 1]
        claims = [(bound, board)] if not repeated else [max(repeated), (bound, board)]
        lemmas = b""
        for number, (remaining, claimed) in enumerate(claims):
            lemmas += lemma(claimed, remaining, self.refute(claimed, remaining)[0])
            self.proved[claimed] = (number, remaining)
        return b"PDBL" + bytes([1, SIDE]) + len(claims).to_bytes(4, "big") + lemmas


def main():
    if len(sys.argv) != 2:
        sys.exit("usage: tools/plain/tour_files.py FOLDER")
    folder = pathlib.Path(sys.argv[1])
    folder.mkdir(parents=True, exist_ok=True)
    patterns = [(tiles, counts(tiles)) for tiles in ((1, 2, 3, 4), (5, 6, 7, 8))]
    for tiles, count in patterns:
        (folder / f"tiles_{tiles[0]}_to_{tiles[-1]}").write_bytes(table_file(tiles, count))
    moves = Search(patterns, [ONE_SET]).solve(BOARD)
    board = " ".join(str(number) for number in BOARD)
    (folder / "board").write_text(f"{board}\n")
    (folder / "puzzle").write_text(f"{board} ; {moves}\n")
    for sets_name, log_name, sets in (("sets", "log", [ONE_SET]), ("both_sets", "log_by_both", [ONE_SET, TRANSPOSED_SET])):
        (folder / sets_name).write_text(set_text(sets))
        (folder / log_name).write_bytes(Search(patterns, sets).log_file(BOARD, len(moves)))


if __name__ == "__main__":
    main()
