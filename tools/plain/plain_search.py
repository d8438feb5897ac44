#!/usr/bin/env python3
"""Counts how many boards a search for a shortest solution expands, by iterative deepening (Korf 1985) over the sets of tables,
read off docs/FORMATS.md. Nothing of the program is used.

    tools/plain/plain_search.py [--fold] [--strings FILE] [--below N | --each] BOARD SETS TABLES..

The files are those of `solve`. What is written is the number of moves of a shortest solution, and the number of boards whose
moves were generated until it was found: the least budget that suffices. With --each a line as `below 21: 769` is written for
each search in place of that: a search for a solution of fewer than 21 moves expanded so many. With --below the
last of them is for this bound, behind those for lower ones, up to four below it. With --strings moves that complete a string of
FILE are left out, and not those alone that take a move back. A board that has no solution is searched for ever.
"""

import argparse
import functools
import pathlib

from plain_answers import REVERSE, goal, moved, raised, read_board, read_sets, read_tables, side_of, sum_of, ways

REVERSALS = [letter + reverse for letter, reverse in REVERSE.items()]


class Search:
    """A search over sets, which knows of each board that it came to what the sets say of it, and where its moves lead. Moves that
    complete one of the strings are left out."""

    def __init__(self, sets, strings=REVERSALS):
        self.sets, self.strings, self.expanded = sets, frozenset(strings), 0
        self.lengths = sorted({len(string) for string in strings})
        self.says = functools.cache(self.says)
        self.after = functools.cache(self.after)

    def says(self, board):
        """The greatest number of moves that no solution is below, of the parity of all solutions; endless for never."""
        told = [raised(sum_of(members, board), board) for members in self.sets]
        return float("inf") if None in told else max(told)

    def after(self, board):
        """The moves in their order, the boards that they lead to, and what the sets say of these."""
        found = [(letter, moved(board, letter)) for letter in ways(side_of(board), board.index(0))]
        return [(letter, there, self.says(there)) for letter, there in found]

    def solves(self, board, left, trail=""):
        """Whether so many moves can be enough from this board, which isn't the goal board, and of which the sets say no more.
        The trail has the last moves that led here."""
        self.expanded += 1
        for letter, there, says in self.after(board):
            longer = (trail + letter)[-self.lengths[-1] :]
            if any(longer[-length:] in self.strings for length in self.lengths):
                continue
            if says < left:
                if says == 0 and there == goal(side_of(there)) or self.solves(there, left - 1, longer):
                    return True
            else:
                self.exceeds = min(self.exceeds, says - (left - 1))
        return False

    def searches(self, board):
        """The thresholds up to the number of moves of a shortest solution, each with how many boards its search expands."""
        threshold, is_solved = self.says(board), board == goal(side_of(board))
        if is_solved:
            yield 0, 0
        while not is_solved:
            self.exceeds, before = float("inf"), self.expanded
            is_solved = self.solves(board, threshold)
            yield threshold, self.expanded - before
            threshold += self.exceeds

    def searches_below(self, board, bound):
        """The searches that show that no solution has fewer moves than a bound, or find one: as `searches`, but by what each is below."""
        threshold = self.says(board) + 1
        lower = range(threshold, bound - 3, 2)
        for below in [*lower, bound]:
            before, self.exceeds = self.expanded, float("inf")
            is_solved = self.solves(board, below - 1)
            yield below, self.expanded - before
            if is_solved:
                return


def main():
    parser = argparse.ArgumentParser(description=__doc__.partition("\n\n")[0])
    parser.add_argument("--fold", action="store_true")
    parser.add_argument("--strings", type=pathlib.Path)
    parser.add_argument("--below", type=int)
    parser.add_argument("--each", action="store_true")
    parser.add_argument("names", nargs="+", type=pathlib.Path, metavar="BOARD SETS TABLES..")
    words = parser.parse_args()
    board, sets, *files = (name.read_bytes() for name in words.names)
    strings = words.strings.read_text().split() if words.strings else REVERSALS
    search, board = Search(read_sets(sets, read_tables(files, words.fold)), strings), read_board(board)
    if words.below:
        for below, expanded in search.searches_below(board, words.below):
            print(f"below {below}: {expanded}")
        return
    for threshold, expanded in search.searches(board):
        if words.each:
            print(f"below {threshold + 1}: {expanded}")
    if not words.each:
        print(threshold, search.expanded)


if __name__ == "__main__":
    main()
