#!/usr/bin/env python3
"""Shows solutions move by move: the boards of each line that has a board, a semicolon and moves.

    echo '3 2 1 0 ; ULDRUL' | tools/claims/show_solution.py
    tools/claims/show_solution.py answers --svg solutions.svg

The lines are those of a file or of standard input: puzzle texts, claims with moves, or what `prove` answers (`optimal N of BOARD ;
MOVES`, perhaps ` with the blank last`). Other lines are passed over. The boards are printed one below the other, each under the number and the letter of the move
that leads to it; with `--svg FILE` they are drawn as a strip, with the tile that has just moved in colour. Nothing is checked but
that each move stays on the board: the program is what checks. The status is 1 where no line is shown, or a move leaves the board.
"""

import argparse
import pathlib
import re
import sys

sys.path.insert(0, str(pathlib.Path(__file__).resolve().parents[1] / "plain"))

from plain_answers import moved, side_of

CELL, GAP, ACROSS = 22, 16, 10


def solutions(lines):
    """The board and the letters of each line that has them."""
    for line in lines:
        found = re.fullmatch(r"(?:optimal \d+ of )?([\d\s]+);([UDLR\s]*?)(?: with the blank last)?", line.strip())
        board = found and tuple(map(int, found[1].split()))
        if found and len(board) in (4, 9, 16, 25) and sorted(board) == list(range(len(board))):
            yield board, "".join(found[2].split())


def frames(board, letters):
    """Each board with what is said of it and the tile that has just moved, from the first board on."""
    yield board, "the board", 0
    for number, letter in enumerate(letters, 1):
        after = moved(board, letter)
        if after is None:
            sys.exit(f"move {number}, {letter}, leaves the board")
        yield after, f"{number}: {letter}", board[after.index(0)]
        board = after


def text(board, words):
    side = side_of(board)
    rows = (" ".join(f"{number or '':>2}" for number in board[at : at + side]).rstrip() for at in range(0, side * side, side))
    return "\n".join([words, *rows, ""])


def drawn(board, words, tile, left, top):
    """The frame of a board: its words, and a square for each tile."""
    side = side_of(board)
    yield f'<text x="{left}" y="{top - 5}" text-anchor="start">{words}</text>'
    yield f'<rect x="{left}" y="{top}" width="{side * CELL}" height="{side * CELL}" fill="#dddddd"/>'
    for cell, number in enumerate(board):
        if number:
            x, y = left + cell % side * CELL, top + cell // side * CELL
            colour = "#f2c14e" if number == tile else "white"
            yield f'<rect x="{x}" y="{y}" width="{CELL}" height="{CELL}" fill="{colour}" stroke="#767676"/>'
            yield f'<text x="{x + CELL / 2:g}" y="{y + CELL / 2 + 4:g}">{number}</text>'


def strips(shown):
    """The strips of some solutions, one below the other."""
    parts, top, width = [], GAP, 0
    for board, letters in shown:
        step = side_of(board) * CELL + GAP
        for number, frame in enumerate(frames(board, letters)):
            row, column = divmod(number, ACROSS)
            parts += drawn(*frame, GAP + column * step, top + GAP + row * (step + GAP))
            width = max(width, GAP + (column + 1) * step)
        top += (len(letters) // ACROSS + 1) * (step + GAP) + GAP
    size = f'width="{width}" height="{top}" viewBox="0 0 {width} {top}"'
    style = 'font-family="sans-serif" font-size="11" text-anchor="middle"'
    return "\n".join([f'<svg xmlns="http://www.w3.org/2000/svg" {size} {style}>', *parts, "</svg>", ""])


def main():
    parser = argparse.ArgumentParser(description=__doc__.partition("\n")[0])
    parser.add_argument("file", nargs="?", type=argparse.FileType(), default=sys.stdin, help="where the lines are")
    parser.add_argument("--svg", metavar="FILE", type=argparse.FileType("w"), help="draw the boards in this file")
    asked = parser.parse_args()
    shown = list(solutions(asked.file))
    if asked.svg:
        asked.svg.write(strips(shown))
    else:
        for board, letters in shown:
            print(*(text(board, words) for board, words, _ in frames(board, letters)), sep="\n")
    return not shown


sys.exit(main())
