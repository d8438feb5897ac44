#!/usr/bin/env python3
"""Turns a listing of boards, as papers and other programs have them, into a claims text for `prove`, or lines of `prove` back.

    echo '1 2 3 4 0 6 7 5 8 ; 5 8' | tools/claims/read_listing.py --blank last --moves numbers
    tools/claims/read_listing.py --blank last --moves numbers --back answers

A line of a listing has the numbers of a board, cell by cell, with anything between them that is no digit, letter, sign, `;` or `#`:
spaces, commas, brackets. With `--numbered` a number stands before them, and is left out. With `--lengths` the number of moves
stands behind them, and the claim is that no solution has fewer. Moves stand behind a `;`. Blank lines, and what follows a `#`, are
passed over. A line that says something else is named, and then nothing is written: the status is 1.

With `--back`, lines of `prove` that have moves, as `optimal N of BOARD ; MOVES`, become lines of the listing; others are left out.
"""

import argparse
import pathlib
import re
import sys

sys.path.insert(0, str(pathlib.Path(__file__).resolve().parents[1] / "plain"))

from plain_answers import moved, side_of

OPPOSITE = str.maketrans("UDLR", "DURL")


class Mistake(Exception):
    """What is wrong with a line."""


def board_of(numbers):
    board = tuple(map(int, numbers))
    if sorted(board) not in [list(range(n * n)) for n in (2, 3, 4, 5)]:
        raise Mistake(f"these {len(board)} numbers are no board")
    return board


def turned(board):
    """The board after half a turn, its tiles numbered from the other end: one with the blank last in its goal becomes one with it
    first, and the other way round."""
    return tuple(number and len(board) - number for number in reversed(board))


def slid(board, tile):
    """The letter for the blank's way when this tile moves, and the board then."""
    for letter in "UDLR":
        after = moved(board, letter)
        if after and board[after.index(0)] == tile:
            return letter, after
    raise Mistake(f"tile {tile} is not beside the blank")


def letters_of(board, text, kind):
    """The letters for the blank's ways of the moves in a text of the listing, whose board is given."""
    if kind != "numbers":
        letters = "".join(text.upper().split())
        if not set(letters) <= set("UDLR"):
            raise Mistake("a move is none of U, D, L and R")
        return letters if kind == "blank" else letters.translate(OPPOSITE)
    letters = ""
    for tile in re.findall(r"\d+", text):
        letter, board = slid(board, int(tile))
        letters += letter
    return letters


def text_of(board, letters, kind):
    """The moves as the listing has them, of these letters for the blank's ways."""
    if kind != "numbers":
        return letters if kind == "blank" else letters.translate(OPPOSITE)
    tiles = []
    for letter in letters:
        board, before = moved(board, letter), board
        tiles.append(str(before[board.index(0)]))
    return " ".join(tiles)


def claim_of(line, asked):
    """The claim of a line of a listing."""
    text, has_moves, moves = line.partition(";")
    if re.search(r"[A-Za-z+-]", text):
        raise Mistake("there is a letter or a sign among the numbers")
    numbers = re.findall(r"\d+", text)[asked.numbered :]
    length = numbers.pop() if asked.lengths and numbers else None
    board = board_of(numbers)
    letters = letters_of(board, moves, asked.moves)
    if asked.blank == "last":
        board, letters = turned(board), letters.translate(OPPOSITE)
    claim = " ".join(map(str, board))
    if has_moves:
        return f"{claim} ; {letters}"
    return claim if length is None else f"{claim} : {length}"


def line_of(answer, asked):
    """The line of a listing for a line of `prove` that has moves."""
    found = re.fullmatch(r"(?:optimal \d+ of )?([\d ]+);([UDLR ]*)", answer)
    if not found:
        return None
    board, letters = board_of(found[1].split()), "".join(found[2].split())
    if asked.blank == "last":
        board, letters = turned(board), letters.translate(OPPOSITE)
    return f"{' '.join(map(str, board))} ; {text_of(board, letters, asked.moves)}"


def main():
    parser = argparse.ArgumentParser(description=__doc__.partition("\n")[0])
    parser.add_argument("file", nargs="?", type=argparse.FileType(), default=sys.stdin, help="where the lines are")
    parser.add_argument("--blank", choices=["first", "last"], default="first", help="where it is on the listing's goal board")
    parser.add_argument("--moves", choices=["blank", "tile", "numbers"], default="blank",
                        help="the letters of the blank's ways, those of the tile's, or the numbers of the tiles")
    parser.add_argument("--numbered", action="store_true", help="a number stands before each board")
    parser.add_argument("--lengths", action="store_true", help="the number of moves stands behind each board")
    parser.add_argument("--back", action="store_true", help="from lines of prove to the listing")
    asked = parser.parse_args()
    made = []
    for number, line in enumerate(asked.file, 1):
        line = line.partition("#")[0].strip()
        try:
            if line:
                made.append(line_of(line, asked) if asked.back else claim_of(line, asked))
        except Mistake as mistake:
            sys.exit(f"read_listing.py: line {number}: {mistake}")
    sys.stdout.writelines(f"{it}\n" for it in made if it)


main()
