"""The proved checks of pdb_cli from Python, over ctypes alone.

    checker = Checker([Table("tiles_1_to_4"), Table("tiles_5_to_8")], b"set 0 1\\n")
    checker.bound("0 3 2 4 1 8 7 6 5", 20)           # Bound(board, 20), or raises
    checker.shortest(Board([0, 3, 2, 4, 1, 8, 7, 6, 5]))
    checker.answers(["3 1 2 0 4 5 6 7 8 ; DUU"])     # the answer to each claim, Refused among them

What a call returns holds: pdb.h beside this file says what is proved of it. What isn't so is raised: Refused, with its code, its place
and its sentence; Shorter, a refusal that has the moves of a shorter solution; NoMemory. Tables are made by the program, which nobody
has to trust: make_table.

Texts, set texts and table files are bytes, anything else that has a buffer (an mmap, a memoryview, an array), or a path, which is read
whole. Nothing is copied that has a buffer, so it must not change: a table of a buffer that can be written is the caller's to keep as
it is. No call holds the interpreter's lock.
"""

from __future__ import annotations

import array
import ctypes
import mmap
import os
import re
import subprocess
import tempfile
from collections.abc import Iterable, Sequence
from dataclasses import dataclass
from pathlib import Path
from typing import Union

__all__ = [
    "Board", "Bound", "Checker", "Exact", "NoMemory", "Optimal", "Refused", "Shorter", "Solution", "Table", "make_table", "replay",
]

Buffer = Union[bytes, bytearray, memoryview, mmap.mmap, array.array]
Source = Union[Buffer, str, "os.PathLike[str]"]
Text = Union[str, bytes, bytearray, memoryview]

MOST_BOARDS = 2**64 - 1
YES, SHORTER, REFUSED, NO_MEMORY, MISUSED = range(5)
BOUND, MOVES, SHORTEST = range(3)

SENTENCES = {
    "P1": "there is no `;` between a board and its moves",
    "B1": "byte {} of the board is no digit, space, tab or line end",
    "B2": "three or more digits stand in a row, from byte {} on",
    "B3": "the board has {} numbers, where 4, 9, 16 or 25 are wanted",
    "B4": "number {} of the board is too great for that many cells",
    "B5": "number {} of the board stands there twice",
    "M1": "byte {} behind the `;` is none of U, D, L, R, space, tab and line end",
    "M2": "the move at step {} takes the blank off the board",
    "M3": "there are more than 1000 moves",
    "M4": "the moves don't end on the goal board, which has each number in its own cell",
    "T1": "a table file has at least 20 bytes",
    "T2": "a table file begins with `PDBT` and a byte 1",
    "T3": "byte 5 of a table file is the side, 2 to 5",
    "T4": "the mask in the header is no pattern of that side, or doesn't fit the bytes beside it",
    "T5": "the header says a number of entries that such a table doesn't have",
    "T6": "the file is shorter or longer than its header says",
    "T7": "the table is wrong: entry {} doesn't fit those one move away",
    "S5": "there may be 1 to 16 tables, and 1 to 16 lines",
    "S4": "table {} is of another side than table 0",
    "S1": "line {} isn't `set` and ascending numbers of tables, one space before each, with a line end and no CR",
    "S2": "line {} names a table that isn't there: they are numbered from 0",
    "S6": "line {} has two tables of the same tiles, one of them transposed",
    "S3": "line {} has two tables with a tile in common",
    "Q2": "the board is of another side than the tables",
    "O2": "a solution has fewer moves",
    "K1": "the budget of boards is spent",
    "K2": "the board has no solution, or none of fewer than 255 moves",
}


# ---- what goes to the library and comes from it


class _Answer(ctypes.Structure):
    _fields_ = [
        ("count", ctypes.c_uint16), ("letters", ctypes.c_uint16), ("length", ctypes.c_uint16), ("status", ctypes.c_uint8),
        ("moves", ctypes.c_char * 256), ("line", ctypes.c_char * 321),
    ]


class _Bytes(ctypes.Structure):
    _fields_ = [("at", ctypes.c_void_p), ("length", ctypes.c_size_t)]


class _Over(ctypes.Structure):
    _fields_ = [("tables", ctypes.POINTER(_Bytes)), ("count", ctypes.c_size_t), ("sets", _Bytes), ("budget", ctypes.c_uint64)]


class _Claim(ctypes.Structure):
    _fields_ = [("board", _Bytes), ("moves", _Bytes), ("bound", ctypes.c_uint8), ("asks", ctypes.c_uint8)]


class _PyBuffer(ctypes.Structure):
    _fields_ = [
        ("buf", ctypes.c_void_p), ("obj", ctypes.py_object), ("len", ctypes.c_ssize_t), ("itemsize", ctypes.c_ssize_t),
        ("readonly", ctypes.c_int), ("ndim", ctypes.c_int), ("format", ctypes.c_char_p), ("shape", ctypes.c_void_p),
        ("strides", ctypes.c_void_p), ("suboffsets", ctypes.c_void_p), ("internal", ctypes.c_void_p),
    ]


_get_buffer, _release_buffer = ctypes.pythonapi.PyObject_GetBuffer, ctypes.pythonapi.PyBuffer_Release
_get_buffer.argtypes, _get_buffer.restype = [ctypes.py_object, ctypes.POINTER(_PyBuffer), ctypes.c_int], ctypes.c_int
_release_buffer.argtypes, _release_buffer.restype = [ctypes.POINTER(_PyBuffer)], None


class _Lent:
    """The bytes of an object, where they lie. They stay there while this is kept."""

    def __init__(self, source: Buffer):
        self._view = _PyBuffer()
        _get_buffer(source, ctypes.byref(self._view), 0)
        # An empty buffer may lie nowhere, and a pointer that is passed may not be null.
        self._nothing = ctypes.create_string_buffer(1)
        self.bytes = _Bytes(self._view.buf or ctypes.addressof(self._nothing), self._view.len)

    def __del__(self):
        # (the view has no object where none was lent)
        if self.__dict__.get("bytes") is not None:
            _release_buffer(ctypes.byref(self._view))


def _lend(source: Source) -> _Lent:
    """The bytes of a buffer, or of the file with that path."""
    return _Lent(Path(source).read_bytes() if isinstance(source, (str, os.PathLike)) else source)


def _lend_text(text: Text | Board) -> _Lent:
    return _Lent(str(text).encode() if isinstance(text, (str, Board)) else text)


_SIGNATURES = {
    "replay": [ctypes.c_void_p, ctypes.c_size_t, ctypes.POINTER(_Answer)],
    "table": [ctypes.c_void_p, ctypes.c_size_t, ctypes.POINTER(_Bytes), ctypes.POINTER(_Answer)],
    "sets": [ctypes.POINTER(_Over), ctypes.POINTER(_Answer)],
    "bound": [ctypes.c_void_p, ctypes.c_size_t, ctypes.c_uint8, ctypes.POINTER(_Over), ctypes.POINTER(_Answer)],
    "optimal": [
        ctypes.c_void_p, ctypes.c_size_t, ctypes.c_void_p, ctypes.c_size_t, ctypes.POINTER(_Over), ctypes.POINTER(_Answer),
    ],
    "shortest": [ctypes.c_void_p, ctypes.c_size_t, ctypes.POINTER(_Over), ctypes.POINTER(_Answer)],
    "claims": [
        ctypes.POINTER(_Over), ctypes.POINTER(_Claim), ctypes.c_size_t, ctypes.POINTER(_Answer), ctypes.c_size_t,
    ],
}


class _Library:
    """The library, loaded once: the file that PDB_CHECKER names, or else libpdb_checker.so beside this one."""

    loaded = None

    @classmethod
    def call(cls, name: str, *words) -> int:
        if cls.loaded is None:
            cls.loaded = ctypes.CDLL(os.environ.get("PDB_CHECKER") or str(Path(__file__).with_name("libpdb_checker.so")))
            for export, types in _SIGNATURES.items():
                function = getattr(cls.loaded, f"pdb_checker_{export}")
                function.argtypes, function.restype = types, ctypes.c_uint8
        return getattr(cls.loaded, f"pdb_checker_{name}")(*words)


# ---- answers


@dataclass(frozen=True)
class Board:
    """A board: the number in each cell, row by row from the upper left. The blank is 0. A notebook shows it as a drawing."""

    numbers: tuple[int, ...]

    def __init__(self, numbers: Text | Iterable[int]):
        if isinstance(numbers, (str, bytes, bytearray, memoryview)):
            numbers = (int(number) for number in (numbers if isinstance(numbers, str) else bytes(numbers).decode()).split())
        object.__setattr__(self, "numbers", tuple(numbers))

    @property
    def side(self) -> int:
        return round(len(self.numbers) ** 0.5)

    def __str__(self) -> str:
        return " ".join(map(str, self.numbers))

    def moved(self, letters: str) -> Board:
        """The board after these moves of the blank."""
        numbers, side, blank = list(self.numbers), self.side, self.numbers.index(0)
        for letter in letters:
            to = blank + {"U": -side, "D": side, "L": -1, "R": 1}[letter]
            if not 0 <= to < len(numbers) or (letter in "LR" and to // side != blank // side):
                raise ValueError(f"the move {letter} takes the blank off the board {Board(numbers)}")
            numbers[blank], numbers[to], blank = numbers[to], 0, to
        return Board(numbers)

    def _repr_svg_(self) -> str:
        side, cell = self.side, 40
        parts = [f'<svg xmlns="http://www.w3.org/2000/svg" width="{side * cell + 2}" height="{side * cell + 2}">']
        for place, number in enumerate(self.numbers):
            x, y = place % side * cell + 1, place // side * cell + 1
            fill = "#eee" if number == 0 else "#cde" if number != place else "#cec"
            parts.append(f'<rect x="{x}" y="{y}" width="{cell}" height="{cell}" fill="{fill}" stroke="#666"/>')
            if number:
                parts.append(
                    f'<text x="{x + cell // 2}" y="{y + cell // 2 + 6}" text-anchor="middle" font-family="sans-serif" font-size="17">'
                    f"{number}</text>"
                )
        return "".join([*parts, "</svg>"])


@dataclass(frozen=True)
class Solution:
    """The moves of a puzzle text, so many, solve its board."""

    count: int


@dataclass(frozen=True)
class Exact:
    """Each entry of a table is the least number of moves that its tiles need: the pattern, and the census of the entries."""

    side: int
    mask: int
    entries: int
    unreachable: int
    deepest: int

    @property
    def tiles(self) -> tuple[int, ...]:
        return tuple(tile for tile in range(32) if self.mask >> tile & 1)


@dataclass(frozen=True)
class Bound:
    """No solution of the board has fewer moves."""

    board: str
    bound: int


@dataclass(frozen=True)
class Optimal:
    """The moves, so many, solve the board, and no solution has fewer."""

    board: str
    count: int
    moves: str


class Refused(Exception):
    """What was given is refused: the code of docs/FORMATS.md, the place where it has one, and the sentence that says why."""

    def __init__(self, code: str, place: int | None = None):
        self.code, self.place = code, place
        self.sentence = SENTENCES.get(code, "it is refused").format(place)
        super().__init__(f"{code}: {self.sentence}")


class Shorter(Refused):
    """A claim is false: these moves are a solution of fewer moves than it says."""

    def __init__(self, moves: str):
        super().__init__("O2")
        self.moves = moves


class NoMemory(MemoryError):
    """Memory was refused, so there is no answer."""


_REFUSAL = re.compile(r"refused (\w\d)(?: (?:at|count|of) ?(?:byte|number|step|entry|line|table)? ?(\d+))?")


def _fault(answer: _Answer) -> Exception:
    """Why an answer is no yes."""
    if answer.status == SHORTER:
        return Shorter(answer.moves.decode())
    if answer.status == NO_MEMORY:
        return NoMemory("the system refused memory")
    told = _REFUSAL.match(answer.line.decode())
    if answer.status != REFUSED or told is None:
        return ValueError("the call doesn't fit together")
    return Refused(told[1], told[2] and int(told[2]))


# ---- calls


def replay(puzzle: Text) -> Solution:
    """Whether the moves of a puzzle text, `BOARD ; MOVES`, solve its board."""
    lent, answer = _lend_text(puzzle), _Answer()
    if _Library.call("replay", lent.bytes.at, lent.bytes.length, answer) != YES:
        raise _fault(answer)
    return Solution(answer.count)


class Table:
    """A table that was checked: its file is exact, as `exact` says. It keeps the object that has the bytes."""

    exact: Exact

    def __init__(self, file: Source):
        answer = _Answer()
        self._lent = _lend(file)
        self._handle = _Bytes(self._lent.bytes.at, 0)
        if _Library.call("table", self._lent.bytes.at, self._lent.bytes.length, self._handle, answer) != YES:
            raise _fault(answer)
        self.exact = Exact(*map(int, re.findall(r"\d+", answer.line.decode())))

    def __repr__(self) -> str:
        return f"<Table of the tiles {', '.join(map(str, self.exact.tiles))} on side {self.exact.side}>"


class Checker:
    """Claims on boards are answered over checked tables and a set text, by a search that expands at most `budget` boards for each."""

    def __init__(self, tables: Sequence[Table | Source], sets: Source, budget: int = MOST_BOARDS):
        self.tables = [table if isinstance(table, Table) else Table(table) for table in tables]
        self._sets = _lend(sets)
        # (an array of length 0 may lie nowhere)
        self._files = (_Bytes * max(1, len(self.tables)))(*(table._handle for table in self.tables))
        self._over = _Over(self._files, len(self.tables), self._sets.bytes, budget)
        answer = _Answer()
        if _Library.call("sets", self._over, answer) != YES:
            raise _fault(answer)

    def bound(self, board: Text | Board, bound: int) -> Bound:
        """That no solution of the board has fewer moves."""
        if not 0 <= bound <= 255:
            raise ValueError("a bound is 0 to 255")
        lent, answer = _lend_text(board), _Answer()
        if _Library.call("bound", lent.bytes.at, lent.bytes.length, bound, self._over, answer) != YES:
            raise _fault(answer)
        return Bound(_shown(board), bound)

    def optimal(self, board: Text | Board, moves: Text) -> Optimal:
        """That the moves solve the board, and no solution has fewer."""
        lent, other, answer = _lend_text(board), _lend_text(moves), _Answer()
        words = lent.bytes.at, lent.bytes.length, other.bytes.at, other.bytes.length
        if _Library.call("optimal", *words, self._over, answer) != YES:
            raise _fault(answer)
        return Optimal(_shown(board), answer.count, _letters(moves))

    def shortest(self, board: Text | Board) -> Optimal:
        """A shortest solution of the board."""
        lent, answer = _lend_text(board), _Answer()
        if _Library.call("shortest", lent.bytes.at, lent.bytes.length, self._over, answer) != YES:
            raise _fault(answer)
        return Optimal(_shown(board), answer.count, answer.moves.decode())

    def answers(self, claims: Iterable[str] | Source) -> list[Bound | Optimal | Exception]:
        """The answer to each claim, `BOARD`, `BOARD : N` or `BOARD ; MOVES`, in their order; where it is no yes, the exception that
        the other calls raise. What helps with hard claims is made once for all. A path or a buffer has a claim a line."""
        if isinstance(claims, (str, bytes, bytearray, memoryview, mmap.mmap, os.PathLike)):
            claims = bytes(Path(claims).read_bytes() if isinstance(claims, (str, os.PathLike)) else claims).decode().splitlines()
        parts = [_parted(claim) for claim in claims]
        lent = [(_lend_text(board), _lend_text(moves)) for board, moves, *_ in parts]
        given = (_Claim * max(1, len(parts)))(
            *(_Claim(board.bytes, moves.bytes, bound, asks) for (board, moves), (*_, bound, asks) in zip(lent, parts))
        )
        told = (_Answer * max(1, len(parts)))()
        status = _Library.call("claims", self._over, given, len(parts), told, len(parts))
        if status != YES and not parts:
            raise _fault(_Answer(status=status))
        if status != YES:
            raise _fault(told[0])
        return [_answered(part, answer) for part, answer in zip(parts, told)]


def _shown(board: Text | Board) -> str:
    return str(board if isinstance(board, Board) else Board(board))


def _letters(moves: Text) -> str:
    return "".join((moves if isinstance(moves, str) else bytes(moves).decode()).split())


def _parted(claim: str) -> tuple[str, str, int, int]:
    """The board and the moves of a claim, its bound, and what it asks."""
    board, mark, moves = claim.partition(";")
    if mark:
        return board, moves, 0, MOVES
    board, mark, bound = claim.partition(":")
    if not mark:
        return board, "", 0, SHORTEST
    if not re.fullmatch(r"\s*(0|[1-9]\d{0,2})\s*", bound) or int(bound) > 255:
        raise Refused("Q1")
    return board, "", int(bound), BOUND


def _answered(parts: tuple[str, str, int, int], answer: _Answer) -> Bound | Optimal | Exception:
    board, moves, bound, asks = parts
    if answer.status != YES:
        return _fault(answer)
    if asks == BOUND:
        return Bound(_shown(board), bound)
    return Optimal(_shown(board), answer.count, _letters(moves) if asks == MOVES else answer.moves.decode())


def make_table(side: int, tiles: Iterable[int], program: str = "pdb_cli", workers: int = 1) -> Table:
    """The table of these tiles, made by the program, which is trusted with nothing, and checked here."""
    with tempfile.TemporaryDirectory() as folder:
        file = Path(folder, "table")
        mask = "tiles:" + ",".join(map(str, tiles))
        words = [program, "make-table", str(side), mask, str(file), "--workers", str(workers)]
        told = subprocess.run(words, capture_output=True, text=True)
        if told.returncode:
            raise RuntimeError(f"{program} has made no table: {told.stdout}{told.stderr}")
        return Table(file)
