"""What the program must answer, read off docs/FORMATS.md as plainly as can be. Nothing of the program is used.

`answer` gives how a run must end: its lines, its status and the files that it leaves. A table is judged by the local rule,
entry by entry, and besides by a breadth-first search over placements and regions: the two must agree. A table of 65,536
entries and more is compared with the search, and where it differs, the rule is asked of all entries that can break it.
What `solve` and `prove` find is their own: moves must solve the board, and be as few as a breadth-first search over boards
says, or fewer than the claim says; and a log that is kept must prove that they are. A part of a bound holds where the least
solution that the breadth-first search finds is no shorter than the bound, or of another part.
"""

import functools
import hashlib
import itertools
import re
from collections import deque
from dataclasses import dataclass

SEPARATORS = b" \t\r\n"
LETTERS = b"UDLR"
REVERSE = {"U": "D", "D": "U", "L": "R", "R": "L"}
MOST_TILES = {2: 3, 3: 8, 4: 8, 5: 6}
NO_REGION, NEVER = 254, 255
BRANCH, LEAF, CITATION, PARITY_LEAF = 0x00, 0x01, 0x20, 0x41
TEXT_LIMIT, CLAIMS_LIMIT, ANSWERS_LIMIT, LOG_LIMIT, TABLE_LIMIT = 65_536, 2**26, 2**26, 2**30, 2**32
MOST_LEMMAS = MOST_LINES = 1_048_576
MOST_LETTERS = 1000
MOST_PARTS = 65_535
USUAL_BUDGET = 1_000_000
MANY_ENTRIES = 65_536
# The budget of a search of which nothing is said.
ENDLESS = 2**64 - 1
STANDARD_INPUT = "-"
MISTAKE = b"error: "
PIECE = 4096
# All boards of side 3 that have a solution, and more.
MOST_BOARDS = 200_000


class Refused(Exception):
    """A refusal: what stands behind `refused ` in its line."""


# Boards and moves. A board is the tuple of the numbers in its cells.


def goal(side):
    return tuple(range(side * side))


def side_of(board):
    return {4: 2, 9: 3, 16: 4, 25: 5}[len(board)]


@functools.cache
def ways(side, cell):
    """The letters of the moves from a cell, in the order U D L R, with the cells they lead to."""
    row, column = divmod(cell, side)
    found = {}
    if row > 0:
        found["U"] = cell - side
    if row < side - 1:
        found["D"] = cell + side
    if column > 0:
        found["L"] = cell - 1
    if column < side - 1:
        found["R"] = cell + 1
    return found


def moved(board, letter):
    """The board after the blank's move, or None where it would leave the board."""
    blank = board.index(0)
    to = ways(side_of(board), blank).get(letter)
    if to is None:
        return None
    cells = list(board)
    cells[blank], cells[to] = cells[to], 0
    return tuple(cells)


def mirrored(side, cell):
    """The cell across the diagonal from the upper left to the lower right."""
    row, column = divmod(cell, side)
    return column * side + row


def transposed(board):
    """The board with each cell and each number mirrored. The number 0 is its own mirror image, as cell 0 is."""
    side = side_of(board)
    return tuple(mirrored(side, board[mirrored(side, cell)]) for cell in range(side * side))


# Texts.


def read_board(text):
    for place, byte in enumerate(text):
        if byte not in b"0123456789" + SEPARATORS:
            raise Refused(f"B1 at byte {place}")
    runs = list(re.finditer(rb"[0-9]+", text))
    for run in runs:
        if len(run.group()) > 2:
            raise Refused(f"B2 at byte {run.start()}")
    numbers = [int(run.group()) for run in runs]
    if len(numbers) not in (4, 9, 16, 25):
        raise Refused(f"B3 count {len(numbers)}")
    for place, number in enumerate(numbers):
        if number >= len(numbers):
            raise Refused(f"B4 at number {place}")
    for place, number in enumerate(numbers):
        if number in numbers[:place]:
            raise Refused(f"B5 at number {place}")
    return tuple(numbers)


def replay(board, text):
    """The number of moves, which solve the board."""
    for place, byte in enumerate(text):
        if byte not in LETTERS + SEPARATORS:
            raise Refused(f"M1 at byte {place}")
    letters = [chr(byte) for byte in text if byte in LETTERS]
    for step, letter in enumerate(letters[:1000]):
        board = moved(board, letter)
        if board is None:
            raise Refused(f"M2 at step {step}")
    if len(letters) > 1000:
        raise Refused("M3")
    if board != goal(side_of(board)):
        raise Refused("M4")
    return len(letters)


def read_puzzle(text):
    """The board and the number of moves."""
    before, semicolon, behind = text.partition(b";")
    if not semicolon:
        raise Refused("P1")
    board = read_board(before)
    return board, replay(board, behind)


# Claims.


@dataclass(frozen=True)
class Claim:
    """A board, and the letters that are said to be a shortest solution of it, or the number of moves that no solution is said
    to be below, or neither, where a shortest solution is asked for. Of that bound a part may be claimed: its index and how
    many parts there are."""

    board: tuple
    letters: str | None = None
    bound: int | None = None
    part: tuple | None = None

    def __str__(self):
        """The claim as answers name it."""
        words = list(map(str, self.board))
        if self.letters is not None:
            words += [";", self.letters] if self.letters else [";"]
        if self.bound is not None:
            words += [":", str(self.bound)]
        if self.part is not None:
            words += ["part", "%d/%d" % self.part]
        return " ".join(words)


# What stands behind the `:` of a claim.
BOUND = re.compile(rb"[ \t\r\n]*(0|[1-9]\d{0,2})([ \t\r\n]+part[ \t\r\n]+(0|[1-9]\d{0,4})/([1-9]\d{0,4}))?[ \t\r\n]*")


def may_be_parts(count):
    """Whether a bound may have so many parts."""
    return count % 2 == 1 and count <= MOST_PARTS


def read_claim(line):
    """The claim of a line."""
    before, semicolon, behind = line.partition(b";")
    if semicolon:
        letters = "".join(chr(byte) for byte in behind if byte not in SEPARATORS)
        if not re.fullmatch("[UDLR]{0,%d}" % MOST_LETTERS, letters):
            raise Refused("no moves text")
        return Claim(read_board(before), letters=letters)
    before, colon, behind = line.partition(b":")
    if not colon:
        return Claim(read_board(line))
    if not (found := BOUND.fullmatch(behind)) or int(found[1]) > 255:
        raise Refused("no bound")
    if found[2] is None:
        return Claim(read_board(before), bound=int(found[1]))
    index, count = int(found[3]), int(found[4])
    if index >= count or not may_be_parts(count):
        raise Refused("no part")
    return Claim(read_board(before), bound=int(found[1]), part=(index, count))


def read_claims(text):
    """The claims of the lines, each with the number of its line, without the lines that are blank or begin with `#`. The last
    line may lack its LF."""
    lines = text.removesuffix(b"\n").split(b"\n") if text else []
    claims = []
    for number, line in enumerate(lines):
        if number == MOST_LINES:
            raise Refused(f"Q1 at line {number}")
        if line.startswith(b"#") or not line.strip(SEPARATORS):
            continue
        try:
            claims.append((number, read_claim(line)))
        except Refused:
            raise Refused(f"Q1 at line {number}") from None
    if not claims:
        raise Refused(f"Q1 at line {len(lines)}")
    return claims


# Tables.


class Pattern:
    """A pattern's placements, the regions of each, and what stands beside each entry."""

    def __init__(self, side, mask):
        self.side, self.mask = side, mask
        self.tiles = tuple(tile for tile in range(32) if mask >> tile & 1)
        self.width = min(len(self.tiles) + 1, side * side - len(self.tiles))
        self.placements = list(itertools.permutations(range(side * side), len(self.tiles)))
        self.rank = {placement: rank for rank, placement in enumerate(self.placements)}
        self.regions_by_cells, self.found_beside = {}, {}
        self.size = len(self.placements) * self.width
        self.home = self.entry_of(self.tiles, 0)

    def regions(self, placement):
        """The regions of the free cells, in the order of their least cells."""
        cells = frozenset(placement)
        if cells not in self.regions_by_cells:
            free = [cell for cell in range(self.side * self.side) if cell not in cells]
            found = []
            while free:
                region = [free[0]]
                for cell in region:
                    region += [to for to in ways(self.side, cell).values() if to in free and to not in region]
                free = [cell for cell in free if cell not in region]
                found.append(region)
            self.regions_by_cells[cells] = found
        return self.regions_by_cells[cells]

    def entry_of(self, placement, cell):
        """The number of the entry of a placement and the region of a free cell."""
        slot = next(slot for slot, region in enumerate(self.regions(placement)) if cell in region)
        return self.rank[placement] * self.width + slot

    def beside(self, number):
        """The entries one move of a tile of the pattern away from an entry, or None where its slot has no region."""
        if number not in self.found_beside:
            rank, slot = divmod(number, self.width)
            placement = self.placements[rank]
            regions = self.regions(placement)
            self.found_beside[number] = self.beside_region(placement, regions[slot]) if slot < len(regions) else None
        return self.found_beside[number]

    def beside_region(self, placement, region):
        found = []
        for place, cell in enumerate(placement):
            for to in ways(self.side, cell).values():
                if to in region:
                    after = placement[:place] + (to,) + placement[place + 1 :]
                    found.append(self.entry_of(after, cell))
        return found

    def placement_on(self, board):
        return tuple(board.index(tile) for tile in self.tiles)

    def entry_on(self, board):
        return self.entry_of(self.placement_on(board), board.index(0))

    @functools.cached_property
    def exact(self):
        """The exact entries, by a search from home: a move can be taken back, so that it is as long both ways. None where
        a count is above 253."""
        counts, todo = {self.home: 0}, deque([self.home])
        while todo:
            here = todo.popleft()
            for there in self.beside(here):
                if there not in counts:
                    counts[there] = counts[here] + 1
                    todo.append(there)
        if max(counts.values()) > 253:
            return None
        entries = bytearray()
        for rank, placement in enumerate(self.placements):
            for slot in range(self.width):
                has_region = slot < len(self.regions(placement))
                entries.append(counts.get(rank * self.width + slot, NEVER) if has_region else NO_REGION)
        return bytes(entries)

    def keeps(self, entries, number):
        """Whether an entry keeps the local rule."""
        entry, beside = entries[number], self.beside(number)
        if beside is None:
            return entry == NO_REGION
        if number == self.home:
            return entry == 0
        least = min((entries[other] for other in beside), default=NEVER)
        return entry == least + 1 if least <= 252 else least == NEVER == entry

    def least_bad(self, entries):
        """The least entry that breaks the local rule, or None."""
        if self.size < MANY_ENTRIES:
            asked = range(self.size)
        else:
            asked = self.beside_changes(entries)
        bad = next((number for number in asked if not self.keeps(entries, number)), None)
        if (bad is None) != (entries == self.exact):
            raise AssertionError("the local rule and the search disagree")
        return bad

    def beside_changes(self, entries):
        """Those entries that can break the rule, ascending: the ones that aren't exact, and those beside them. As a move can
        be taken back, an entry stands beside those that stand beside it."""
        changed = []
        for first in range(0, self.size, PIECE):
            here, exact = entries[first : first + PIECE], self.exact[first : first + PIECE]
            if here != exact:
                changed += [first + place for place in range(len(here)) if here[place] != exact[place]]
        if len(changed) > PIECE:
            return range(self.size)
        return sorted({*changed, *(other for number in changed for other in self.beside(number) or [])})


@functools.lru_cache(maxsize=40)
def small_pattern(side, mask):
    return Pattern(side, mask)


@functools.lru_cache(maxsize=1)
def large_pattern(side, mask):
    return Pattern(side, mask)


def pattern_of(side, mask):
    is_large = count_of_entries(side, mask.bit_count()) >= MANY_ENTRIES
    return large_pattern(side, mask) if is_large else small_pattern(side, mask)


def count_of_entries(side, tiles):
    """How many entries a pattern of so many tiles has."""
    placements = 1
    for place in range(tiles):
        placements *= side * side - place
    return placements * min(tiles + 1, side * side - tiles)


@dataclass(frozen=True)
class Table:
    pattern: Pattern
    entries: bytes

    def says(self, board):
        return self.entries[self.pattern.entry_on(board)]


@dataclass(frozen=True)
class FoldedTable:
    """A table with one entry for each placement."""

    pattern: Pattern
    entries: bytes

    def says(self, board):
        return self.entries[self.pattern.rank[self.pattern.placement_on(board)]]


@functools.lru_cache(maxsize=40)
def folded(table):
    """The table with the least entry of the regions of each placement."""
    entries, width = table.entries, table.pattern.width
    places = range(0, len(entries), width)
    least = bytes(min(entry for entry in entries[at : at + width] if entry != NO_REGION) for at in places)
    return FoldedTable(table.pattern, least)


def read_header(file):
    """The pattern's side and mask."""
    if len(file) < 20:
        raise Refused("T1")
    if file[:5] != b"PDBT\x01":
        raise Refused("T2")
    side, tiles = file[5], file[6]
    if not 2 <= side <= 5:
        raise Refused("T3")
    mask = int.from_bytes(file[8:12], "big")
    if not is_pattern(side, mask) or tiles != mask.bit_count() or file[7] != 0:
        raise Refused("T4")
    count = int.from_bytes(file[12:20], "big")
    if count != count_of_entries(side, tiles):
        raise Refused("T5")
    if len(file) != 20 + count:
        raise Refused("T6")
    return side, mask


@functools.lru_cache(maxsize=40)
def read_table(file):
    pattern, entries = pattern_of(*read_header(file)), file[20:]
    bad = pattern.least_bad(entries)
    if bad is not None:
        raise Refused(f"T7 at entry {bad}")
    return Table(pattern, entries)


def is_pattern(side, mask):
    return mask % 2 == 0 and 0 < mask < 1 << side * side and mask.bit_count() <= MOST_TILES[side]


def table_of(side, mask):
    """The exact table file of a pattern."""
    if side not in MOST_TILES or not is_pattern(side, mask):
        raise KeyError(side, mask)
    pattern = pattern_of(side, mask)
    header = b"PDBT" + bytes([1, side, len(pattern.tiles), 0]) + mask.to_bytes(4, "big")
    return header + pattern.size.to_bytes(8, "big") + pattern.exact


def exact_line(table):
    pattern = table.pattern
    return (
        f"exact side {pattern.side} mask {pattern.mask} entries {len(table.entries)}"
        f" unreachable {table.entries.count(NEVER)} deepest {max(set(table.entries) - {NO_REGION, NEVER})}"
    )


def read_tables(files, fold):
    """The tables of the files, each folded where that is asked for."""
    tables = []
    for number, file in enumerate(files):
        try:
            table = read_table(file)
        except Refused as refused:
            raise Refused(f"{refused} of table {number}") from None
        tables.append(folded(table) if fold else table)
    return tables


# Sets.


@dataclass(frozen=True)
class Member:
    """A table of a set, which may be asked of the transposed board."""

    table: Table | FoldedTable
    is_transposed: bool

    @property
    def tiles(self):
        """The tiles whose moves it tells."""
        pattern = self.table.pattern
        return {mirrored(pattern.side, tile) if self.is_transposed else tile for tile in pattern.tiles}

    def says(self, board):
        return self.table.says(transposed(board) if self.is_transposed else board)


def read_lines(text):
    """The members of each line, as the number of a table and whether it is transposed."""
    *lines, rest = text.split(b"\n")
    sets = []
    for line in lines + ([rest] if rest or not lines else []):
        words = line.split(b" ")[1:] if re.fullmatch(rb"set( (0|[1-9][0-9]?)t?)+", line) else []
        members = [(int(word.removesuffix(b"t")), word.endswith(b"t")) for word in words]
        is_cut = len(sets) == len(lines)
        if not members or is_cut or any(low >= high for low, high in itertools.pairwise(members)):
            raise Refused(f"S1 at line {len(sets)}")
        sets.append(members)
    return sets


def read_sets(text, tables):
    """The members of each set."""
    if not 1 <= len(tables) <= 16:
        raise Refused("S5")
    for number, table in enumerate(tables):
        if table.pattern.side != tables[0].pattern.side:
            raise Refused(f"S4 at table {number}")
    lines = read_lines(text)
    if len(lines) > 16:
        raise Refused("S5")
    for line, members in enumerate(lines):
        if any(number >= len(tables) for number, _ in members):
            raise Refused(f"S2 at line {line}")
    sets = [[Member(tables[number], is_transposed) for number, is_transposed in members] for members in lines]
    for line, members in enumerate(sets):
        for one, other in itertools.combinations(members, 2):
            if one.tiles == other.tiles and (one.is_transposed or other.is_transposed):
                raise Refused(f"S6 at line {line}")
    for line, members in enumerate(sets):
        for one, other in itertools.combinations(members, 2):
            if one.tiles & other.tiles:
                raise Refused(f"S3 at line {line}")
    return sets


def sum_of(members, board):
    """The sum of what a set's members tell, or None for never."""
    told = [member.says(board) for member in members]
    return None if NEVER in told else sum(told)


# Logs.


@dataclass(frozen=True)
class Lemma:
    board: tuple
    bound: int
    tree: bytes


def read_lemmas(log):
    if len(log) < 10 or log[:4] != b"PDBL" or log[4] not in (1, 2) or not 2 <= log[5] <= 5:
        raise Refused("L1")
    cells, count, at = log[5] ** 2, int.from_bytes(log[6:10], "big"), 10
    if not 1 <= count <= MOST_LEMMAS:
        raise Refused("L1")
    lemmas = []
    for number in range(count):
        tree = at + cells + 5
        end = tree + int.from_bytes(log[tree - 4 : tree], "big")
        if len(log) < tree or len(log) < end:
            raise Refused(f"L2 at lemma {number}")
        lemmas.append(Lemma(tuple(log[at : at + cells]), log[at + cells], log[tree:end]))
        at = end
    if at != len(log):
        raise Refused(f"L2 at lemma {count}")
    for number, lemma in enumerate(lemmas):
        if sorted(lemma.board) != list(range(cells)):
            raise Refused(f"L3 at lemma {number}")
    return lemmas


class NotGood(Exception):
    """Why a lemma isn't good."""


def raised(says, board):
    """The least number that isn't below what is said and has the parity of the blank's distance from cell 0, as the length
    of each solution has."""
    if says is None:
        return None
    return says + (says + sum(divmod(board.index(0), side_of(board)))) % 2


def leaves_of(sets, version):
    """What each byte that is a leaf says of a board, or None for never."""
    leaves = {LEAF + number: functools.partial(sum_of, members) for number, members in enumerate(sets)}
    if version == 2:
        for number, members in enumerate(sets):
            leaves[PARITY_LEAF + number] = lambda board, members=members: raised(sum_of(members, board), board)
    return leaves


def node(tree, at, board, arriving, remaining, leaves, earlier):
    """The place behind the node that begins at this place, which holds."""
    if at >= len(tree):
        raise NotGood("a node is missing")
    first = tree[at]
    if first == BRANCH:
        if remaining < 1 or board == goal(side_of(board)):
            raise NotGood("a branch that refutes nothing")
        at += 1
        for letter in ways(side_of(board), board.index(0)):
            if letter != REVERSE.get(arriving):
                at = node(tree, at, moved(board, letter), letter, remaining - 1, leaves, earlier)
        return at
    if first == CITATION:
        number = int.from_bytes(tree[at + 1 : at + 5], "big")
        if len(tree) < at + 5 or number >= len(earlier):
            raise NotGood("a citation of no earlier lemma")
        if earlier[number].board != board or earlier[number].bound < remaining:
            raise NotGood("a citation of a lemma that says less")
        return at + 5
    if first not in leaves:
        raise NotGood("a leaf of no set, or no node")
    says = leaves[first](board)
    if says is not None and says < remaining:
        raise NotGood("a leaf whose set says less")
    return at + 1


def is_good(lemma, leaves, earlier):
    try:
        return node(lemma.tree, 0, lemma.board, None, lemma.bound, leaves, earlier) == len(lemma.tree)
    except NotGood:
        return False


def read_log(log, board, tables, sets):
    """The bound that the log proves for the board."""
    lemmas = read_lemmas(log)
    if not log[5] == tables[0].pattern.side == side_of(board):
        raise Refused("L4")
    if lemmas[-1].board != board:
        raise Refused("L5")
    leaves = leaves_of(sets, log[4])
    for number, lemma in enumerate(lemmas):
        if not is_good(lemma, leaves, lemmas[:number]):
            raise Refused(f"L6 at lemma {number}")
    return lemmas[-1].bound


# Searches.


@functools.cache
def layers(side):
    """The boards of each number of moves from the goal board, as far as they were asked for, and that number for each."""
    return [[goal(side)]], {goal(side): 0}


def least_moves(board):
    """The number of moves of a shortest solution, or None where there is none, or where it is too far away to be found."""
    found, moves = layers(side_of(board))
    while board not in moves and found[-1] and len(moves) < MOST_BOARDS:
        found.append([])
        for here in found[-2]:
            for letter in ways(side_of(here), here.index(0)):
                there = moved(here, letter)
                if there not in moves:
                    moves[there] = len(found) - 1
                    found[-1].append(there)
    return moves.get(board)


def is_of_part(board, part):
    """Whether the least solution of the board, by length and then by its letters in the order U D L R, is of this part."""
    index, count = part
    digits = next(digits for digits in itertools.count(1) if count < 4**digits)
    rank, letters = 0, 12 + digits
    if least_moves(board) < letters:
        return True
    for _ in range(letters):
        there = {letter: moved(board, letter) for letter in ways(side_of(board), board.index(0))}
        letter = next(letter for letter in there if least_moves(there[letter]) == least_moves(board) - 1)
        rank, board = 4 * rank + LETTERS.index(letter.encode()), there[letter]
    return rank % count == index


def has_solution(board):
    """Whether the board has a solution: a move changes the parity of the order of all numbers, and that of the blank's
    distance from its corner."""
    turned = sum(one > other for one, other in itertools.combinations(board, 2))
    return (turned + sum(divmod(board.index(0), side_of(board)))) % 2 == 0


@functools.cache
def walks(side, most):
    """How many walks of at most 0, 1 and so on moves, none of which is taken back at once, begin in each cell."""
    last = {(cell, letter): 1 for cell in range(side * side) for letter in [None, *REVERSE]}
    found = [[1] * side * side]
    for _ in range(most):
        last = {
            (cell, arriving): 1
            + sum(last[to, letter] for letter, to in ways(side, cell).items() if letter != REVERSE.get(arriving))
            for cell, arriving in last
        }
        found.append([last[cell, None] for cell in range(side * side)])
    return found


def most_expanded(board, moves):
    """No search with the thresholds up to this number of moves expands more boards, even if it goes through each threshold
    several times."""
    return 4 * sum(begun[board.index(0)] for begun in walks(side_of(board), moves))


def gives_up(board, budget):
    """With which refusals a search for the board may end."""
    if not has_solution(board):
        return ["K2"]
    least = least_moves(board)
    return ["K1"] if least is None or budget < most_expanded(board, least) else []


def is_spent(claim, budget):
    """Whether a search for a claim may end since its budget is spent."""
    if budget == ENDLESS:
        return False
    most = claim.bound if claim.letters is None else min(len(claim.letters), 255)
    if most is None:
        return gives_up(claim.board, budget) == ["K1"]
    return budget < most_expanded(claim.board, most)


def shorter_by(line, claim, fewer):
    """Whether a line says that a claim is false, and by moves that show it: they solve the board, and are fewer than these."""
    told = re.fullmatch(rb"refused O2 by(| [UDLR]+) of (.*)", line)
    if told is None or told[2] != str(claim).encode():
        return False
    try:
        return replay(claim.board, told[1].strip()) < fewer
    except Refused:
        return False


def shortest_by(line, claim):
    """Whether a line says what a shortest solution of the board is, and it is one."""
    told = re.fullmatch(rb"optimal ([0-9]+) of ([^;]*) ;(| [UDLR]+)", line)
    if told is None or told[2] != str(claim).encode():
        return False
    try:
        moves, least = replay(claim.board, told[3].strip()), least_moves(claim.board)
    except Refused:
        return False
    return told[1] == b"%d" % moves and least in (None, moves)


def right_line(claim, line, budget):
    """The line that answers a claim: this one where it may, since moves are the search's own, and so is whether a budget is
    spent. Of a board that is too far away to be searched here, only moves can be judged."""
    board, shown, least = claim.board, str(claim), None
    fewer = claim.bound
    if claim.letters is not None:
        try:
            fewer = replay(board, claim.letters.encode())
        except Refused as refused:
            return f"refused {refused} of {shown}".encode()
    elif not has_solution(board):
        return f"refused K2 of {shown}".encode()
    if is_spent(claim, budget) and line == f"refused K1 of {shown}".encode():
        return line
    if fewer is None:
        return line if shortest_by(line, claim) else f"optimal .. of {shown} ; ..".encode()
    least = least_moves(board)
    if shorter_by(line, claim, fewer) and least != fewer:
        return line
    if least is not None and least < fewer and (claim.part is None or is_of_part(board, claim.part)):
        return f"refused O2 by .. of {shown}".encode()
    if claim.part is not None:
        return part_line(claim)
    if claim.letters is None:
        plain = " ".join(map(str, board))
        return f"bound {fewer} of {plain}".encode()
    return (f"optimal {fewer} of {shown}" if fewer <= 255 else f"refused K2 of {shown}").encode()


def part_line(claim):
    """The line that says that the part of a bound holds which is claimed."""
    plain = " ".join(map(str, claim.board))
    return b"part %d/%d of bound %d of %s" % (*claim.part, claim.bound, plain.encode())


def is_yes(line):
    return line.startswith((b"optimal ", b"bound ", b"part "))


def solved(run, ended, board, sets, tables):
    """The lines behind the digests of the tables where a search ends well, and the log that it keeps. Its moves and its log
    are taken from how the run ended, and must be right."""
    told = re.search(rb"^moves ?([UDLR]*)$", ended.written, re.MULTILINE)
    letters, log = told.group(1) if told else b"", ended.files.get(run.out, b"")
    try:
        found = {replay(board, letters), read_log(log, board, tables, sets)}
        if log[4] != 2:
            raise Refused("as a log of another version than the one that is made")
    except Refused as refused:
        raise Refused(f"nothing: what was found is refused {refused}") from None
    least = least_moves(board)
    if len(found) != 1 or found != {least} and least is not None:
        raise Refused(f"nothing: {found}, where {least} moves are the fewest")
    if run.boards < len(letters):
        raise Refused("K1")
    return digest_line(log) + b"moves%s\noptimal %d\n" % (b" " + letters if letters else b"", len(letters)), log


# Runs.


@dataclass(frozen=True)
class Run:
    """A command, the names that it reads, the bytes that files have, the name that it keeps under, the numbers of a side and
    a mask or of a bound and its parts, the budget of a search where one is named, how many workers are asked for, and whether
    tables are to be folded."""

    command: str
    names: tuple
    files: dict
    out: str = None
    numbers: tuple = ()
    budget: int | None = None
    workers: int = 1
    fold: bool = False

    @property
    def boards(self):
        """How many boards a search may expand."""
        if self.budget is not None:
            return self.budget
        return ENDLESS if self.command == "prove" else USUAL_BUDGET

    def words(self):
        names = [name for name in self.names if name != STANDARD_INPUT or self.command in ("parts", "prove")]
        flags = ["--workers", str(self.workers)] if self.workers != 1 else []
        flags += ["--budget", str(self.budget)] if self.budget is not None else []
        flags += ["--fold"] if self.fold else []
        kept = [] if self.out is None else [self.out]
        if self.command == "parts":
            return [self.command, *names[:1], *map(str, self.numbers), *names[1:]]
        return [self.command, *flags, *map(str, self.numbers), *names[:2], *kept, *names[2:]]


@dataclass(frozen=True)
class Ended:
    """How a run ended: what it wrote, its status, and the bytes of the files that are there. A mistake in the words is told
    on standard error."""

    written: bytes
    status: int
    files: dict
    errors: bytes = b""


def verdict(command, inputs, fold):
    """The line of a yes, for the bytes of the inputs in their order, and whether tables are folded."""
    if command == "replay":
        return f"solution {read_puzzle(inputs[0])[1]}"
    if command == "table":
        return exact_line(read_table(inputs[0]))
    text, set_text, log, *files = inputs
    board, moves = (read_board(text), None) if command == "bound" else read_puzzle(text)
    tables = read_tables(files, fold)
    bound = read_log(log, board, tables, read_sets(set_text, tables))
    if moves not in (None, bound):
        raise Refused(f"O1 solution {moves} bound {bound}")
    return f"{command} {bound}"


def limits(command, count):
    if command == "replay":
        return [TEXT_LIMIT]
    if command == "table":
        return [TABLE_LIMIT]
    if command == "parts":
        return [TEXT_LIMIT] + [ANSWERS_LIMIT] * (count - 1)
    texts = {"solve": [TEXT_LIMIT] * 2, "prove": [CLAIMS_LIMIT, TEXT_LIMIT], "make-table": []}
    texts = texts.get(command, [TEXT_LIMIT, TEXT_LIMIT, LOG_LIMIT])
    return texts + [TABLE_LIMIT] * (count - len(texts))


def shown(name):
    return bytes(byte if byte >= 32 and byte != 127 else ord("?") for byte in name.encode())


def digest_line(file):
    return b"sha256 %s\n" % hashlib.sha256(file).hexdigest().encode()


def digest_lines(command, inputs):
    digested = {"replay": [], "parts": [], "table": inputs, "make-table": [], "solve": inputs[2:], "prove": inputs[2:] + inputs[:1]}
    return b"".join(digest_line(file) for file in digested.get(command, inputs[3:] + inputs[2:3]))


def made_table(run):
    """The lines of a table that is made, and its bytes."""
    side, mask = run.numbers
    try:
        file = table_of(side, mask)
    except KeyError:
        raise Refused("K4") from None
    return digest_line(file) + exact_line(read_table(file)).encode() + b"\n", file


def made_log(run, ended, inputs):
    """The lines of a search behind the digests of its tables, and the log that it makes."""
    text, set_text, *files = inputs
    board = read_board(text)
    tables = read_tables(files, run.fold)
    sets = read_sets(set_text, tables)
    if tables[0].pattern.side != side_of(board):
        raise Refused("L4")
    refusals = gives_up(board, run.boards)
    told = [refusal for refusal in refusals if ended.written.endswith(b"refused %s\n" % refusal.encode())]
    if told or not has_solution(board):
        raise Refused([*refusals, *told][-1])
    return solved(run, ended, board, sets, tables)


def claims_answered(run, ended, inputs):
    """The lines that answer claims, behind the digests."""
    text, set_text, *files = inputs
    claims = read_claims(text)
    tables = read_tables(files, run.fold)
    read_sets(set_text, tables)
    for number, claim in claims:
        if side_of(claim.board) != tables[0].pattern.side:
            raise Refused(f"Q2 at line {number}")
    told = ended.written.split(b"\n")[len(files) + 1 :]
    pairs = itertools.zip_longest(claims, told[: len(claims)], fillvalue=b"")
    return [right_line(claim, line, run.boards) for (_, claim), line in pairs]


def refuting_moves(line, board, bound, count):
    """The letters in a line that says that moves show the claim of one of so many parts to be false, where they do."""
    told = re.fullmatch(rb"refused O2 by([^o]*) of (.*) part (0|[1-9]\d*)/(\d+)", line)
    if told is None or told[2] != str(Claim(board, bound=bound)).encode() or told[4] != b"%d" % count or int(told[3]) >= count:
        return None
    try:
        return bytes(filter(LETTERS.__contains__, told[1])) if replay(board, told[1]) < bound else None
    except Refused:
        return None


def parts_joined(run, inputs):
    """The lines of a bound whose parts are joined, and the status."""
    text, *answers = inputs
    board, (bound, count) = read_board(text), run.numbers
    lines = [line for answer in answers for line in answer.split(b"\n")[:-1]]
    for line in lines:
        letters = refuting_moves(line, board, bound, count)
        if letters is not None:
            moves = b" " + letters if letters else b""
            return b"refused O2 by%b of %b\n" % (moves, str(Claim(board, bound=bound)).encode()), 1
    told = set(lines)
    claims = [Claim(board, bound=bound, part=(index, count)) for index in range(count)]
    left = [claim for claim in claims if part_line(claim) not in told]
    if left:
        return "".join(f"{claim}\n" for claim in left).encode(), 1
    plain = " ".join(map(str, board))
    joined = f"joined bound {bound} of {plain} from {count} parts, by lines that were read\n"
    return b"".join(map(digest_line, answers)) + joined.encode(), 0


def is_of_another_board(log, text):
    """Whether the text is that of a board, and the log is none of it."""
    try:
        board = read_board(text)
    except Refused:
        return False
    try:
        return read_lemmas(log)[-1].board != board
    except Refused:
        return True


def is_spared(run):
    """Whether OUT is an input of the run, or holds something that is neither a log of the board, of `solve`, nor begins as a table of
    this side and mask."""
    if run.out in run.names or run.out not in run.files:
        return run.out in run.names
    file = run.files[run.out]
    if run.command == "solve":
        return not file.startswith((b"PDBL\1", b"PDBL\2")) or is_of_another_board(file, run.files[run.names[0]])
    side, mask = run.numbers
    return not file.startswith(b"PDBT\1" + bytes([side, mask.bit_count(), 0]) + mask.to_bytes(4, "big"))


def can_be_kept(name):
    """Whether a file can be kept under this name: not in a folder that isn't there, nor in the place of a folder or device, nor
    under a name that leaves no room for that of a temporary file."""
    return "/" not in name and name not in ("", ".") and len(name.encode()) <= 248


def is_mistaken(run):
    """Whether a number among the words is none that they may have, or the command has nothing to fold."""
    within = [0 <= number < limit for number, limit in zip(run.numbers, [256, 2**32])]
    if run.command == "parts":
        within.append(may_be_parts(run.numbers[1]))
    can_fold = run.command in ("bound", "optimal", "solve", "prove")
    in_budget = run.budget is None or 1 <= run.budget <= 10**12
    return not (all(within) and in_budget and 1 <= run.workers <= 64 and can_fold >= run.fold)


def answer(run, ended):
    """How the run must end. How it has ended tells the moves and the log of `solve`, the moves of `prove`, and where they gave
    up if they may."""
    if is_mistaken(run):
        return Ended(b"", 2, run.files, MISTAKE)
    for name, limit in zip(run.names, limits(run.command, len(run.names))):
        if name not in run.files:
            return Ended(b"fault read " + shown(name) + b"\n", 2, run.files)
        if len(run.files[name]) > limit:
            return Ended(b"fault size " + shown(name) + b"\n", 2, run.files)
    if run.out is not None and (is_spared(run) or not can_be_kept(run.out)):
        return Ended(b"fault write " + shown(run.out) + b"\n", 2, run.files)
    inputs = [run.files[name] for name in run.names]
    lines, made = digest_lines(run.command, inputs), None
    try:
        if run.command == "prove":
            told = claims_answered(run, ended, inputs)
            return Ended(lines + b"".join(line + b"\n" for line in told), int(not all(map(is_yes, told))), run.files)
        if run.command == "parts":
            told, status = parts_joined(run, inputs)
            return Ended(told, status, run.files)
        if run.command == "make-table":
            told, made = made_table(run)
        elif run.command == "solve":
            told, made = made_log(run, ended, inputs)
        else:
            told = verdict(run.command, inputs, run.fold).encode() + b"\n"
    except Refused as refused:
        return Ended(lines + f"refused {refused}\n".encode(), 1, run.files)
    kept = {} if made is None else {run.out: made}
    return Ended(lines + told, 0, {**run.files, **kept})
