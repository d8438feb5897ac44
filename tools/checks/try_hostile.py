#!/usr/bin/env python3
"""Changes good inputs of every kind at random, runs the built program on them, and compares its lines, its status and the
files that it leaves with plain answers read off docs/FORMATS.md (tools/plain/plain_answers.py).

    tools/checks/try_hostile.py [--inputs N] [--seed SEED] [--first N] [--processes N] [--program PROGRAM] [--keep FOLDER]

An input is determined by the seed and its number: `--first N --inputs 1` makes number N again. PROGRAM is the program to
run; without it, that is what the launcher builds. Each input that is answered otherwise is made as short as can be, kept
in a folder of its own below FOLDER with its words and both answers, and told in a line. Before the last line there is one
for each kind of answer, with the times it was given. The last line is `N passed, M failed`, and the status is 0 if all passed.
"""

import argparse
import collections
import concurrent.futures
import hashlib
import os
import pathlib
import random
import re
import shlex
import shutil
import signal
import subprocess
import sys
import tempfile
from dataclasses import replace

sys.path.insert(0, str(pathlib.Path(__file__).resolve().parents[1] / "plain"))

import good_inputs
from plain_answers import (
    CITATION,
    LEAF,
    LETTERS,
    MISTAKE,
    PARITY_LEAF,
    STANDARD_INPUT,
    TEXT_LIMIT,
    USUAL_BUDGET,
    Ended,
    Run,
    answer,
    side_of,
    table_of,
)

ROOT = pathlib.Path(__file__).resolve().parents[2]
BATCH = 500
# So many inputs one after the other have one large table: its search takes seconds.
SAME_LARGE = 10 * BATCH
SECONDS = 60
MOST_TRIES = 2000
TELLING = bytes([0, 1, 2, 3, 4, 8, 16, 17, 32, 65, 128, 252, 253, 254, 255]) + b" \t\r\n;0129UDLRusetT-+"
# The names of what a run writes and reads by its standard streams, in its folder.
STREAMS = [".in", ".out", ".err"]
# What `parts` tells beside its answer.
SKIPPED = (
    rb"pdb_cli: lines that tell of no part of this bound, and were skipped: \d+ of \d+\n"
    rb"pdb_cli: the first of them is line \d+ of [ -~]+: [ -~]{0,160}\n"
)
ENDED = rb"pdb_cli: parts that are open since a budget ended their search: \d+ of \d+\n"


# Changes of bytes.


def turned(draw, data):
    place = draw.randrange(len(data))
    return data[:place] + bytes([data[place] ^ 1 << draw.randrange(8)]) + data[place + 1 :]


def replaced(draw, data):
    place = draw.randrange(len(data))
    return data[:place] + bytes([draw.choice(TELLING)]) + data[place + 1 :]


def raised(draw, data):
    place = draw.randrange(len(data))
    return data[:place] + bytes([(data[place] + draw.choice([1, 255])) % 256]) + data[place + 1 :]


def with_more(draw, data):
    place = draw.randrange(len(data) + 1)
    return data[:place] + bytes(draw.choices(TELLING, k=draw.choice([1, 1, 2, 5]))) + data[place:]


def with_less(draw, data):
    place = draw.randrange(len(data))
    return data[:place] + data[place + draw.choice([1, 1, 2, 4, 20]) :]


def cut(draw, data):
    return data[: draw.randrange(len(data))]


def doubled(draw, data):
    place, end = sorted(draw.choices(range(len(data) + 1), k=2))
    return data[:end] + data[place:end] + data[end:]


def exchanged(draw, data):
    one, other = sorted(draw.choices(range(len(data)), k=2))
    changed = bytearray(data)
    changed[one], changed[other] = changed[other], changed[one]
    return bytes(changed)


def filled(draw, data):
    place, end = sorted(draw.choices(range(len(data) + 1), k=2))
    return data[:place] + bytes([draw.choice(TELLING)]) * (end - place) + data[end:]


CHANGES = [turned, turned, replaced, replaced, raised, with_more, with_less, cut, doubled, exchanged, filled]


def changed(draw, data, changes=CHANGES):
    """The bytes after none, one or several changes."""
    for _ in range(draw.choice([0, 1, 1, 1, 1, 2, 2, 3, 6])):
        if data:
            data = draw.choice(changes)(draw, data)
    return data


# Changes that know a format, and go deeper into what is checked.


def with_other_letters(draw, text):
    """A moves text in which one letter is another one, or several, or none."""
    places = [place for place, byte in enumerate(text) if byte in LETTERS]
    place = draw.choice(places or [len(text)])
    return text[:place] + bytes(draw.choices(LETTERS, k=draw.choice([0, 1, 1, 2]))) + text[place + 1 :]


PUZZLE_CHANGES = CHANGES + [with_other_letters] * 6


def with_header_byte(draw, file):
    place = draw.randrange(min(20, len(file)))
    return file[:place] + bytes([draw.choice(TELLING)]) + file[place + 1 :]


def with_entry(draw, file):
    place = draw.randrange(20, len(file)) if len(file) > 20 else 0
    return file[:place] + bytes([draw.choice([0, 1, 252, 253, 254, 255, (file[place] + 1) % 256])]) + file[place + 1 :]


def with_other_count(draw, file):
    """Each entry that has one value gets another value."""
    one = draw.choice(file[20:] or b"\0")
    other = draw.choice([(one + 1) % 256, (one - 1) % 256, 254, 255, 0])
    return file[:20] + file[20:].replace(bytes([one]), bytes([other]))


def with_all_greater(draw, file):
    step = draw.choice([1, 2, 200, 250])
    return file[:20] + bytes(min(entry + step, 255) if entry < 254 else entry for entry in file[20:])


def with_other_header(draw, file):
    return good_inputs.table(draw)[:20] + file[20:]


TABLE_CHANGES = CHANGES + [with_header_byte, with_entry, with_entry, with_other_count, with_all_greater, with_other_header]


def some_place(draw, size):
    return draw.choice([0, size // 2, size - 1, draw.randrange(size), draw.randrange(size)])


def with_far_entry(draw, file):
    """Another value for one entry, of the first, the middle or the last ones, or any."""
    place = 20 + some_place(draw, len(file) - 20)
    old = file[place]
    value = draw.choice([0, 1, 252, 253, 254, 255, (old + 1) % 256, (old - 1) % 256])
    return file[:place] + bytes([value]) + file[place + 1 :]


def with_changed_goal(draw, file):
    """Another value for one of the entries that are 0, 1 or 2."""
    low = draw.choice([0, 1, 2])
    places = [place for place in range(20, len(file)) if file[place] == low] or [20]
    place = draw.choice(places)
    return file[:place] + bytes([draw.choice([0, 1, 2, 3, 254, 255])]) + file[place + 1 :]


def with_exchanged_marks(draw, file):
    """One or all of the entries of a short stretch that are 254 or 255 exchanged for each other."""
    place = 20 + some_place(draw, len(file) - 20)
    end = place + draw.choice([1, 10, 500])
    return file[:place] + file[place:end].translate(bytes([*range(254), 255, 254])) + file[end:]


def with_stretch(draw, file):
    """One value for all entries of a short stretch."""
    place = 20 + some_place(draw, len(file) - 20)
    end = min(place + draw.choice([2, 16, 256, 1000]), len(file))
    return file[:place] + bytes([draw.choice([0, 1, 253, 254, 255])]) * (end - place) + file[end:]


LARGE_CHANGES = [with_far_entry] * 6 + [with_exchanged_marks, with_stretch] * 2
LARGE_CHANGES += [with_changed_goal, with_header_byte, cut, with_more]


def with_leaf(draw, tree):
    """The tree with a leaf of one of the first sets or of any in one place."""
    place = draw.randrange(len(tree))
    leaf = draw.choice([LEAF, PARITY_LEAF]) + draw.choice([0, 0, 1, draw.randrange(16)])
    return tree[:place] + bytes([leaf]) + tree[place + 1 :]


TREE_CHANGES = CHANGES + [with_leaf] * 4


def changed_tree(draw, tree):
    tree = changed(draw, tree, TREE_CHANGES)
    if draw.random() < 0.3:
        place = draw.randrange(len(tree) + 1)
        tree = tree[:place] + bytes([CITATION]) + draw.randrange(4).to_bytes(4, "big") + tree[place + 1 :]
    return tree


def changed_lemma(draw, lemma):
    board, bound, tree = lemma
    what = draw.choice(["board", "bound", "tree", "tree"])
    if what == "board":
        return tuple(exchanged(draw, bytes(board))), bound, tree
    if what == "bound":
        return board, draw.choice([(bound + 1) % 256, max(bound - 1, 0), 0, 255]), tree
    return board, bound, changed_tree(draw, tree)


def changed_log(draw, version, lemmas):
    """A log of lemmas one or two of which were changed, or of the same in another order, or of another version."""
    lemmas = list(lemmas)
    for _ in range(draw.choice([0, 1, 1, 2])):
        place = draw.randrange(len(lemmas))
        lemmas[place] = changed_lemma(draw, lemmas[place])
    how = draw.random()
    if how < 0.1:
        draw.shuffle(lemmas)
    elif how < 0.2:
        lemmas.insert(0, draw.choice(lemmas))
    if draw.random() < 0.2:
        version = draw.choice([3 - version, 3 - version, 0, 3])
    log = good_inputs.log_of(version, lemmas)
    return changed(draw, log) if draw.random() < 0.3 else log


def changed_set_text(draw, text):
    """The text with other numbers, or other members transposed, or with changed bytes; or another text."""
    numbers = re.sub(rb"[0-9]+", lambda _: b"%d" % draw.choice([0, 1, 2, 3, 9, 15, 16, 99]), text)
    members = re.sub(rb"([0-9]+)t?", lambda found: found[1] + draw.choice([b"", b"t"]), text)
    twice = re.sub(rb"([0-9]+)t?", rb"\1 \1t", text)
    others = [b"set 0 1\n", b"set 0\nset 1 2\n", b"set 0 0t\n", b"set 0t\n"]
    return draw.choice([numbers, members, twice, draw.choice(others), changed(draw, text), changed(draw, numbers)])


def long_text(draw, text):
    """The text with so many separators behind it that it is as long as it may be, or a byte longer."""
    return text.ljust(TEXT_LIMIT + draw.choice([0, 1]), b" ") if draw.random() < 0.01 else text


# Runs.


def replayed(draw, _number):
    name = draw.choice([STANDARD_INPUT, "puzzle"])
    text = long_text(draw, changed(draw, good_inputs.puzzle(draw), PUZZLE_CHANGES))
    return Run("replay", (name,), {name: text})


def workers(draw):
    return draw.choice([1] * 10 + [2, 3, 7, 64]) if draw.random() < 0.99 else draw.choice([0, 65, 256])


def checked(draw, _number):
    file = good_inputs.table(draw)
    for _ in range(draw.choice([0, 1, 1, 1, 2])):
        file = changed(draw, file, TABLE_CHANGES)
    return Run("table", ("table",), {"table": file}, workers=workers(draw), fold=draw.random() < 0.01)


def large_table(number):
    return table_of(*good_inputs.LARGE[number // SAME_LARGE % len(good_inputs.LARGE)])


def checked_large(draw, number):
    file = large_table(number)
    for _ in range(draw.choice([0, 1, 1, 1, 2, 5])):
        file = draw.choice(LARGE_CHANGES)(draw, file)
    return Run("table", ("table",), {"table": file}, workers=draw.choice([1, 2, 3, 7, 64]))


def changed_tables(draw, tables):
    """The tables, one of which was changed or is another."""
    place = draw.randrange(len(tables))
    other = draw.choice([good_inputs.table(draw), changed(draw, tables[place], TABLE_CHANGES)])
    return tables[:place] + [other] + tables[place + 1 :]


def named(tables):
    return {f"table_{number}": file for number, file in enumerate(tables)}


def log_checked(draw, number):
    """A run of `bound` or `optimal`, most of whose inputs are good, so that all of them are reached."""
    good = good_inputs.log_check(draw)
    sets, tables = good.sets, good.tables
    command = "bound" if good.letters is None else draw.choice(["bound", "bound", "optimal"])
    if command == "bound":
        text = good_inputs.board_text(draw, good.board)
    else:
        text = good_inputs.puzzle_text(draw, good.board, good.letters)
    which = draw.choice(["nothing", "text", "sets", "log", "log", "log", "log", "table"])
    if which == "text" or draw.random() < 0.05:
        text = long_text(draw, changed(draw, text, CHANGES if command == "bound" else PUZZLE_CHANGES))
    if which == "sets" or draw.random() < 0.05:
        sets = long_text(draw, changed_set_text(draw, sets))
    if which == "table":
        tables = changed_tables(draw, tables)
    log = good_inputs.log_of(good.version, good.lemmas)
    if which == "log" or draw.random() < 0.05:
        log = changed_log(draw, good.version, good.lemmas)
    if draw.random() < 0.02:
        tables += [draw.choice(tables)] * 16
    if draw.random() < 0.01:
        tables += [draw.choice(LARGE_CHANGES)(draw, large_table(number))]
    files = {"text": text, "sets": sets, "log": log, **named(tables)}
    fold = good.fold if draw.random() < 0.9 else not good.fold
    return Run(command, ("text", "sets", "log", *named(tables)), files, workers=workers(draw), fold=fold)


def kept_under(draw, files, own=b"PDBL\1 is here"):
    """A name to keep under, and the files with what may stand there already, as this, or under the name of a temporary file."""
    unkept = ["no_folder/made", "no\x1bfolder/a", "taken/made", "/dev/full", ".", "", "n" * 256]
    out = draw.choice(["made"] * 8 + ["taken"] * 3 + ["two words", "a\nb"] + unkept)
    if files and draw.random() < 0.1:
        out = draw.choice(list(files))
    table = b"PDBT\1\2\1\0\0\0\0\2"
    taken = draw.choice([b"what stood here", b"", table, b"PDBT\1 is here", b"PDBL\1 is here", own, own, b"PDBL\2", b"PDBT\2"])
    return out, {**files, "taken": taken, "made.unkept": b"a file of a user"}


def made(draw, _number):
    out, files = kept_under(draw, {})
    return Run("make-table", (), files, out, good_inputs.side_and_mask(draw), workers=workers(draw))


def solved(draw, number):
    """A run of `solve`, most of whose inputs are good."""
    board, budget, sets, tables = good_inputs.search(draw)
    text = good_inputs.board_text(draw, board)
    own = b"PDBL\2" + bytes([side_of(board), 0, 0, 0, 1, *board, 0, 0, 0, 0, 0])
    which = draw.choice(["nothing"] * 6 + ["text", "sets", "table"])
    if which == "text":
        # Its board may be far from the goal board.
        text, budget = long_text(draw, changed(draw, text)), min(budget, 20_000)
    if which == "sets":
        sets = long_text(draw, changed_set_text(draw, sets))
    if which == "table":
        tables = changed_tables(draw, tables)
    if draw.random() < 0.02:
        tables += [draw.choice(tables)] * 16
    if draw.random() < 0.02:
        tables = [large_table(number)]
    if draw.random() < 0.02:
        budget = draw.choice([0, 10**12 + 1])
    out, files = kept_under(draw, {"text": text, "sets": sets, **named(tables)}, own)
    names, fold = ("text", "sets", *named(tables)), draw.random() < 0.3
    budget = None if budget == USUAL_BUDGET else budget
    return Run("solve", names, files, out, budget=budget, workers=workers(draw), fold=fold)


def changed_claims(draw, text):
    """The text with other numbers, letters or bytes, or with its lines in another order."""
    how = draw.random()
    if how < 0.2:
        return re.sub(rb"(: *)[0-9]+", lambda found: found[1] + draw.choice([b"0", b"2", b"02", b"255", b"256", b"-1"]), text)
    if how < 0.4:
        return b"\n".join(draw.sample(lines := text.split(b"\n"), len(lines)))
    return changed(draw, text, PUZZLE_CHANGES)


def proved(draw, number):
    """A run of `prove`, most of whose inputs are good."""
    text, budget, sets, tables = good_inputs.claims(draw)
    which = draw.choice(["nothing"] * 4 + ["text"] * 3 + ["sets", "table"])
    if which == "text":
        # Its boards may be far from the goal board.
        text, budget = changed_claims(draw, text), min(budget or 20_000, 20_000)
    if which == "sets":
        sets = long_text(draw, changed_set_text(draw, sets))
    if which == "table":
        tables = changed_tables(draw, tables)
    if draw.random() < 0.02:
        tables += [draw.choice(tables)] * 16
    if draw.random() < 0.02:
        tables = [large_table(number)]
    if draw.random() < 0.02:
        budget = draw.choice([0, 10**12 + 1])
    name = draw.choice([STANDARD_INPUT, "claims", "claims"])
    files = {name: text, "sets": sets, **named(tables)}
    return Run("prove", (name, "sets", *named(tables)), files, budget=budget, workers=workers(draw), fold=draw.random() < 0.3)


def changed_count(draw, count):
    """A count of parts, or another number."""
    return count if draw.random() < 0.9 else draw.choice([0, 1, 2, count + 1, count + 2, 65_535, 65_536, 65_537])


def joined(draw, _number):
    """A run of `parts`, most of whose inputs are good."""
    board, bound, count, texts = good_inputs.answers_on_parts(draw)
    text = good_inputs.board_text(draw, board)
    which = draw.choice(["nothing"] * 3 + ["text"] + ["answers"] * 3)
    if which == "text":
        text = long_text(draw, changed(draw, text))
    if which == "answers":
        place = draw.randrange(len(texts))
        texts[place] = changed(draw, texts[place])
    name = draw.choice([STANDARD_INPUT, "board", "board"])
    answers = {f"answers{number}": data for number, data in enumerate(texts)}
    bound = bound if draw.random() < 0.95 else draw.choice([bound + 1, 255, 256])
    return Run("parts", (name, *answers), {name: text, **answers}, numbers=(bound, changed_count(draw, count)))


KINDS = [replayed] * 20 + [checked] * 35 + [checked_large] * 3 + [log_checked] * 30 + [made] * 5 + [solved] * 7
KINDS += [proved] * 15 + [joined] * 10


def drawn(seed, number):
    """The run of this number."""
    draw = random.Random(f"{seed}/{number}")
    run = draw.choice(KINDS)(draw, number)
    if run.names and draw.random() < 0.01:
        missing = draw.choice(run.names)
        if missing != STANDARD_INPUT:
            other = draw.choice(["none", "no\nname", "\x1b[2J", "né\x7f"])
            names = tuple(other if name == missing else name for name in run.names)
            run = replace(run, names=names, files={name: data for name, data in run.files.items() if name != missing})
    return run


# The program.


class Program:
    """The built program, which is started in a folder of its own for each run."""

    def __init__(self, path, folder):
        self.path, self.folder = path, pathlib.Path(folder)

    def start(self, run):
        folder = pathlib.Path(tempfile.mkdtemp(dir=self.folder))
        for name, data in run.files.items():
            if name != STANDARD_INPUT:
                (folder / name).write_bytes(data)
        (folder / ".in").write_bytes(run.files.get(STANDARD_INPUT, b""))
        os.chdir(folder)
        opened = [
            (os.POSIX_SPAWN_OPEN, 0, ".in", os.O_RDONLY, 0),
            (os.POSIX_SPAWN_OPEN, 1, ".out", os.O_WRONLY | os.O_CREAT, 0o600),
            (os.POSIX_SPAWN_OPEN, 2, ".err", os.O_WRONLY | os.O_CREAT, 0o600),
        ]
        words = ["pdb_cli", *run.words()]
        return folder, os.posix_spawn(self.path, words, os.environ, file_actions=opened)

    def ended(self, started):
        """How a run ended; its status is None where it did not end in time."""
        folder, process = started
        signal.alarm(SECONDS)
        try:
            status = os.waitstatus_to_exitcode(os.waitpid(process, 0)[1])
        except TimeoutError:
            os.kill(process, signal.SIGKILL)
            os.waitpid(process, 0)
            status = None
        finally:
            signal.alarm(0)
        written, errors = (folder / ".out").read_bytes(), (folder / ".err").read_bytes()
        left = {path.name: path.read_bytes() for path in folder.iterdir() if path.name not in STREAMS}
        shutil.rmtree(folder)
        if re.fullmatch(SKIPPED if status == 0 else rb"(%b)?(%b)?|pdb_cli: .*\n" % (SKIPPED, ENDED), errors):
            # It says why the answer is no yes.
            errors = b""
        return Ended(written, status, left, MISTAKE if errors.startswith(MISTAKE) else errors)

    def ended_alone(self, run):
        return self.ended(self.start(run))


def too_late(*_):
    raise TimeoutError


def wanted(run, ended):
    """How the run must end, with the files of its folder."""
    right = answer(run, ended)
    return replace(right, files={name: data for name, data in right.files.items() if name != STANDARD_INPUT})


def is_broken(program, run):
    ended = program.ended_alone(run)
    return ended != wanted(run, ended)


# Breaks.


def without(run, name):
    """The run without this input."""
    files = {other: data for other, data in run.files.items() if other != name}
    return replace(run, names=tuple(other for other in run.names if other != name), files=files)


def shorter(run):
    """Runs that are a little shorter, those that lack most first."""
    if run.workers != 1:
        yield replace(run, workers=1)
    if run.fold:
        yield replace(run, fold=False)
    for name in run.names[4:]:
        yield without(run, name)
    for name, data in run.files.items():
        size = len(data)
        while size:
            for place in range(0, len(data), size):
                yield replace(run, files={**run.files, name: data[:place] + data[place + size :]})
            size //= 2


def shortest(program, run):
    """A run that breaks, and doesn't when any one part more is left out."""
    tries = 0
    while True:
        for candidate in shorter(run):
            tries += 1
            if tries > MOST_TRIES:
                return run
            if is_broken(program, candidate):
                run = candidate
                break
        else:
            return run


def keep(run, ended, folder):
    """Keeps a run, how it ended and how it must end, and gives the words of the program."""
    shutil.rmtree(folder, ignore_errors=True)
    folder.mkdir(parents=True)
    for name, data in run.files.items():
        (folder / ("standard_input" if name == STANDARD_INPUT else name)).write_bytes(data)
    line = shlex.join(run.words()) + (" <standard_input" if STANDARD_INPUT in run.files else "")
    (folder / "words").write_text(f"{line}\n")
    for name, end in (("wanted", wanted(run, ended)), ("ended", ended)):
        files = [f"{file!r}: {hashlib.sha256(data).hexdigest()}\n" for file, data in sorted(end.files.items())]
        (folder / name).write_bytes(end.written + end.errors + f"\nstatus {end.status}\n{''.join(files)}".encode())
    return line


# Batches.


def kind(command, right):
    """What an answer is, without its numbers."""
    if right.errors:
        return f"{command}: mistake"
    words = right.written.decode(errors="replace").splitlines()[-1].split()
    if words[0].isdigit():
        return f"{command}: open claims"
    return f"{command}: {' '.join(words[:2] if words[0] in ('refused', 'fault') else words[:1])}"


def compared(settings, numbers):
    """How often each kind of answer was given to the inputs of these numbers, and a line for each break. A run goes on
    while the next one is drawn."""
    signal.signal(signal.SIGALRM, too_late)
    counts, broken, before = collections.Counter(), [], None
    with tempfile.TemporaryDirectory() as folder:
        program = Program(settings.program, folder)
        for number in [*numbers, None]:
            now = None
            if number is not None:
                run = drawn(settings.seed, number)
                now = number, run, program.start(run)
            if before is not None:
                number, run, started = before
                ended = program.ended(started)
                right = wanted(run, ended)
                counts[kind(run.command, right)] += 1
                if ended != right:
                    broken.append(told(settings, program, number, run))
            before = now
        os.chdir("/")
    return counts, broken


def told(settings, program, number, run):
    run = shortest(program, run)
    folder = settings.keep / f"{settings.seed}-{number}"
    line = keep(run, program.ended_alone(run), folder)
    return f"input {number} of seed {settings.seed}: {line}: in {folder}"


def read_settings():
    parser = argparse.ArgumentParser(description=__doc__.split("\n\n")[0])
    parser.add_argument("--inputs", type=int, default=2000)
    parser.add_argument("--seed", default="1")
    parser.add_argument("--first", type=int, default=0)
    parser.add_argument("--processes", type=int, default=1)
    parser.add_argument("--program", type=pathlib.Path)
    parser.add_argument("--keep", type=pathlib.Path, default=pathlib.Path(tempfile.gettempdir()) / "broken_inputs")
    settings = parser.parse_args()
    if settings.program is None:
        subprocess.run([ROOT / "pdb_cli", "--help"], stdin=subprocess.DEVNULL, stdout=subprocess.DEVNULL, check=True)
        settings.program = ROOT / "out" / "pdb_cli"
    settings.program, settings.keep = settings.program.resolve(strict=True), settings.keep.resolve()
    return settings


def main():
    settings = read_settings()
    end = settings.first + settings.inputs
    batches = [range(first, min(first + BATCH, end)) for first in range(settings.first, end, BATCH)]
    counts, failed = collections.Counter(), 0
    with concurrent.futures.ProcessPoolExecutor(settings.processes) as pool:
        for batch, broken in pool.map(compared, [settings] * len(batches), batches):
            counts += batch
            failed += len(broken)
            for line in broken:
                print(f"FAILED: {line}", flush=True)
    for answered, times in sorted(counts.items()):
        print(f"{times:8} {answered}")
    print(f"{counts.total() - failed} passed, {failed} failed")
    sys.exit(failed != 0)


if __name__ == "__main__":
    main()
