#!/usr/bin/env python3
"""Tries the library of the checks: the example in C, calls that don't fit, and claims, answered as the program answers them.

    tools/checks/check_library.py [--claims N] FOLDER [PROGRAM]

FOLDER has libpdb_checker.a, libpdb_checker.so and pdb.h; PROGRAM is the program, without it what the launcher builds. These are tried:

- library/example.c, compiled by `cc` as C and as C++ with every warning an error, over the archive and over the shared object; and
  with AddressSanitizer and its check for leaks, as are hard claims, by answer_claims.c;
- the module library/pdb_checker.py in a virtual environment that has nothing else;
- N claims (10,000 if not given) of boards of sides 2, 3 and 4, true and false, each alone and all at once: each must be answered by the
  line that `prove` writes; with a great budget and with small ones;
- tables with a wrong byte or a wrong length: the lines must be those of `table`; and the sentences of the module are those of FORMATS.

A line is written for each check that fails, and last `N passed, M failed`. The status is 0 if all passed.
"""

import argparse
import os
import pathlib
import random
import shutil
import subprocess
import sys
import tempfile

ROOT = pathlib.Path(__file__).resolve().parents[2]
LIBRARY = ROOT / "library"
MASKS = {2: [6, 8], 3: [30, 480], 4: [62, 1984, 63488]}
SETS = {2: "set 0 1\n", 3: "set 0 1\nset 0t 1t\n", 4: "set 0 1 2\nset 0t 1t 2t\n"}
LEAKS = ["-fsanitize=address"]
UNDEFINED = ["-fsanitize=undefined", "-fno-sanitize-recover=all"]
LOOKING = {**os.environ, "ASAN_OPTIONS": "detect_leaks=1:exitcode=99"}
# Of Korf (1985): a search for a shortest solution expands more than 65,536 boards.
HARD = "14 13 15 7 11 12 9 5 6 0 2 1 4 8 10 3"
passed = failed = 0


def check(name, holds, shown=""):
    global passed, failed
    passed += bool(holds)
    failed += not holds
    if not holds and failed <= 50:
        print(f"FAILED: {name}: {shown}"[:600], flush=True)


def equal(name, told, wanted):
    check(name, told == wanted, f"told {told!r}, wanted {wanted!r}")


def run(*words, **how):
    return subprocess.run([str(word) for word in words], capture_output=True, text=True, **how)


# ---- C


def compiles(work, *flags):
    """Whether there is a compiler of C that takes these flags. What needs one that isn't there is skipped, and told."""
    (work / "empty.c").write_text("int main(void) { return 0; }\n")
    try:
        is_made = run("cc", *flags, work / "empty.c", "-o", work / "empty").returncode == 0
    except OSError:
        is_made = False
    if not is_made:
        print(f"skipped: no cc here takes {' '.join(flags) or 'a program'}", flush=True)
    return is_made


def try_example(folder, work):
    flags = ["-Wall", "-Wextra", "-Werror", "-O1", f"-I{folder}"]
    source, archive = LIBRARY / "example.c", folder / "libpdb_checker.a"
    ways = {
        "as C": ["cc", "-std=c99", "-pedantic", *flags, source, archive],
        "over the shared object": ["cc", "-std=c99", *flags, source, f"-L{folder}", "-lpdb_checker", f"-Wl,-rpath,{folder}"],
        "with AddressSanitizer": ["cc", "-g", *LEAKS, *flags, source, archive],
        "with UndefinedBehaviorSanitizer": ["cc", "-g", *UNDEFINED, *flags, source, archive],
    }
    if shutil.which("c++"):
        ways["as C++"] = ["c++", *flags, "-x", "c++", source, "-x", "none", archive]
    for way, words in ways.items():
        if not compiles(work, *(flag for flag in words if flag in (*LEAKS, *UNDEFINED))):
            continue
        made = run(*words, "-o", work / "example")
        equal(f"the example {way}: the compiler", (made.returncode, made.stderr), (0, ""))
        if made.returncode == 0:
            told = run(work / "example", env=LOOKING)
            equal(f"the example {way}", (told.returncode, told.stderr), (0, ""))
            check(f"the example {way}: lines", "WRONG" not in told.stdout and told.stdout.count("right") == 15, told.stdout)


def try_leaks(folder, work, names, sets, claims):
    """Claims that are hard, so that all is made that helps with them, under AddressSanitizer and its check for leaks."""
    if not compiles(work, *LEAKS):
        return
    flags = ["-Wall", "-Wextra", "-Werror", "-O1", "-g", *LEAKS, f"-I{folder}"]
    made = run("cc", *flags, ROOT / "tools/checks/answer_claims.c", folder / "libpdb_checker.a", "-o", work / "answer_claims")
    equal("claims under AddressSanitizer: the compiler", (made.returncode, made.stderr), (0, ""))
    (work / "sets").write_bytes(sets)
    (work / "claims").write_text("".join(f"{claim}\n" for claim in claims))
    told = run(work / "answer_claims", 10**12, "sets", "claims", *names, cwd=work, env=LOOKING)
    equal("claims under AddressSanitizer", (told.returncode, told.stderr), (0, ""))
    equal("claims under AddressSanitizer: lines", told.stdout.count("0 "), len(claims))


def try_symbols(folder):
    """The shared object exports the calls alone, and both need the C library alone."""
    names = run("nm", "-D", "--defined-only", folder / "libpdb_checker.so").stdout.split()[2::3]
    wanted = ["bound", "claims", "optimal", "replay", "sets", "shortest", "table"]
    equal("what the shared object exports", sorted(names), [f"pdb_checker_{name}" for name in wanted])
    needs = run("nm", "-D", "--undefined-only", folder / "libpdb_checker.so").stdout.split()
    allowed = {"malloc", "realloc", "free", "memcpy", "memmove", "memset", "memcmp", "bcmp"}
    others = {name.split("@")[0] for name in needs if name not in ("U", "w")} - allowed
    equal("what it needs besides", {name for name in others if not name.startswith(("_ITM", "__cxa", "__gmon"))}, set())


# ---- Python


def try_environment(folder, work):
    """The module, in a virtual environment that has nothing but it."""
    if run(sys.executable, "-m", "venv", "--without-pip", work / "venv").returncode:
        print("skipped: this Python makes no virtual environment", flush=True)
        return
    place = next((work / "venv" / "lib").glob("python*")) / "site-packages"
    shutil.copy(LIBRARY / "pdb_checker.py", place)
    shutil.copy(folder / "libpdb_checker.so", place)
    script = (
        "import pdb_checker as p, mmap\n"
        "table = bytes.fromhex('5044425401020200000000060000000000000018FFFE01FEFF0201FE00FFFFFEFFFEFF0403FE02FF03FEFFFE')\n"
        "checker = p.Checker([bytearray(table)], b'set 0\\n')\n"
        "assert checker.tables[0].exact == p.Exact(2, 6, 24, 8, 4) and checker.tables[0].exact.tiles == (1, 2)\n"
        "assert checker.bound('3 2 1 0', 6) == p.Bound('3 2 1 0', 6)\n"
        "assert checker.shortest(p.Board([3, 2, 1, 0])) == p.Optimal('3 2 1 0', 6, 'ULDRUL')\n"
        "assert p.replay('3 2 1 0 ; ULDRUL') == p.Solution(6)\n"
        "assert p.Board('3 2 1 0').moved('ULDRUL') == p.Board([0, 1, 2, 3])\n"
        "assert p.Board('3 2 1 0')._repr_svg_().count('<rect') == 4\n"
        "def refusal(call, *words):\n"
        "    try: call(*words)\n"
        "    except p.Refused as refused: return refused.code, refused.place\n"
        "assert refusal(checker.bound, '3 2 1 0', 8) == ('O2', None)\n"
        "assert refusal(checker.bound, '3 2 1 x', 8) == ('B1', 6)\n"
        "assert refusal(p.Table, table[:-1]) == ('T6', None)\n"
        "assert refusal(p.Checker, [table], b'set 1\\n') == ('S2', 0)\n"
        "assert refusal(p.replay, '3 2 1 0') == ('P1', None)\n"
        "assert checker.answers([]) == []\n"
    )
    told = run(work / "venv" / "bin" / "python", "-I", "-c", script)
    equal("the module in a virtual environment", (told.returncode, told.stderr), (0, ""))


# ---- claims, as the program answers them


def walk(numbers, count, draw):
    """A board after so many moves, and moves that lead back."""
    back = ""
    for _ in range(count):
        ways = [letter for letter in "UDLR" if can(numbers, letter) and letter != (back[:1] or " ")]
        letter = draw.choice(ways)
        numbers = numbers.moved(letter)
        back = {"U": "D", "D": "U", "L": "R", "R": "L"}[letter] + back
    return numbers, back


def can(board, letter):
    try:
        board.moved(letter)
    except ValueError:
        return False
    return True


def claims_of(module, side, count, draw):
    """Claims on random boards, in the form of the program's lines."""
    found = []
    while len(found) < count:
        board, back = walk(module.Board(range(side * side)), draw.randrange(12, 36), draw)
        kind = draw.randrange(8)
        if kind == 0:
            found.append(f"{board}")
        elif kind < 4:
            found.append(f"{board} : {draw.randrange(0, len(back) + 3)}")
        elif kind < 6:
            found.append(f"{board} ; {back}")
        elif kind == 6:
            numbers = list(board.numbers)
            numbers[-1], numbers[-2] = numbers[-2], numbers[-1]
            # (two numbers are exchanged, so half of these have no solution)
            found.append(str(module.Board(numbers)) + draw.choice(["", f" : {draw.randrange(40)}", f" ; {back}"]))
        else:
            found.append(f"{board} ; {back[:-1]}")
    return found


def line_of(module, claim, answer):
    """The line of the program that says what an answer says."""
    if isinstance(answer, module.Bound):
        return f"bound {answer.bound} of {answer.board}"
    if isinstance(answer, module.Optimal):
        return f"optimal {answer.count} of {answer.board} ;" + (f" {answer.moves}" if answer.moves else "")
    if isinstance(answer, module.Shorter):
        return f"refused O2 by{' ' if answer.moves else ''}{answer.moves} of {claim}"
    if isinstance(answer, module.Refused):
        places = {"B1": " at byte", "B2": " at byte", "B3": " count", "M1": " at byte", "M2": " at step"}
        place = "" if answer.place is None else f"{places.get(answer.code, ' at number')} {answer.place}"
        return f"refused {answer.code}{place} of {claim}"
    return repr(answer)


def caught(call, *words):
    try:
        return call(*words)
    except Exception as fault:
        return fault


def alone(module, checker, claim):
    board, mark, moves = claim.partition(" ; ")
    if mark:
        return caught(checker.optimal, board, moves)
    board, mark, bound = claim.partition(" : ")
    return caught(checker.bound, board, int(bound)) if mark else caught(checker.shortest, board)


def try_claims(module, folder, program, work, count, draw):
    for side, masks in MASKS.items():
        names = []
        for mask in masks:
            names.append(f"table_{side}_{mask}")
            told = run(program, "make-table", side, mask, names[-1], cwd=work)
            table = module.Table(work / names[-1])
            equal(f"the table {side} {mask}", exact_line(table.exact), told.stdout.splitlines()[-1])
        sets = SETS[side].encode()
        (work / "sets").write_bytes(sets)
        for budget in [10**12, 40, 1]:
            claims = claims_of(module, side, count // 3 if budget > 100 else count // 30, draw)
            (work / "claims").write_text("".join(f"{claim}\n" for claim in claims))
            told = run(program, "prove", "--budget", budget, "claims", "sets", *names, cwd=work).stdout.splitlines()[len(names) + 1 :]
            checker = module.Checker([work / name for name in names], sets, budget)
            answers = checker.answers(claims)
            equal(f"side {side}: lines", len(told), len(claims))
            for claim, line, answer in zip(claims, told, answers):
                equal(f"side {side}, budget {budget}: {claim}", line_of(module, claim, answer), line)
                equal(f"side {side}, budget {budget}, alone: {claim}", line_of(module, claim, alone(module, checker, claim)), line)
        try_tables(module, program, work, names, draw)
    try_leaks(folder, work, names, sets, [HARD, f"{HARD} : 57"])


def exact_line(exact):
    words = f"exact side {exact.side} mask {exact.mask} entries {exact.entries} unreachable {exact.unreachable}"
    return f"{words} deepest {exact.deepest}"


def try_tables(module, program, work, names, draw):
    """Tables with a wrong byte or a wrong length."""
    for name in names:
        for number in range(12):
            data = bytearray((work / name).read_bytes())
            place = draw.randrange(20 if number % 3 == 0 else len(data))
            data[place] ^= 1 << draw.randrange(8)
            (work / "wrong").write_bytes(data[: len(data) - number // 10])
            line = run(program, "table", "wrong", cwd=work).stdout.splitlines()[-1]
            fault = caught(module.Table, work / "wrong")
            told = exact_line(fault.exact) if isinstance(fault, module.Table) else plain(fault)
            equal(f"{name} with byte {place} changed", told, line)


def try_sentences(module):
    """The sentences are those of docs/FORMATS.md, but where that speaks of lines and of the words of a command."""
    rows = (ROOT / "docs/FORMATS.md").read_text()
    for code, sentence in module.SENTENCES.items():
        row = f"| {code} | {sentence.format('N')} |"
        check(f"the sentence of {code}", code in ("Q2", "O2", "K1") or row in rows, row)


def plain(fault):
    return f"refused {fault.code}" + ("" if fault.place is None else f" at entry {fault.place}")


def main():
    parser = argparse.ArgumentParser()
    parser.add_argument("--claims", type=int, default=10_000)
    parser.add_argument("folder", type=pathlib.Path)
    parser.add_argument("program", type=pathlib.Path, nargs="?", default=ROOT / "pdb_cli")
    asked = parser.parse_args()
    folder, program = asked.folder.resolve(), asked.program.resolve()
    os.environ["PDB_CHECKER"] = str(folder / "libpdb_checker.so")
    sys.path.insert(0, str(LIBRARY))
    import pdb_checker

    with tempfile.TemporaryDirectory() as place:
        work = pathlib.Path(place)
        try_example(folder, work)
        try_symbols(folder)
        try_environment(folder, work)
        try_sentences(pdb_checker)
        try_claims(pdb_checker, folder, program, work, asked.claims, random.Random(20))
    print(f"{passed} passed, {failed} failed")
    sys.exit(failed != 0)


main()
