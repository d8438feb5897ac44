#!/usr/bin/env python3
"""Counts what a reader has to believe: the definitions behind a statement, each followed by its names, file by file.

    tools/checks/check_believe.py                    compares docs/BELIEVE.md and README.md with what it counts
    tools/checks/check_believe.py list [STATEMENT]   prints the definitions behind a statement, and how many lines they have
    tools/checks/check_believe.py count STATEMENT..  prints one line for each statement

A STATEMENT is CRATE::FILE::FUNCTION, for all clauses of a function in crates/CRATE/src/FILE.rt, the same with `.CLAUSE`
behind it for one of them, or CRATE::FILE::NAME for a definition of crates/CRATE/specs/FILE.antt; without one it is the
headline. Definitions of the kit (its standard library, `clap`, `sha2` and others) are not followed, but those of `clap` are
counted where the kit is there. Lines are those of the definitions alone: no comments, no imports, no empty lines.

Each number of BELIEVE.md is compared, and each definition must be named there under its file, with none besides. Its quote of the
verdict must be the line that a build requires of the kit. Of README.md its quote of the clause is compared, and how many
definitions it says are behind it. A line is written for each of these that fails, and last the line `N passed, M failed`. The
status is 0 if all passed.
"""

import functools
import re
import shutil
import sys
from dataclasses import dataclass
from pathlib import Path

ROOT = Path(__file__).resolve().parents[2]
# The kit's libraries, where its command is found.
KIT = Path(shutil.which("rt") or "/none").resolve().parent.parent / "rattle"
PAGE = ROOT / "docs" / "BELIEVE.md"
README = ROOT / "README.md"
BUILD = ROOT / "tools" / "build" / "build.sh"
RUN = "pdb_program::programs::run"
CLAUSE = RUN + ".headline"
HEADLINE = "pdb_program::Headline::Headline"
# What a log has to be, and when a part of a bound holds, is set apart: of the headline the lines on `solve`, and those on `parts` and on
# parts, alone cite it.
LOG = "pdb_verdict::Bound::IsProvedFor"
ANSWERS = "pdb_parts::Laws::AreTrueAnswers"
PART = "pdb_program::Headline::HoldsOfPart"
MOST_DEFINITIONS, MOST_LINES = 95, 345

WORD = re.compile(r"[^\s(){}\[\],;.]+(?:\.[^\s(){}\[\],;.]+)*")
START = re.compile(
    r"(?P<indent> *)(?:abbrev pub|unfoldable pub|abbrev|unfoldable|pub record|pub data|record|data|pub)? *"
    r"(?P<name>[^\s(){}:]+)(?= *[:({])"
)
ITEM = re.compile(r"^- \[`[\w.]+`\]\(\.\./([\w./]+)\) \((\d+), (\d+)\): (.*)$", re.MULTILINE)
IMPORT = re.compile(r"(?:pub |ghost )?use (Rattle\.[\w.]+?)(?:\.\{([^}]*)\}|)(?: as (\w+))?;?$")


@dataclass(frozen=True)
class Definition:
    """A definition: its crate, its file, its name, its lines, and the comment above it."""

    crate: str
    file: str
    name: str
    lines: tuple
    comment: str

    @property
    def path(self):
        return f"crates/{self.crate}/{self.file}"


# Reading files.


def place_of(path):
    """Where a file or a folder of a crate is: in the checkout, or, of `clap`, in the kit."""
    return KIT / path.removeprefix("crates/") if path.startswith("crates/clap/") else ROOT / path


@functools.cache
def lines_of(path):
    return place_of(path).read_text().splitlines()


def imports_of(lines):
    """The names that a file imports, each with its module and its name there; an alias has no name there."""
    found = {}
    for line in lines:
        if not (match := IMPORT.match(line.strip())):
            continue
        module, names, alias = match.groups()
        if names is None:
            found[alias or module.rpartition(".")[2]] = (module, None)
            continue
        for name in filter(None, (part.strip() for part in names.split(","))):
            source, _, local = name.partition(" as ")
            found[local or source] = (module, source)
    return found


def is_inner(lines, at, indent, name):
    """Whether the line at this place belongs to the definition of this name, which begins at this indent. A comment does where
    the line behind it does."""
    line = lines[at]
    depth = len(line) - len(line.lstrip())
    if line.strip().startswith("--"):
        return at + 1 < len(lines) and is_inner(lines, at + 1, indent, name)
    return bool(line.strip()) and (depth > indent or depth == indent and line.split()[0] in (name, "unfolding"))


@functools.cache
def definitions_in(crate, file):
    """The definitions of a file of specs/, by their names, the constructors of data among them."""
    lines = lines_of(f"crates/{crate}/{file}")
    found, section, comment, at = {}, [], [], 0
    while at < len(lines):
        line = lines[at]
        at += 1
        if line.strip().startswith("--"):
            comment.append(line.strip(" -"))
            continue
        match = START.match(line)
        if line.startswith("module _"):
            section = [line]
        elif match and not line.startswith(("use ", "pub use ", "pub mod ")):
            indent, name = len(match["indent"]), match["name"]
            own = [line]
            while at < len(lines) and is_inner(lines, at, indent, name):
                if not lines[at].strip().startswith("--"):
                    own.append(lines[at])
                at += 1
            body = tuple(own if indent == 0 else section + own)
            definition = Definition(crate, file, name, body, " ".join(comment))
            found[name] = definition
            if re.match(r" *(pub )?data ", line):
                for inner in own[1:]:
                    found.update(dict.fromkeys(inner.partition(" : ")[0].split(), definition))
        comment = []
    return found


@functools.cache
def declared(crate, module, name):
    """A type of the code, whose values a contract sees."""
    source = next(p for p in (f"src/{'/'.join(module)}.rt", "src/lib.rt") if place_of(f"crates/{crate}/{p}").exists())
    lines = lines_of(f"crates/{crate}/{source}")
    first = next(i for i, line in enumerate(lines) if re.match(rf"pub(\(crate\))? (enum|struct) {name}\b", line))
    last = first
    while not lines[first].endswith(";") and lines[last] != "}":
        last += 1
    body = tuple(line for line in lines[first : last + 1] if line.strip() and not line.strip().startswith(("///", "#")))
    above, comment = first - 1, []
    while lines[above].startswith(("///", "#[")):
        comment.insert(0, lines[above].removeprefix("///").strip() if lines[above].startswith("///") else "")
        above -= 1
    return Definition(crate, source, name, body, " ".join(filter(None, comment)))


# Following names.


def resolve(module, name):
    """The definition of this name in a module, or None for what the kit defines."""
    parts = module.split(".")[1:]
    if not place_of(f"crates/{parts[0]}/specs").exists() or parts[1:2] != ["specs"]:
        return None
    crate, inner = parts[0], parts[2:]
    if inner[:1] == ["declared"]:
        inner = [part for part in inner[1:] if part not in ("TheVariants", "TheInside")]
        return None if inner[-1:] == ["TheConstants"] else declared(crate, tuple(inner[:-1]), inner[-1])
    file = f"specs/{'/'.join(inner)}.antt"
    if name in (found := definitions_in(crate, file)):
        return found[name]
    again = imports_of(lines_of(f"crates/{crate}/{file}"))
    if name not in again:
        raise LookupError(f"{module} has no {name}")
    return resolve(*again[name])


def named_in(lines, imports, own):
    """The definitions that these lines name, by the names of the file itself and by those that it imports."""
    for line in lines:
        for word in WORD.findall(line):
            head, _, rest = word.partition(".")
            if head in imports:
                module, name = imports[head]
                if name is not None or rest or ".declared." in module:
                    yield resolve(module, name or rest.partition(".")[0])
            elif head in own:
                yield own[head]


@functools.cache
def named_by(definition):
    if definition.file.endswith(".rt"):
        return frozenset()
    imports = imports_of(lines_of(definition.path))
    own = definitions_in(definition.crate, definition.file)
    return frozenset(filter(None, named_in(definition.lines, imports, own))) - {definition}


def clauses_of(lines, function, clause):
    """The text of a function's clauses, or of the one of this name."""
    first = next(i for i, line in enumerate(lines) if re.match(rf"pub fn {function}\b", line))
    last = next(i for i in range(first, len(lines)) if lines[i] in ("{", "{}"))
    text, inside = [], False
    for line in lines[first:last]:
        if match := re.match(r" +(?:ensures|requires)\*? (\w*)", line):
            inside = clause in ("", match[1])
        if inside and not line.strip().startswith("//"):
            text.append(line)
    return text


def roots_of(statement):
    """The definitions that a statement names itself."""
    crate, file, name = statement.split("::")
    function, _, clause = name.partition(".")
    if (ROOT / f"crates/{crate}/specs/{file}.antt").exists():
        return {definitions_in(crate, f"specs/{file}.antt")[name]}
    lines = lines_of(f"crates/{crate}/src/{file}.rt")
    return set(filter(None, named_in(clauses_of(lines, function, clause), imports_of(lines), {})))


def behind_with_clap(statement, *apart):
    """All definitions behind a statement, those of `clap` among them, without these and what is behind them alone."""
    found, left = set(), list(roots_of(statement))
    while left:
        definition = left.pop()
        if definition in found or definition in apart:
            continue
        found.add(definition)
        left.extend(named_by(definition))
    return found


def behind(statement, *apart):
    """The same of the checkout's own. No definition of `clap` names one of these."""
    return {definition for definition in behind_with_clap(statement, *apart) if definition.crate != "clap"}


def behind_headline():
    """The definitions behind the headline, without those that are set apart."""
    return behind(HEADLINE, *roots_of(LOG), *roots_of(ANSWERS), *roots_of(PART))


def size(definitions):
    return len(definitions), sum(len(d.lines) for d in definitions)


# What is printed.


def by_file(definitions):
    files = {}
    for definition in sorted(definitions, key=lambda d: (d.path, d.name)):
        files.setdefault(definition.path, []).append(definition)
    return files


def print_list(statement):
    definitions = behind(statement)
    for path, own in by_file(definitions).items():
        print(f"{path}: {len(own)} definitions, {size(own)[1]} lines")
        for definition in own:
            print(f"    {definition.name} ({len(definition.lines)}): {definition.comment}")
    print("{} definitions, {} lines".format(*size(definitions)))


# Comparing the page.


@dataclass(frozen=True)
class Item:
    """What the page says of a file: how many definitions and lines of it are read, and the words that it has in code."""

    path: str
    size: tuple
    words: frozenset


def section_of(page, title):
    """The text below a heading of the page."""
    return page.partition(f"\n## {title}\n")[2].partition("\n## ")[0]


def items_in(section):
    for path, definitions, lines, text in ITEM.findall(section):
        yield Item(path, (int(definitions), int(lines)), frozenset(re.findall(r"`([^`]+)`", text)))


def names_in(path):
    """All names that a file of specs/ defines; those that aren't read may not stand there."""
    crate, _, file = path.removeprefix("crates/").partition("/")
    if not file.endswith(".antt") or not (ROOT / path).exists():
        return set()
    return {definition.name for definition in definitions_in(crate, file).values()}


def check_section(page, title, definitions):
    section = section_of(page, title)
    yield f"{title}: all", "{} definitions, {} lines".format(*size(definitions)) in section
    wanted = by_file(definitions)
    items = list(items_in(section))
    yield f"{title}: its files", sorted(item.path for item in items) == sorted(wanted)
    for item in items:
        own = wanted.get(item.path, [])
        names = {definition.name for definition in own}
        yield f"{title}: {item.path}: {size(own)}", item.size == size(own)
        yield f"{title}: {item.path}: {sorted(names)}", item.words & (names | names_in(item.path)) == names


def quoted(page, lines):
    """Whether the page has a block with these lines."""
    return "```\n" + "\n".join(lines) + "\n```\n" in page


def clause_text(function_file, function):
    """The lines of a function's clause `headline`, without their indent."""
    lines = clauses_of(lines_of(f"crates/pdb_program/src/{function_file}.rt"), function, "headline")
    return [line.removeprefix("    ") for line in lines if line.strip()]


def check_page(page):
    headline = behind_headline()
    log = behind(LOG) - headline
    answers = (behind(ANSWERS) | behind(PART)) - headline
    clause = behind(CLAUSE)
    words = clause - headline - log - answers
    for row, definitions in (
        ("the headline", headline),
        ("a log that proves a bound", log),
        ("parts that hold", answers),
        ("what words ask for", words),
        ("the clause, all of it", clause),
        ("all clauses of `run`", behind(RUN)),
    ):
        yield f"the row of {row}: {size(definitions)}", "\n| {} | {} | {} |\n".format(row, *size(definitions)) in page
    yield from check_section(page, "The headline", headline)
    yield from check_section(page, "A log that proves a bound", log)
    yield from check_section(page, "Parts that hold", answers)
    yield from check_section(page, "What words ask for", words)
    if (KIT / "clap").exists():
        clap = behind_with_clap(CLAUSE) - clause
        counts = "{} definitions of `clap`, {} lines".format(*size(clap))
        yield f"behind what words ask for: {counts}", counts in section_of(page, "What words ask for")
    definitions, lines = size(headline)
    yield f"the headline is short: {size(headline)}", definitions <= MOST_DEFINITIONS and lines <= MOST_LINES
    run, start = clause_text("programs", "run"), clause_text("starts", "start")
    yield "the clause is quoted", quoted(page, run)
    yield "the clause of a run in memory is quoted", quoted(page, clause_text("in_memory", "run_in_memory"))
    # It names other words in the line or the lines before, and the exit status by its number.
    last = start[-1].strip(" })").replace("(status_number result.status", "result")
    same = run[1:-1] == start[1 - len(run) : -1] and run[-1].strip(" })") == last
    yield "the clause of start is the same", same
    text = lines_of("crates/pdb_program/specs/Headline.antt")
    last_import = max(at for at, line in enumerate(text) if line.startswith("use "))
    yield "the headline is quoted", quoted(page, text[last_import + 2 :])


def check_verdict(page, script):
    verdict = re.search(r"^verdict='(.*)'$", script, re.MULTILINE)[1]
    yield f"the verdict is quoted: {verdict}", re.findall(r"^ *(logic=.*)$", page, re.MULTILINE) == [verdict]


def check_readme(page):
    yield "README.md: the clause is quoted", quoted(page, clause_text("programs", "run"))
    headline, clause = behind_headline(), behind(CLAUSE)
    counts = f"the {len(clause)} short definitions behind it in order: {len(headline)} of them say"
    yield f"README.md: {counts}", counts in page


def compare():
    passed = failed = 0
    page = PAGE.read_text()
    for name, holds in [*check_page(page), *check_verdict(page, BUILD.read_text()), *check_readme(README.read_text())]:
        passed += holds
        failed += not holds
        if not holds:
            print(f"FAILED: {name}")
    print(f"{passed} passed, {failed} failed")
    return int(failed != 0)


def main(words):
    if not words:
        return compare()
    if words[0] == "list" and len(words) <= 2:
        print_list(*(words[1:] or [HEADLINE]))
    elif words[0] == "count" and words[1:]:
        for statement in words[1:]:
            print("{}: {} definitions, {} lines".format(statement, *size(behind(statement))))
    else:
        print("usage: tools/checks/check_believe.py [list [STATEMENT] | count STATEMENT..]", file=sys.stderr)
        return 2
    return 0


if __name__ == "__main__":
    sys.exit(main(sys.argv[1:]))
