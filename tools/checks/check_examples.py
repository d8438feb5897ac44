#!/usr/bin/env python3
"""Looks for the example of each crate's README.md among the tests: its lines stand there one after the other. And compares the
sentences that say why an answer is no yes, in docs/FORMATS.md, with those of the crate `pdb_reason`.

    tools/checks/check_examples.py

An example is a block that begins with ```rust. Spaces at the beginning of a line don't count. Each crate but those of
tests, `pdb_cli`, `pdb_checker`, which C calls, `word_laws` and `claim_laws`, which nobody calls, and `puz_walk`, which tests call
through `puz_search`, has one. The last line is `N passed, M failed`, and the status is 0 if none failed.
"""

import pathlib
import re
import sys

ROOT = pathlib.Path(__file__).resolve().parents[2]
WITHOUT_EXAMPLE = {"pdb_cli", "pdb_checker", "word_laws", "claim_laws", "puz_walk"}
SAMPLES = {"test_samples"}


def bare(text):
    """The lines of a text without the spaces round them, with an end of line before and behind each."""
    return "\n" + "".join(line.strip() + "\n" for line in text.splitlines())


def is_of_tests(crate):
    """Whether a crate is one of tests, as all whose names begin with test_ but those of samples."""
    return crate.startswith("test_") and crate not in SAMPLES


def sentences():
    """The rows of docs/FORMATS.md that the sentences of the source make: an arm has a code, and then a sentence with its numbers."""
    source = (ROOT / "crates/pdb_reason/src/texts.rt").read_text()
    for arm in re.split(r"\n +(?=\w+::[A-Z]\d\b|\w+::\w+\(\w+::[A-Z]\d\b)", source)[1:]:
        code = re.search(r"::([A-Z]\d)\b", arm)[1]
        first, *others = re.split(r"\{\w+\}", re.search(r'"([^"]*)"', arm)[1])
        yield f"| {code} | {first}{''.join(number + piece for number, piece in zip('NM', others))} |"
    for text in re.findall(r'const \w+: &str =\s*"([^"]*)"', source):
        yield f"| {text} |"


def main():
    files = sorted(ROOT.glob("crates/test_*/src/*.rt"))
    tests = [bare(file.read_text()) for file in files if is_of_tests(file.parts[-3])]
    failures = passed = 0
    for page in sorted(ROOT.glob("crates/*/README.md")):
        crate = page.parent.name
        examples = re.findall(r"^```rust\n(.*?)^```", page.read_text(), re.MULTILINE | re.DOTALL)
        wrong = [it for it in examples if not any(bare(it) in test for test in tests)]
        if wrong:
            print(f"FAILED: no test has this example of {crate}:\n{wrong[0]}", end="")
        elif not examples and not is_of_tests(crate) and crate not in WITHOUT_EXAMPLE:
            wrong = [crate]
            print(f"FAILED: {crate} has no example")
        failures += bool(wrong)
        passed += not wrong
    rows = (ROOT / "docs/FORMATS.md").read_text().splitlines()
    wanted = list(sentences())
    missing = [it for it in wanted if not any(row.endswith(it) for row in rows)]
    if missing or len(wanted) < 44:
        print(f"FAILED: docs/FORMATS.md lacks sentences: {missing}")
    failures += bool(missing) or len(wanted) < 44
    passed += not missing
    print(f"{passed} passed, {failures} failed")
    return failures != 0


sys.exit(main())
