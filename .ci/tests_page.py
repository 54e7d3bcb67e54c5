#!/usr/bin/env python3
"""Compares docs/TESTS.md with the crates of tests, the checks and the worked scripts, and ends with 1 if they differ.

Each crate of tests of `crates.txt` stands in the table of crates, and each name in the second column there is a test of its crate. The table
of checks has each file of .ci/checks and no other. In the table of calls each name in the second column is a test, a script, a check or a crate.
`tests_page.py FILE` reads another page.
"""

import re
import sys
from pathlib import Path

from sources import CRATES, ROOT

PAGE = ROOT / "docs" / "TESTS.md"
SECTION = "## Crates of tests alone"
TEST = re.compile(r"#\[test\]\s*\n(?:\s*#\[.*\]\s*\n)*\s*fn (\w+)")


def crates_of_tests():
    """Returns the crates of the last section of `crates.txt`."""
    lines = (ROOT / "crates.txt").read_text().split(SECTION, 1)[1].split("\n## ", 1)[0].splitlines()
    return [line.split(":")[0] for line in lines if line and not line.startswith(("#", " "))]


def tests_of(crate):
    """Returns the names of a crate's tests."""
    texts = (path.read_text() for path in (CRATES / crate / "src").rglob("*.rt"))
    return {name for text in texts for name in TEST.findall(text)}


def checks():
    return {path.name for path in (ROOT / ".ci" / "checks").glob("*.sh")}


def scripts():
    return {path.stem for path in (ROOT / "examples" / "scripts").glob("*.jsonl")}


def rows_of(page, first):
    """Returns the rows of the table whose first column is named so, each as its cells; an empty first cell is that of the row above."""
    rows, above, is_in = [], "", False
    for line in page.read_text().splitlines():
        cells = [cell.strip() for cell in line.strip("|").split("|")]
        if line.startswith(f"| {first} |"):
            is_in = True
        elif is_in and line.startswith("| "):
            above = cells[0] or above
            rows.append([above, *cells[1:]])
        elif not line.startswith("|"):
            is_in = False
    return rows


def names_in(cell):
    return re.findall(r"`([^`]+)`", cell)


def faults_of_crates(page, tests):
    """Returns what is wrong in the table of crates."""
    rows = [(name, row[1]) for row in rows_of(page, "crate") for name in names_in(row[0])]
    strange = [f"{crate} is no crate of tests" for crate, _ in rows if crate not in tests]
    cited = [(crate, name) for crate, cell in rows for name in names_in(cell)]
    missing = [f"{crate} has no test {name}" for crate, name in cited if name not in tests.get(crate, ())]
    named = {crate for crate, _ in rows}
    return strange + missing + [f"{crate} isn't in the table of crates" for crate in tests if crate not in named]


def faults_of_checks(page):
    """Returns what is wrong in the table of checks."""
    named = {name for row in rows_of(page, "check") for name in names_in(row[0])}
    there = checks()
    return [f"there is no check {name}" for name in sorted(named - there)] + [
        f"{name} isn't in the table of checks" for name in sorted(there - named)
    ]


def faults_of_calls(page, tests):
    """Returns what runs calls by the page and isn't there."""
    known = checks() | scripts() | set(tests).union(*tests.values())
    cells = [row[1] for row in rows_of(page, "calls that allocate")]
    named = [name for cell in cells for name in names_in(cell)]
    return [f"nothing that runs calls is named {name}" for name in named if name not in known]


def main(words):
    page = Path(words[0]) if words else PAGE
    tests = {crate: tests_of(crate) for crate in crates_of_tests()}
    faults = faults_of_crates(page, tests) + faults_of_checks(page) + faults_of_calls(page, tests)
    for fault in faults:
        print(f"{page.name}: {fault}")
    sys.exit(bool(faults))


if __name__ == "__main__":
    main(sys.argv[1:])
