#!/usr/bin/env python3
"""Writes the table of clauses: each public call of each crate with what stands above it, and each of its clauses, as Markdown.

Below a call comes what docs/laws.txt says of it. `clauses.py` takes all crates of `crates.txt`, `clauses.py CRATE` one.
"""

import sys
from itertools import groupby

import laws
from sources import CRATES, crate_order

UNNAMED = "(unnamed)"


def heading(crate):
    """Returns a crate's heading: its name and what its root file says of it."""
    root = CRATES / crate / "src" / "lib.rt"
    lines = root.read_text().splitlines() if root.exists() else []
    said = [line.removeprefix("//!").strip() for line in lines if line.startswith("//!")]
    return [f"## {crate}", "", " ".join(said), ""]


def cell(text):
    return text.replace("|", "\\|").replace("# Errors ", "Errors: ")


def names(clauses):
    return ", ".join(f"`{clause.name}`" if clause.name else UNNAMED for clause in clauses)


def groups(clauses):
    """Returns the clauses in groups: those over which one comment stands."""
    return [list(group) for _, group in groupby(clauses, key=lambda clause: clause.comment)]


def rows(call, said):
    """Returns a call's lines: its own with all of its clauses, one for each group that has a comment, and what else is said of it."""
    promises = [clause for clause in call.clauses if clause.kind == "ensures"]
    needs = "yes" if len(promises) < len(call.clauses) else ""
    path = call.path.relative_to(CRATES / call.crate)
    commented = [group for group in groups(promises) if group[0].comment]
    own = f"| `{call.title()}` | {names(promises)} | {needs} | {cell(call.comment)} | `{path}` |"
    further = [f"| | {f'`{clause}`' if clause else ''} | | {cell(text)} | `{laws.PATH}` |" for clause, text in said]
    return [own] + [f"| | {names(group)} | | {cell(group[0].comment)} | |" for group in commented] + further


def table(crate, said):
    """Returns a crate's part: its heading, and the lines of its public calls, or nothing if it has none."""
    lines = [line for call in laws.public_calls(crate) for line in rows(call, said.get((crate, call.title()), []))]
    head = ["| call | clauses | needs | what stands above | file |", "|---|---|---|---|---|"]
    return heading(crate) + head + lines + [""] if lines else []


def main(words):
    crates = words or crate_order()
    unknown = [crate for crate in crates if crate not in crate_order()]
    if unknown:
        sys.exit(f"crates.txt has no {unknown[0]}.")
    said = laws.read_laws()
    lines = [line for crate in crates for line in table(crate, said)]
    if not lines:
        sys.exit("No public call was found.")
    print("\n".join(["# Clauses", "", "What each public call promises, from the sources.", "", *lines]))


if __name__ == "__main__":
    main(sys.argv[1:])
