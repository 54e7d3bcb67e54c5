#!/usr/bin/env python3
"""Counts the clauses that are long: each joined to one line, those over 130 columns, and those over 200.

`widths.py` prints how many clauses there are, and both numbers; `widths.py -v` each long clause first, with its length and place.
`widths.py FOLDER` reads one folder.
"""

import sys
from pathlib import Path

from sources import calls_of, calls_of_file, crate_order

LONG, TOO_LONG = 130, 200


def joined(clause):
    return " ".join(line.strip() for line in clause.text.splitlines())


def calls_in(folders):
    """Returns the calls of these folders, or those of all crates."""
    calls = [call for crate in crate_order() for call in calls_of(crate)] if not folders else []
    return calls + [call for folder in folders for path in sorted(Path(folder).rglob("*.rt")) for call in calls_of_file(folder, path)]


def main(words):
    calls = calls_in([word for word in words if word != "-v"])
    clauses = [(len(joined(clause)), call, clause) for call in calls for clause in call.clauses]
    long = sorted(
        (
            (size, f"{call.crate}/{call.path.name} {call.title()} {clause.kind} {clause.name}")
            for size, call, clause in clauses
            if size > LONG
        ),
        reverse=True,
    )
    if "-v" in words:
        for size, place in long:
            print(f"{size:5} {place}")
    print(len(clauses), len(long), sum(size > TOO_LONG for size, _ in long))


if __name__ == "__main__":
    main(sys.argv[1:])
