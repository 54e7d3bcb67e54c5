#!/usr/bin/env python3
"""Compares the table of a sound state's rules in docs/ARCHITECTURE.md with the sources; ends with 1 if they differ.

Each field of `IsSoundState` and of `IsWellFormed` has a row, and the crate of its law has a clause that names the field's rule.
`sound.py PAGE` reads another page.
"""

import re
import sys
from pathlib import Path

from exceptions import tell
from sources import CRATES, ROOT, calls_of, read_module

PAGE = ROOT / "docs" / "ARCHITECTURE.md"
STATE = CRATES / "iss_sound" / "specs" / "Sound.antt", "IsSoundState"
FORM = CRATES / "iss_well_formed" / "specs" / "WellFormed.antt", "IsWellFormed"
ROW = re.compile(r"^\| `([a-z_.]+)` \| [^|]+ \| `(iss_\w+)` \| (`iss_\w+`(?:, `iss_\w+`)*) \|$", re.M)


def fields_of(path, name):
    """Returns the fields of a record: each name with the rule that it holds."""
    record = next(definition for definition in read_module(path).definitions if definition.name == name)
    return dict(re.findall(r"^  pub (\w+) : (\w+)", "\n".join(record.lines), re.M))


def rules():
    """Returns the rules of a sound state by the names of their rows, each with the rule that its law names."""
    fields = fields_of(*STATE)
    form = fields.pop("formed")
    return {f"formed.{name}": form for name in fields_of(*FORM)} | fields


def has_law(crate, rule):
    return any(re.search(rf"\b{rule}\b", clause.text) for call in calls_of(crate) for clause in call.clauses)


def faults_of(rows, wanted):
    """Returns what is wrong with the rows, each a crate of the law and those of the test by a field."""
    missing = [f"the field {name} has no row" for name in wanted if name not in rows]
    others = [f"the row {name} is of no field" for name in rows if name not in wanted]
    laws = [f"{law} has no law of {name}" for name, (law, _) in rows.items() if name in wanted and not has_law(law, wanted[name])]
    tests = [f"there is no crate {crate}" for _, crates in rows.values() for crate in crates if not (CRATES / crate).exists()]
    return missing + others + laws + tests


def main(words):
    page = Path(words[0]) if words else PAGE
    rows = {name: (law, re.findall(r"\w+", tests)) for name, law, tests in ROW.findall(page.read_text())}
    tell(faults_of(rows, rules()))


if __name__ == "__main__":
    main(sys.argv[1:])
