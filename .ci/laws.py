#!/usr/bin/env python3
"""Reads docs/laws.txt: what public calls promise beyond what their comments say.

A line is `CRATE CALL: SENTENCES`, or `CRATE CALL = DEFINITION, ..`, which stands for the sentences of these definitions; a clause's name
may follow the call. A definition is one of the call's own crate, or else the one of this name that there is, or it is cited as CRATE.NAME.
`laws.py` ends with 1 if a line names a call, a clause or a definition that isn't there; `laws.py FILE` reads another file.
"""

import re
import sys
from pathlib import Path

from sources import ROOT, calls_of, crate_order, exported_names, is_exported, read_modules

PATH = "docs/laws.txt"
LAW = re.compile(r"(\w+) ([\w:]+)(?: (\w+))?(:| =) (.+)")


def comments(lines):
    """Returns the comments among these lines: each is of the lines that follow one another."""
    blocks = [[]]
    for line in map(str.strip, lines):
        if line.startswith("--"):
            blocks[-1].append(line.lstrip("- "))
        elif blocks[-1]:
            blocks.append([])
    return [" ".join(block) for block in blocks if block]


def as_sentence(text):
    end = "" if text.endswith((".", "?", ":")) else "."
    return text[:1].upper() + text[1:] + end


def sentences_of(definition):
    """Returns what stands above a definition and at its fields."""
    return " ".join(map(as_sentence, comments(definition.sentences) + comments(definition.lines)))


def definitions():
    """Returns the definitions of all modules, each with its crate, by name."""
    named = {}
    for module in read_modules().values():
        for definition in module.definitions:
            named.setdefault(definition.name, []).append((module.name.split(".")[0], definition))
    return named


def chosen(crate, text, named):
    """Returns the one definition that a text cites for a call of this crate."""
    other, _, name = text.rpartition(".")
    found = named.get(name, [])
    own = [definition for there, definition in found if there == (other or crate)]
    which = own or [definition for _, definition in found if not other]
    if len(which) != 1:
        sys.exit(f"{PATH}: for {crate} there are {len(which)} definitions {text}, and not one")
    return which[0]


def cited(crate, texts, named):
    """Returns the sentences of each definition that a line cites, after its name."""
    which = [chosen(crate, text, named) for text in texts.split(", ")]
    return [f"`{definition.name}`: {sentences_of(definition)}" for definition in which]


def read_laws(path=ROOT / PATH):
    """Returns what is said of each crate's call, with the clause that is meant, if one is."""
    laws, named = {}, definitions()
    for line in path.read_text().splitlines():
        found = LAW.fullmatch(line)
        if found:
            crate, call, clause, sign, text = found.groups()
            said = [text] if sign == ":" else cited(crate, text, named)
            laws.setdefault((crate, call), []).extend((clause or "", one) for one in said)
        elif line and not line.startswith("#"):
            sys.exit(f"{PATH} has a line of another form: {line}")
    return laws


def public_calls(crate):
    shown = exported_names(crate)
    return [call for call in calls_of(crate) if is_exported(call, shown)]


def names_of(crate):
    """Returns each public call of a crate, as a line names it: alone, and with each of its clauses."""
    calls = public_calls(crate)
    clauses = {(crate, call.title(), clause.name) for call in calls for clause in call.clauses}
    return clauses | {(crate, call.title(), "") for call in calls}


def strangers(laws):
    """Returns what the lines name and no crate shows: a call, or a clause of one."""
    shown = set().union(*(names_of(crate) for crate in crate_order()))
    named = [(*key, clause) for key, said in laws.items() for clause, _ in said]
    return [" ".join(key).rstrip() for key in dict.fromkeys(named) if key not in shown]


def main(words):
    missing = strangers(read_laws(Path(words[0])) if words else read_laws())
    for name in missing:
        print(f"{PATH}: no crate shows {name}")
    sys.exit(bool(missing))


if __name__ == "__main__":
    main(sys.argv[1:])
