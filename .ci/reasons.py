#!/usr/bin/env python3
"""Compares the reasons of a decline: those that the model spells, the code, docs/RULES.md and docs/LINES.md; ends with 1 if one leaves out a reason.

`reasons.py FOLDER` takes a file from that folder, under its name here, instead of the repository's.
"""

import re
import sys
from pathlib import Path

from exceptions import tell
from sources import ROOT

MODEL = "crates/iss_model/specs/texts/Wordings.antt"
CODE = "crates/iss_event/src/reason.rt"
PAGES = ("docs/RULES.md", "docs/LINES.md")
NAME = re.compile(r"[A-Z]+(?:_[A-Z]+)*")


def part_of(text, first, last):
    """Returns what stands in a text from one of its lines to the next that begins otherwise."""
    after = text.partition(f"\n{first}")[2]
    return after.partition(f"\n{last}")[0]


def spelled(text):
    """Returns the reasons that the model's definition spells."""
    return set(re.findall(r'^reason_text .*? = codes "([A-Z_]+)', text, re.M))


def coded(text):
    """Returns the reasons that the code writes."""
    return set(re.findall(r'=> "([A-Z_]+)', part_of(text, "fn reason_name", "}")))


def documented(text):
    """Returns the reasons that a page's chapter of reasons has, each in backticks and perhaps with what it names."""
    chapter = part_of(text, "## Reasons", "## ")
    return {word.partition(":")[0] for word in re.findall(r"`([^`]*)`", chapter) if NAME.fullmatch(word.partition(":")[0])}


def differences(name, found, wanted):
    missing = [f"{name} leaves out the reason {reason}" for reason in sorted(wanted - found)]
    return missing + [f"{name} has {reason}, which is no reason" for reason in sorted(found - wanted)]


def main(words):
    other = Path(words[0]) if words else ROOT
    texts = {name: (other / name if (other / name).exists() else ROOT / name).read_text() for name in (MODEL, CODE, *PAGES)}
    wanted = spelled(texts[MODEL])
    found = {CODE: coded(texts[CODE])} | {page: documented(texts[page]) for page in PAGES}
    tell([fault for name, reasons in found.items() for fault in differences(name, reasons, wanted)] if wanted else [f"{MODEL} has no reason"])


if __name__ == "__main__":
    main(sys.argv[1:])
