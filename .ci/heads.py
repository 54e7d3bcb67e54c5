"""Compares each crate's head with `crates.txt`, and ends with 1 if a head leaves out a crate that it stands on.

A head names a library, or says a word for several: those in WORDS, each with the sections of `crates.txt` that it means. Crates
named in a sentence that begins with "It must not cite" don't count. `heads.py FILE` takes another list in place of `crates.txt`.
"""

import re
import sys
from pathlib import Path

from sources import CRATES, ROOT

LAWS = ("What holds of every core: laws over definitions", "What holds of every state: laws over definitions")
BOOK = "The laws of the book: no part of the program stands on them"
WORDS = {
    "the model": ("The model",),
    "its laws": LAWS,
    "crates of laws": LAWS,
    "laws of the book": (*LAWS, BOOK),
    "its parts": ("The parts of the core",),
    "the parts that it makes again": ("The parts of the core",),
    "the definitions of serving": ("Serving, as definitions",),
    "every crate below": None,
}


def listed(path):
    """Returns each section of a list of crates: its heading, and each crate in it with what it stands on."""
    sections, heading = {}, ""
    for line in path.read_text().splitlines():
        if line.startswith("## "):
            heading = line.removeprefix("## ")
        elif line and not line.startswith(("#", " ")):
            name, _, below = line.partition(":")
            sections.setdefault(heading, {})[name] = below.split()
    return sections


def head_of(crate):
    """Returns the head of a crate's root file as one text, without the sentences on what it must not cite."""
    root = CRATES / crate / "src" / "lib.rt"
    if not root.exists():
        root = root.with_name("main.rt")
    lines = [line.removeprefix("//!").strip() for line in root.read_text().splitlines() if line.startswith("//!")]
    return re.sub(r"It must not cite .*?\.(?= |$)", "", " ".join(lines))


def said(head, sections):
    """Returns the crates that a head names, itself or by a word for several; None stands for all."""
    named = set(re.findall(r"`(\w+)`", head))
    for word, headings in WORDS.items():
        if word in head:
            if headings is None:
                return None
            named |= {crate for heading in headings for crate in sections[heading]}
    return named


def left_out(crate, below, sections):
    """Returns the libraries that a crate stands on and its head doesn't say."""
    named = said(head_of(crate), sections)
    return [] if named is None else [library for library in below if library not in named]


def main(words):
    sections = listed(Path(words[0]) if words else ROOT / "crates.txt")
    faults = 0
    for crates in sections.values():
        for crate, below in crates.items():
            missing = left_out(crate, below, sections)
            if missing:
                faults += 1
                print(f"{crate}: its head leaves out {', '.join(missing)}")
    sys.exit(bool(faults))


if __name__ == "__main__":
    main(sys.argv[1:])
