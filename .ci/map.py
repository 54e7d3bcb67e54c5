#!/usr/bin/env python3
"""Writes docs/ARCHITECTURE.md to standard output as it ought to be: its picture and its tables are made anew, and all else stays.

Both are made from `crates.txt`; the tables have the first sentence of each crate's head. An arrow of the picture leads from a section to the
highest ones on which its crates stand. `map.py LIST` writes the picture of another list alone.
"""

import re
import sys
from pathlib import Path

from exceptions import tell
from heads import head_of, listed
from sources import ROOT

PAGE = ROOT / "docs" / "ARCHITECTURE.md"
IN_A_ROW = 4


def node_of(heading):
    """Returns the name of a section's node: the words of its heading, up to a colon or comma."""
    return "_".join(re.findall(r"\w+", re.split("[:,]", heading)[0].lower()))


def below(sections):
    """Returns for each section those on which its crates stand, as `crates.txt` lists them."""
    section_of = {crate: heading for heading, crates in sections.items() for crate in crates}
    return {
        heading: {section_of[library] for libraries in crates.values() for library in libraries if library in section_of} - {heading}
        for heading, crates in sections.items()
    }


def turned(direct):
    """Returns what is wrong with the order of the sections: each that stands on one after it."""
    order = list(direct)
    return [
        f"{heading} stands on {other}, which comes after it"
        for heading, others in direct.items()
        for other in sorted(others)
        if order.index(other) > order.index(heading)
    ]


def reached(heading, direct):
    """Returns the sections that a section reaches by one way or more."""
    return direct[heading].union(*(reached(other, direct) for other in direct[heading]))


def highest(heading, direct):
    """Returns those of a section's direct ones that it doesn't reach by another."""
    by_others = set().union(*(reached(other, direct) for other in direct[heading]))
    return [other for other in direct if other in direct[heading] - by_others]


def label(heading, crates):
    names = list(crates)
    rows = [", ".join(names[at : at + IN_A_ROW]) for at in range(0, len(names), IN_A_ROW)]
    return "<br/>".join([f"<b>{heading}</b>", *rows])


def picture(sections):
    """Returns the lines of the picture: a node for each section, the highest first, and its arrows."""
    direct = below(sections)
    nodes = [f'    {node_of(heading)}["{label(heading, crates)}"]' for heading, crates in reversed(sections.items())]
    arrows = [f"    {node_of(heading)} --> {node_of(other)}" for heading in reversed(sections) for other in reversed(highest(heading, direct))]
    return ["```mermaid", "flowchart TB", *nodes, *arrows, "```"]


def first_sentence(crate):
    return re.split(r"\. ", head_of(crate), maxsplit=1)[0].removesuffix(".")


def table(sections):
    """Returns the lines of the tables: a section's heading, and its crates with what they know."""
    lines = []
    for heading, crates in sections.items():
        rows = [f"| `{crate}` | {first_sentence(crate)} |" for crate in crates]
        lines += [f"### {heading}", "", "| crate | what it knows |", "|---|---|", *rows, ""]
    return lines[:-1]


def with_part(page, name, lines):
    """Returns the page with these lines between the two comments of a part's name."""
    start, end = f"<!-- {name}: ", f"<!-- end of {name} -->"
    first, _, rest = page.partition(start)
    comment = rest.partition("\n")[0]
    return "\n".join([f"{first}{start}{comment}", "", *lines, "", end]) + rest.partition(end)[2]


def main(words):
    sections = listed(Path(words[0]) if words else ROOT / "crates.txt")
    faults = turned(below(sections))
    if faults:
        tell(faults)
    if words:
        print("\n".join(picture(sections)))
    else:
        print(with_part(with_part(PAGE.read_text(), "picture", picture(sections)), "crates", table(sections)), end="")


if __name__ == "__main__":
    main(sys.argv[1:])
