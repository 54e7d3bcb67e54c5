#!/usr/bin/env python3
"""Lists the files of more than 400 lines, and ends with 1 if one is no exception or longer than its list says, or if an exception is none.

It reads sources, proofs, programs, scripts and documents. `files.py FOLDER LIST` reads one folder, with the exceptions of another list.
"""

import os
import re
import sys
from pathlib import Path

from exceptions import listed, tell
from sources import ROOT

MOST = 400
WRITTEN = re.compile(r"^<!-- (\w+): .*?^<!-- end of \1 -->\n", re.M | re.S)
LEFT_BY_BUILDS = {"out", "build", ".git"}
KINDS = (".rt", ".antt", ".py", ".sh", ".awk", ".md", ".c", ".js", ".html")


def files(top):
    """Returns the files below a folder, past what builds leave."""
    for folder, below, names in os.walk(top):
        below[:] = sorted(set(below) - LEFT_BY_BUILDS)
        yield from (Path(folder) / name for name in sorted(names) if name.endswith(KINDS))


def lines_of(path):
    """Returns how many lines a file has. Of a document, what a target writes between two comments doesn't count."""
    text = path.read_text(errors="replace")
    return len((WRITTEN.sub("", text) if path.suffix == ".md" else text).splitlines())


def fault_of(name, size, bound):
    """Returns what is wrong with a file of this length, which may be as long as its bound if it is an exception."""
    if bound is None:
        return f"{name} has {size} lines, and {MOST} are the most" if size > MOST else None
    if size <= MOST:
        return f"{name} is an exception, and isn't longer than {MOST} lines"
    return f"{name} has {size} lines, and its exception {bound}" if size > bound else None


def main(words):
    top = Path(words[0]) if words else ROOT
    bounds = {name: int(bound) for bound, name in (line.split() for line in listed("files", words[1:]))}
    sizes = {str(path.relative_to(top)): lines_of(path) for path in files(top)}
    sizes |= {name: 0 for name in bounds if name not in sizes}
    tell([fault for name, size in sizes.items() if (fault := fault_of(name, size, bounds.get(name)))])


if __name__ == "__main__":
    main(sys.argv[1:])
