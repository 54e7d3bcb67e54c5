#!/usr/bin/env python3
"""Lists the functions of more than 40 lines, and ends with 1 if one is no exception, or if an exception is none.

A function's lines are those of its body. `functions.py` reads the sources of all crates, and the programs and scripts beside them.
`functions.py FOLDER LIST` reads one folder, with the exceptions of another list.
"""

import ast
import re
import sys
from pathlib import Path

from exceptions import listed, tell
from sources import CRATES, FUNCTION, ROOT

MOST = 40
SHELL = re.compile(r"^(\w+)\(\) [{(]$")


def width_of_indent(line):
    return len(line) - len(line.lstrip())


def next_as_far_left(lines, at):
    """Returns the number of the first line after this one that isn't empty and stands no further to the right."""
    width = width_of_indent(lines[at])
    following = range(at + 1, len(lines))
    return next((place for place in following if lines[place] and width_of_indent(lines[place]) <= width), len(lines) - 1)


def signature_end(lines, at):
    """Returns the number of the line with which the signature that begins here ends."""
    depth = 0
    while True:
        depth += lines[at].count("(") - lines[at].count(")")
        if not depth:
            return at
        at += 1


def rattle_functions(lines):
    """Yields each function with a body, and how many lines stand between the braces of the body."""
    for at, line in enumerate(lines):
        found = FUNCTION.match(line)
        last = signature_end(lines, at) if found else at
        if not found or lines[last].rstrip().endswith((";", "}")):
            continue
        opens = last if lines[last].endswith("{") else next_as_far_left(lines, last)
        if lines[opens].endswith("{"):
            yield found[2], next_as_far_left(lines, opens) - opens - 1


def python_functions(text):
    for node in ast.walk(ast.parse(text)):
        if isinstance(node, (ast.FunctionDef, ast.AsyncFunctionDef)):
            yield node.name, node.end_lineno - node.body[0].lineno + 1


def shell_functions(lines):
    for at, line in enumerate(lines):
        found = SHELL.match(line)
        if found:
            yield found[1], next_as_far_left(lines, at) - at - 1


def functions_of(path):
    """Returns the functions of a file, each with the number of its lines."""
    text = path.read_text()
    if path.suffix == ".py":
        return python_functions(text)
    return rattle_functions(text.splitlines()) if path.suffix == ".rt" else shell_functions(text.splitlines())


def files():
    """Returns the files that are read: sources of crates, and the programs and scripts beside them."""
    beside = [path for top in (".ci", "api", "bench", "examples") for suffix in ("py", "sh") for path in (ROOT / top).rglob(f"*.{suffix}")]
    return sorted(CRATES.glob("*/src/**/*.rt")) + sorted(beside)


def main(words):
    top, paths = (Path(words[0]), sorted(Path(words[0]).rglob("*.*"))) if words else (ROOT, files())
    exceptions = listed("functions", words[1:])
    found = {f"{path.relative_to(top)} {name}": size for path in paths for name, size in functions_of(path) if size > MOST}
    faults = [f"{place} has {size} lines, and {MOST} are the most" for place, size in found.items() if place not in exceptions]
    tell(faults + [f"{place} is an exception, and isn't longer than {MOST} lines" for place in exceptions if place not in found])


if __name__ == "__main__":
    main(sys.argv[1:])
