#!/usr/bin/env python3
"""Counts the lines of code that are trusted: of the real edge, and of `main`.

Left out are blank lines, comments, attributes, imports, clauses and ghost items, and the functions whose clauses pin what they answer.
"""
import glob
import re
import sys

FILES = [*sorted(glob.glob("crates/iss_real/src/*.rt")), "crates/iss_cli/src/main.rt"]
PINNED = {"time_at"}


def code_of(path):
    """The lines of code of a file, without those that are left out."""
    until = None
    depth = 0
    with open(path, encoding="utf-8") as source:
        for line in map(str.rstrip, source):
            text = line.strip()
            if until:
                depth += text.count("{") - text.count("}")
                until = None if until(line, depth) else until
            elif not text or text.startswith(("//", "#")):
                continue
            elif re.match(r"(pub )?(use|mod)\b", text):
                until = None if text.endswith(";") else lambda line, _: line.endswith(";")
            elif re.match(r"(ghost|requires|ensures)\b", text):
                depth = text.count("{") - text.count("}")
                until = (lambda _, depth: depth <= 0) if depth > 0 else None
            elif (name := re.search(r"\bfn (\w+)", text)) and name[1] in PINNED:
                until = lambda line, _, end=line[: len(line) - len(text)] + "}": line == end
            else:
                yield line


def main():
    total = 0
    for path in FILES:
        count = sum(1 for _ in code_of(path))
        total += count
        if "-v" in sys.argv[1:]:
            print(f"{count:5} {path}")
    print(total)


if __name__ == "__main__":
    main()
