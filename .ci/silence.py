#!/usr/bin/env python3
"""Lists the warnings in what a gate printed, `silence.py FILE`, and ends with 1 if there is one."""

import sys
from pathlib import Path

from exceptions import tell

MARK = "warning: "


def main(words):
    lines = Path(words[0]).read_text(errors="replace").splitlines()
    tell([f"the gate warns: {line.strip()}" for line in lines if MARK in line])


if __name__ == "__main__":
    main(sys.argv[1:])
