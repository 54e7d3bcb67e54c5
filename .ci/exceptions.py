"""The exceptions of a bar: the lines of a list in .ci/exceptions, and how a bar tells what it found."""

import sys

from pathlib import Path

LISTS = Path(__file__).resolve().parent / "exceptions"


def listed(name, other):
    """Returns the lines of a bar's list, or of the other list that stands for it, without those that are comments."""
    path = Path(other[0]) if other else LISTS / f"{name}.txt"
    return [line for line in path.read_text().splitlines() if line and not line.startswith("#")]


def tell(faults):
    """Prints what was found, and ends with 1 if that is anything."""
    for fault in faults:
        print(fault)
    sys.exit(bool(faults))
