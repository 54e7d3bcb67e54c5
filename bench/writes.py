"""The writes and syncs of two runs of `replay`, by strace, beside those that their records come to.

usage: writes.py PROGRAM LINES SIZE ROOM

PROGRAM takes LINES once on a device with room for all of them, and once on one of SIZE bytes, which turns. From the first device come the
bytes that each record needs. From them, and from the length before each image that the second run wrote, follows which records turn.
"""
import re
import subprocess
import sys
from pathlib import Path

sys.path.insert(0, str(Path(__file__).resolve().parent.parent / "examples" / "tools"))
from device_lines import bodies_of

# What stands beside a record's spelling and beside an image; where halves begin, and the byte before them that names one.
RECORD_HEAD, BESIDE_IMAGE, HALVES_START, SELECTOR, GATE = 5, 5, 17, 16, 1
CALL = re.compile(r'\d+ +(pwrite64|fsync|fdatasync)\(\d+(?:, "([^"]*)"(?:\.\.\.)?, (\d+), (\d+))?\) += (\d+)')


def replay(program, lines, device, size):
    """Replays the lines on a new device, and returns each write as its place, its length and its first four bytes, and how often it synced."""
    subprocess.run([program, "format", device, str(size), "0"], check=True)
    log = device.with_suffix(".log")
    traced = ["strace", "-f", "-xx", "-s", "4", "-e", "trace=pwrite64,fsync,fdatasync", "-o", log]
    with lines.open() as taken:
        subprocess.run([*traced, program, "replay", device], stdin=taken, stdout=subprocess.DEVNULL, check=True)
    calls = [found for found in map(CALL.match, log.read_text().splitlines()) if found]
    writes = [call for call in calls if call[1] == "pwrite64"]
    if any(call[3] != call[5] for call in writes):
        sys.exit("a write was cut short")
    first = [bytes.fromhex(call[2].replace("\\x", "")) for call in writes]
    return [(int(call[4]), int(call[3]), start) for call, start in zip(writes, first)], len(calls) - len(writes)


def needs_on(device):
    """Returns what each record on a device that never turned needs."""
    return [end - start + RECORD_HEAD for start, end in bodies_of(device.read_bytes())]


def images_in(writes, size):
    """Returns the length of each image that was written at the start of a half, as the four bytes before it tell it."""
    starts = (HALVES_START, HALVES_START + (size - HALVES_START) // 2)
    return [int.from_bytes(first, "big") for place, length, first in writes if place in starts and length > GATE]


def turned(needs, images, size):
    """Returns the images of the records that need a turn: each that needs more than the current half has free."""
    half, left, made = (size - HALVES_START) // 2, list(images), []
    free = half - BESIDE_IMAGE
    for need in needs:
        if need > free:
            if not left:
                sys.exit("a record needs a turn, and no image was written")
            made.append(left.pop(0))
            free = half - BESIDE_IMAGE - made[-1]
        free -= need
    return made


def row(name, *cells):
    print(f"{name:<20}" + "".join(f"{cell:>10}" for cell in cells))


def main(program, lines, size, room):
    roomy, small = Path(room, "roomy"), Path(room, "small")
    large = HALVES_START + 2 * (BESIDE_IMAGE + 2 * lines.stat().st_size)
    runs = [("without a turn", roomy, large), ("with turns", small, size)]
    row("", "records", "turns", "writes", "syncs", "bytes")
    same, needs = True, None
    for name, device, bytes_of_device in runs:
        writes, syncs = replay(program, lines, device, bytes_of_device)
        needs = needs or needs_on(roomy)
        images = turned(needs, images_in(writes, bytes_of_device), bytes_of_device)
        count = 2 * len(needs) + 2 * len(images)
        told = count, count, sum(need + GATE for need in needs) + sum(BESIDE_IMAGE + image + 1 for image in images)
        # The opening has a sync of its own.
        made = len(writes), syncs - 1, sum(length for _, length, _ in writes)
        row(name, len(needs), len(images), *made)
        row("  by its records", len(needs), len(images), *told)
        same &= made == told
    return same


if __name__ == "__main__":
    program, lines, size, room = sys.argv[1:]
    sys.exit(not main(program, Path(lines), int(size), room))
