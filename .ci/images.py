#!/usr/bin/env python3
"""The image of a core's state: a second reading of its bytes, apart from the program's code.

`images.py make STATES` prints images with damages, as crates/iss_snapshot_cases has them; `images.py judge` reads these, and prints of each
image whether it is that of a sound state. What a state is, and when it is sound, is in `state_rules.py`.
"""
import random
import re
import sys

import state_rules as states
from image_reading import Bad, state_in
from image_settings import are_judged
from image_writing import image_of

# The image of one user's record, with damages of which each breaks one rule: cut short, approved, no record, a place past the table, a
# partial approval or a mark of one without its amount, and a byte more.
WORKED = "0000000100000000000000000000000202743102753100000001000000010100000000000000000000000000000001" + "0100" + "00" * 24
WORKED_DAMAGES = ("cut 72", "put 47 02", "put 0 00000000", "put 43 00000002", "put 47 04", "put 48 08", "add 73 00")
# The same with a token that no record names.
UNUSED = WORKED[:24] + "00000003" + WORKED[32:44] + "027631" + WORKED[44:]
# A purchase of a gateway product that was funded and cleared in part, whose notice waits.
CLEARED = (
    "000000060000000000000000000000090270310167027431027531027432026331026131026d31026b31000000050000000104000000000000000000"
    "0000000000000103480200000bb8240c8400010000000002010000000000000000000000020000000301000000000302000000000000000000000004"
    "000000050000000300000001010100000000040a00000000000000000000000600000005034800000000000013881523000000070202000000060d00"
    "000000000000000000000800000006034800000000000000640101000000000100000006000000000000000000000000000000000000000000000000"
    "0000000000000000640000000000000000000000000000000000000003010348ffffffffffffff9c0203480000000000000064040000000303480000"
    "000000000000000000000000000000000001000000010000000104000000060000000000000000000000640000000000001324"
)

# The verdict of a part, and the mark of its call.
PART = re.compile(rb"\x04(.{8})\x08\1", re.DOTALL)


def is_image(image):
    """Whether the bytes are the image of a sound state."""
    try:
        state = state_in(image)
    except Bad:
        return False
    return not states.rules_broken(state) and are_judged(state)


def state_written(lines):
    """A state of `states.py`, with the reasons that images have."""
    state = states.state_of(lines)
    moved = {"declined:move_card": ("MOVE", 2, 2), "declined:move_user": ("MOVE", 2, 2)}
    for e in state["events"]:
        word, _, name = e["verdict"].removeprefix("declined:").partition(":")
        named = {"control": ("CONTROL", name), "limit": ("STAND_IN_LIMIT", name)}
        e["reason"] = moved.get(e["verdict"]) or named.get(word, ("CARD_UNKNOWN",))
    return state


def damages_of(image, count, chance):
    """Damages of an image: other bytes in it, fewer or more of them, and pieces of it that change their places."""
    for _ in range(count):
        place = chance.randrange(len(image))
        byte = image[place]
        kind = chance.random()
        if kind < 0.75:
            other = chance.choice([byte ^ 1, (byte + 1) % 256, (byte - 1) % 256, 0, 255, byte ^ 128, chance.randrange(256)])
            yield f"put {place} {other:02x}"
        elif kind < 0.8:
            yield f"cut {place}"
        elif kind < 0.85:
            yield f"drop {place} {chance.choice([1, 1, 2, 4, 8])}"
        elif kind < 0.9:
            yield f"add {place} {chance.choice(['00', '01', '00000000', 'ff', f'{byte:02x}'])}"
        else:
            length = chance.choice([1, 2, 4, 4, 8])
            start = chance.randrange(max(1, len(image) - length))
            yield f"put {place} {image[start:start + length].hex()}"


def without_amounts(place):
    """Damages of a part's verdict at a place, and of the mark after it: the one has no amount, and then the other."""
    return f"drop {place + 1} 8", f"drop {place + 10} 8"


def damaged(image, damage):
    word, place, *rest = damage.split()
    place = int(place)
    if word == "put":
        new = bytes.fromhex(rest[0])
        return image[:place] + new + image[place + len(new) :]
    if word == "cut":
        return image[:place]
    if word == "drop":
        return image[:place] + image[place + int(rest[0]) :]
    return image[:place] + bytes.fromhex(rest[0]) + image[place:]


def judge(source):
    image = b""
    for line in source:
        word, _, rest = line.rstrip("\n").partition(" ")
        if word == "image":
            image = bytes.fromhex(rest)
            yield is_image(image)
        else:
            yield is_image(damaged(image, line))


def make(path):
    chance = random.Random(20)
    with open(path) as source:
        bases = [state_written(block.splitlines()) for block in source.read().split("end\n")[:-1]]
    images = [image_of(state) for state in bases]
    whole = sum(map(len, images))
    for image in images:
        print("image", image.hex())
        print(f"add {len(image)} 00")
        for place in range(len(image)):
            if len(image) < 200:
                print(f"put {place} {image[place] ^ 1:02x}")
        print(*damages_of(image, 5000 * len(image) // whole, chance), sep="\n")
    print("image ")
    print("image", bytes(44).hex())
    print("image " + WORKED, *WORKED_DAMAGES, "image " + UNUSED, "image " + CLEARED, sep="\n")
    for state in bases:
        if len(state["counters"]) > 1:
            print("image", image_of({**state, "counters": state["counters"][::-1]}).hex())
    for image in images:
        if part := PART.search(image):
            print("image " + image.hex(), *without_amounts(part.start()), sep="\n")


def main():
    if sys.argv[1] == "make":
        make(sys.argv[2])
    for said in judge(sys.stdin) if sys.argv[1] == "judge" else ():
        print("loads" if said else "none")


if __name__ == "__main__":
    main()
