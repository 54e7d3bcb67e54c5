#!/usr/bin/env python3
"""States that are sound or not, by the second reading of the rules in `state_rules.py`.

`states.py judge` reads states and changes of them, as crates/iss_sound_cases has them, and prints for each whether it is sound; `why` prints
the rules that it breaks. `states.py make STATES SINGLES` prints states with changes: each of one field, and some that break one rule each.
"""
import json
import sys

from state_rules import DAY, DIGITS, GREATEST_AMOUNT, LAST_STAMP, MOST_RECORDS, NOTICES, amount_of, broken

VERDICTS = [
    *"pending done approved part:USD:1500 part:USD:1 part:EUR:1500 part:USD:4000 declined:other declined:move_card".split(),
    *"declined:move_user declined:control:v1 declined:control:none declined:limit:s1 declined:limit:none".split(),
]
MARKS = "none asked unknown funded part:1500 part:1 refused connection timeout application switch abandoned".split()
DECIDED = (("pending", "asked"), ("approved", "funded"), ("part:USD:1", "part:1"), ("part:USD:4000", "part:4000"))
NAMES = "u1 u2 g e default v1 v2 v3 a1 a2 a3 a6 none".split()
SPANS = "txn:a1 txn:a2 txn:a3 txn:a8 txn:none number:0 number:1 number:-1 number:19675".split()
OWNER_WORDS = "gateway network programme user:u1 user:u2 user:none".split()


def numbers_near(number, *others):
    return sorted(n for n in {number - 1, number + 1, 0, 1, *others} if n >= 0)


def near(number, *others):
    return sorted({number - 1, number + 1, -number, 0, *others})


def bodies_near(text):
    """Event lines with one member changed."""
    body = json.loads(text)
    values = {
        "card": ["c1", "c2", "c3", "c4", "none"],
        "user": ["u1", "u2", "none"],
        "txn": ["a1", "a2", "a3", "a8", "none"],
        "product": ["g", "e", "default", "none"],
        "currency": ["USD", "EUR"],
        "funding": ["ACCOUNT", "GATEWAY"],
        "window": ["DAY", "TRANSACTION", "LIFETIME"],
        "control": ["v1", "v2", "v9"],
        "set": ["s1", "s9"],
        "partial": [True, False],
        "token": ["a1", "a3", "k1", "new"],
        "at": [max(body["at"] - 1, 0), body["at"] + 1, 0, LAST_STAMP],
    }
    for member, others in values.items():
        if member not in body and (member, body["type"]) != ("partial", "authorization"):
            continue
        for other in others:
            if member == "window" and "usage_limit" in body:
                continue
            if body.get(member, False) != other:
                yield json.dumps({**body, member: other}, separators=(",", ":"))


def events_near(rest, records):
    number, verdict, mark, amount, text = rest.split(" ", 4)
    for other in numbers_near(int(number), records, records + 1):
        yield other, verdict, mark, amount, text
    for other in VERDICTS:
        yield number, other, mark, amount, text
    for other in MARKS:
        yield number, verdict, other, amount, text
    for decided, marked in DECIDED:
        yield number, decided, marked, amount, text
    if '"load"' in text or '"clearing"' in text:
        for other in (0, 1, GREATEST_AMOUNT, GREATEST_AMOUNT + 1, amount_of(json.loads(text)) + 1):
            yield number, verdict, mark, other, text
    for other in bodies_near(text):
        yield number, verdict, mark, amount, other


def fields_near(word, place, field, records):
    """What may stand in the place of a field."""
    most = records * GREATEST_AMOUNT
    number = int(field) if field.lstrip("-").isdigit() else None
    if word == "head":
        others = numbers_near(number, MOST_RECORDS, MOST_RECORDS + 1, 4 * records - 9, 4 * records - 10)
        return others + [LAST_STAMP, LAST_STAMP + 1] if place == 1 else others
    if word == "txn" and place > 1:
        return numbers_near(number, most, most + 1, (1 << 64) - 1)
    if word == "txn" and place == 1:
        return ["live", "ended"]
    if word == "balance" and place == 2:
        return near(number, most, -most, (1 << 63) - 1, -(1 << 63))
    if word == "counter" and place > 2:
        bound = most if place == 3 else records
        edges = [n - bound for n in (0, 1, 2, 3, 10_999, 11_000, 11_001)]
        return near(number, bound, bound + 1, -bound - 1, (1 << 63) - 1, -(1 << 63), *edges)
    if word == "counter" and place == 2:
        return SPANS
    if word == "sum" and place == 2:
        return near(number, LAST_STAMP // DAY, LAST_STAMP // DAY + 1)
    if word == "sum" and place == 3:
        return numbers_near(number, most, most + 1, most - 1_200, most - 1_199)
    if word == "notice" and place in (0, 5):
        return numbers_near(number, 2, 3, 4, 5, 6)
    if word == "notice" and place in (6, 7):
        return numbers_near(number, most, most + 1, (1 << 64) - 1)
    if word == "notice" and place == 1:
        return ["authorization", "incremental", *NOTICES]
    if field in DIGITS:
        return ["USD", "EUR", "KWD"]
    return OWNER_WORDS if word == "balance" else NAMES


def lines_near(line, records):
    """Lines with one field changed."""
    word, rest = line.split(" ", 1)
    if word == "event":
        for other in events_near(rest, records):
            yield " ".join(map(str, ["event", *other]))
        return
    fields = rest.split()
    for place, field in enumerate(fields):
        for other in fields_near(word, place, field, records):
            yield " ".join([word, *fields[:place], str(other), *fields[place + 1 :]])


def changes_of(lines):
    """Changes of one line each."""
    records = int(lines[0].split()[1])
    for place, line in enumerate(lines):
        for other in dict.fromkeys(lines_near(line, records)):
            if other != line:
                yield f"change {place} {other}"
        if place > 0:
            yield f"drop {place}"
            yield f"add {place} {line}"
            if line.split()[0] == lines[place - 1].split()[0]:
                yield f"add {place - 1} {line}"


def single(lines, rule, changes):
    """Changes of a state that break this rule alone."""
    out = []
    for change in changes:
        word = "add" if " + " in change else "change"
        start, line = (text.strip() for text in change.split(" + " if word == "add" else "=>", 1))
        place = next(place for place, base in enumerate(lines) if (base + " ").startswith(start + " "))
        out.append(f"{word} {place} {line}" if line else f"drop {place}")
    found = broken(changed(lines, out))
    if found != [rule]:
        sys.exit(f"{rule}: {out} breaks {found}")
    for change in out[:-1]:
        yield f"and {change}"
    yield out[-1]


def singles_of(lines, path):
    with open(path) as source:
        blocks = source.read().split("\n: ")[1:]
    for block in blocks:
        rule, *changes = block.splitlines()
        yield from single(lines, rule, changes)


def make(path, singles):
    """Prints states, with changes of their fields. The first of them has also changes that break one rule each."""
    with open(path) as source:
        states = source.read().split("end\n")[:-1]
    for place, state in enumerate(states):
        lines = state.splitlines()
        print("base", *lines, "end", sep="\n")
        if place == 0:
            print(*singles_of(lines, singles), sep="\n")
        print(*changes_of(lines), sep="\n")


def changed(lines, changes):
    """Lines with changes, each of a line by its place: another one in its place, one before it, or none."""
    out = []
    for place, line in enumerate(lines):
        its = [c.split(" ", 2) for c in changes if int(c.split(" ", 2)[1]) == place]
        for word, _, *rest in its:
            out += rest if word != "drop" else []
        if all(word == "add" for word, *_ in its):
            out.append(line)
    return out


def judge(source):
    base, reading, changes = [], False, []
    for line in source:
        line = line.rstrip("\n")
        if line == "base":
            base, reading = [], True
        elif reading and line == "end":
            reading = False
            yield broken(base)
        elif reading:
            base.append(line)
        elif line.startswith("and "):
            changes.append(line[4:])
        else:
            yield broken(changed(base, [*changes, line]))
            changes = []


def main():
    if sys.argv[1] == "make":
        make(sys.argv[2], sys.argv[3])
    for rules in judge(sys.stdin) if sys.argv[1] == "judge" else ():
        print("unsound" if rules else "sound")
    for rules in judge(sys.stdin) if sys.argv[1] == "why" else ():
        print(", ".join(rules) or "sound")


if __name__ == "__main__":
    main()
