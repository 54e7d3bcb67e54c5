"""Reads the state that an image spells."""
import re

import state_rules as states
from image_forms import (
    CARD_STATES, CURRENCIES, FLAGS, FUNDINGS, GREATEST_LIMIT, GREATEST_USAGE, KINDS, MARKS, NAMES, REASONS, USER_STATES, WINDOWS, is_empty,
)


class Bad(Exception):
    """The bytes are no image."""


def demand(holds):
    if not holds:
        raise Bad


class Reader:
    """Reads an image from its first byte to its last."""

    def __init__(self, image):
        self.image, self.place, self.names, self.seen = image, 0, [], 0

    def take(self, count):
        demand(self.place + count <= len(self.image))
        self.place += count
        return self.image[self.place - count : self.place]

    def number(self, width, least=0, greatest=None, signed=False):
        number = int.from_bytes(self.take(width), "big", signed=signed)
        demand(number >= least or signed)
        demand(greatest is None or number <= greatest)
        return number

    def word(self, words):
        number = self.number(1)
        demand(number in words)
        return words[number]

    def flag(self):
        return self.number(1, greatest=1) == 1

    def currency(self):
        number = self.number(2)
        demand(number in CURRENCIES)
        return CURRENCIES[number]

    def table(self):
        for _ in range(self.number(4)):
            text = self.take(self.number(1)).decode("latin-1")
            demand(re.fullmatch("[A-Za-z0-9_-]{1,36}", text))
            self.names.append(text)
        demand(len(set(self.names)) == len(self.names))

    def known(self):
        place = self.number(4)
        demand(place < len(self.names))
        return self.names[place]

    def name(self):
        place = self.number(4)
        demand(place < len(self.names) and place <= self.seen)
        self.seen += place == self.seen
        return self.names[place]

    def limits(self, body):
        if self.flag():
            body["amount_limit"] = self.number(8, greatest=GREATEST_LIMIT)
        if self.flag():
            body["usage_limit"] = self.number(4, greatest=GREATEST_USAGE)
        demand("amount_limit" in body or "usage_limit" in body)
        demand(body["window"] != "TRANSACTION" or "usage_limit" not in body)

    def who(self, body):
        number = self.number(1, least=1, greatest=2)
        body["card" if number == 1 else "user"] = self.name()
        body["to"] = self.word(CARD_STATES if number == 1 else USER_STATES)

    def choice(self, body, field, *words):
        number = self.number(1, greatest=len(words))
        if number:
            word = words[number - 1]
            body[field] = (word, self.number(2, greatest=9999) if word == "mcc" else self.name())

    def field(self, field, body):
        if field in NAMES:
            body[field] = self.name()
        elif field in FLAGS:
            body[field] = self.flag()
        elif field == "currency":
            body[field] = self.currency()
        elif field == "amount":
            body["minor"] = self.number(8, 1, states.GREATEST_AMOUNT)
        elif field in ("max", "day_limit"):
            body[field] = self.number(8, greatest=GREATEST_LIMIT)
        elif field == "timeout_ms":
            body[field] = self.number(4, 1, 60_000)
        elif field == "hold_ms":
            body[field] = self.number(4, states.DAY, 31 * states.DAY)
        elif field in ("funding", "window"):
            body[field] = self.word(dict(enumerate(FUNDINGS if field == "funding" else WINDOWS, 1)))
        elif field == "mcc":
            body[field] = self.number(2, greatest=9999)
        elif field == "mccs":
            body[field] = [self.number(2, greatest=9999) for _ in range(self.number(2, 1, 1000))]
            demand(states.rises(body[field]))
        elif field == "utc_offset":
            body[field] = self.number(2, signed=True)
            demand(body[field] != 0 and -720 <= body[field] <= 840)
        elif field == "limits":
            self.limits(body)
        elif field == "who":
            self.who(body)
        elif field == "association":
            self.choice(body, field, "user", "product")
        else:
            self.choice(body, field, "mcc", "group", "mid")

    def record(self):
        kind = self.number(1)
        demand(kind in KINDS)
        body = {"type": KINDS[kind].split()[0], "at": self.number(8, greatest=states.LAST_STAMP), "partial": kind == 20}
        for field in KINDS[kind].split()[1:]:
            self.field(field, body)
        return body

    def verdict(self, body):
        number = self.number(1, greatest=4)
        if number == 4:
            demand("currency" in body)
            return f"part:{body['currency']}:{self.number(8)}", ()
        if number < 3:
            return ("pending", "done", "approved")[number], ()
        reason = REASONS[self.number(1, 1, len(REASONS)) - 1]
        if reason in ("CONTROL", "STAND_IN_LIMIT"):
            name = self.known()
            return f"declined:{'control' if reason == 'CONTROL' else 'limit'}:{name}", (reason, name)
        if reason == "MOVE":
            demand(body["type"] == "move")
            words = CARD_STATES if "card" in body else USER_STATES
            return f"declined:move_{'card' if 'card' in body else 'user'}", (reason, self.word(words), self.word(words))
        return "declined:other", (reason,)

    def mark(self):
        word = MARKS[self.number(1, greatest=8)]
        return f"part:{self.number(8)}" if word == "part" else word

    def event(self):
        number, body = self.number(4), self.record()
        verdict, reason = self.verdict(body)
        return {"number": number, "body": body, "verdict": verdict, "reason": reason, "mark": self.mark()}

    def txn(self):
        txn = {"token": self.known(), "live": self.flag()}
        return {**txn, **{k: self.number(8) for k in ("g", "p", "s", "cleared", "refunded", "paid")}}

    def balance(self):
        kind = self.word({number: kind for kind, number in states.OWNERS.items()})
        user = self.known() if kind == "user" else ""
        return {"kind": kind, "user": user, "currency": self.currency(), "amount": self.number(8, signed=True)}

    def counter(self, control, window):
        user, number = self.known(), self.number(8, signed=True)
        if window == "TRANSACTION":
            demand(0 <= number < len(self.names))
        span = ("txn", self.names[number]) if window == "TRANSACTION" else ("number", str(number))
        amount, count = self.number(8, signed=True), self.number(8, signed=True)
        return {"control": control, "user": user, "span": span, "amount": amount, "count": count}

    def run(self, windows):
        control = self.known()
        demand(control in windows)
        run = self.list(lambda: self.counter(control, windows[control]))
        demand(run)
        return run

    def counters(self, windows):
        runs = self.list(lambda: self.run(windows))
        demand(all(a[0]["control"] != b[0]["control"] for a, b in zip(runs, runs[1:])))
        return sum(runs, [])

    def sum(self):
        return {"product": self.known(), "user": self.known(), "day": self.number(8, signed=True), "amount": self.number(8)}

    def notice(self, holders):
        number, method, txn = self.number(4), self.word(dict(enumerate(states.NOTICES, 1))), self.known()
        demand(txn in holders)
        user, currency = holders[txn]
        call, amount, gateway = self.number(4), self.number(8), self.number(8)
        return {"number": number, "method": method, "txn": txn, "user": user, "currency": currency, "call": call,
                "amount": amount, "gateway": gateway}

    def list(self, take):
        count = self.number(4)
        demand(count <= len(self.image))
        return [take() for _ in range(count)]


def state_in(image):
    """The state that an image spells, or `Bad`."""
    if not image:
        return {"records": 0, "now": 0, "made": 0, "events": [], "txns": [], "balances": [], "counters": [], "sums": [], "notices": []}
    reader = Reader(image)
    state = {"records": reader.number(4), "now": reader.number(8)}
    reader.table()
    state["events"] = reader.list(reader.event)
    demand(reader.seen == len(reader.names))
    state["txns"] = reader.list(reader.txn)
    state["balances"] = reader.list(reader.balance)
    done = [e["body"] for e in state["events"] if e["verdict"] == "done"]
    windows, cards = {}, {}
    for body in done:
        if body["type"] == "control":
            windows.setdefault(body["control"], body["window"])
        if body["type"] == "card":
            cards.setdefault(body["card"], body["user"])
    state["counters"] = reader.counters(windows)
    state["sums"] = reader.list(reader.sum)
    state["made"] = reader.number(4)
    holders = {}
    for body in (e["body"] for e in state["events"]):
        if body["type"] == "authorization" and body["card"] in cards:
            holders.setdefault(body["token"], (cards[body["card"]], body["currency"]))
    state["notices"] = reader.list(lambda: reader.notice(holders))
    demand(reader.place == len(image) and not is_empty(state))
    return state
