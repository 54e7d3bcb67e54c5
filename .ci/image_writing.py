"""Writes the image of a state."""
import state_rules as states
from image_forms import CARD_STATES, DEFAULTS, FLAGS, FUNDINGS, KINDS, MARKS, NAMES, REASONS, USER_STATES, WINDOWS, is_empty


def number_of(value, width):
    return (value % (1 << 8 * width)).to_bytes(width, "big")


def limit_of(text, currency):
    return states.amount_of({"amount": text, "currency": currency})


class Writer:
    """Writes a record with its tokens as places in a table that grows."""

    def __init__(self):
        self.places = {}

    def name(self, token):
        return number_of(self.places.setdefault(token, len(self.places)), 4)

    def known(self, token):
        return number_of(self.places[token], 4)

    def limits(self, body):
        amount, usage = body.get("amount_limit"), body.get("usage_limit")
        first = b"\0" if amount is None else b"\1" + number_of(limit_of(amount, body["currency"]), 8)
        return first + (b"\0" if usage is None else b"\1" + number_of(usage, 4))

    def choice(self, body, *words):
        for number, word in enumerate(words, 1):
            if word in body:
                return bytes([number]) + (number_of(int(body[word]), 2) if word == "mcc" else self.name(body[word]))
        return b"\0"

    def who(self, body):
        known, kind = (CARD_STATES, "card") if "card" in body else (USER_STATES, "user")
        to = next(number for number, word in known.items() if word == body["to"])
        return bytes([1 if kind == "card" else 2]) + self.name(body[kind]) + bytes([to])

    def field(self, field, body):
        value = body.get(field, DEFAULTS.get(field))
        if field in FLAGS:
            return bytes([bool(value)])
        if field in NAMES:
            return self.name(value)
        if field == "currency":
            return number_of(states.NUMBERS[value], 2)
        if field == "amount":
            return number_of(body["minor"], 8)
        if field in ("max", "day_limit"):
            return number_of(limit_of(value, body["currency"]), 8)
        if field in ("timeout_ms", "hold_ms"):
            return number_of(value, 4)
        if field in ("funding", "window"):
            return bytes([(FUNDINGS if field == "funding" else WINDOWS).index(value) + 1])
        if field == "mcc":
            return number_of(int(value), 2)
        if field == "mccs":
            return number_of(len(value), 2) + b"".join(number_of(int(mcc), 2) for mcc in value)
        if field == "utc_offset":
            sign, hours, minutes = value[0], int(value[1:3]), int(value[4:])
            return number_of((-1 if sign == "-" else 1) * (60 * hours + minutes), 2)
        parts = {"limits": self.limits, "who": self.who}
        if field in parts:
            return parts[field](body)
        return self.choice(body, "user", "product") if field == "association" else self.choice(body, "mcc", "group", "mid")

    def record(self, body):
        kind = next(number for number, words in KINDS.items() if words.split()[0] == body["type"])
        if body.get("utc_offset", "+00:00") != "+00:00":
            kind = 18
        if body.get("partial"):
            kind = 20
        fields = KINDS[kind].split()[1:]
        return bytes([kind]) + number_of(body["at"], 8) + b"".join(self.field(field, body) for field in fields)

    def verdict(self, event):
        word, _, rest = event["verdict"].partition(":")
        if word == "part":
            return b"\4" + number_of(int(rest.split(":")[1]), 8)
        if word != "declined":
            return bytes([("pending", "done", "approved").index(word)])
        reason, *more = event["reason"]
        tail = b"".join(bytes([x]) if isinstance(x, int) else self.known(x) for x in more)
        return bytes([3, REASONS.index(reason) + 1]) + tail


def mark_bytes(mark):
    word, _, amount = mark.partition(":")
    return bytes([MARKS.index(word)]) + (number_of(int(amount), 8) if word == "part" else b"")


def listed(parts):
    parts = list(parts)
    return number_of(len(parts), 4) + b"".join(parts)


def account_bytes(writer, balance):
    owner = bytes([states.OWNERS[balance["kind"]]])
    return owner + (writer.known(balance["user"]) if balance["user"] else b"")


def counter_bytes(writer, counter):
    kind, text = counter["span"]
    span = number_of(writer.places[text] if kind == "txn" else int(text), 8)
    return writer.known(counter["user"]) + span + number_of(counter["amount"], 8) + number_of(counter["count"], 8)


def counters_bytes(writer, counters):
    runs = []
    for counter in counters:
        if not runs or runs[-1][0]["control"] != counter["control"]:
            runs.append([])
        runs[-1].append(counter)
    return listed(writer.known(run[0]["control"]) + listed(counter_bytes(writer, k) for k in run) for run in runs)


def notice_bytes(writer, notice):
    first = number_of(notice["number"], 4) + bytes([states.NOTICES.index(notice["method"]) + 1]) + writer.known(notice["txn"])
    return first + number_of(notice["call"], 4) + number_of(notice["amount"], 8) + number_of(notice["gateway"], 8)


def image_of(state):
    """The one image of a state whose names are those of its events."""
    if is_empty(state):
        return b""
    writer = Writer()
    records = [number_of(e["number"], 4) + writer.record(e["body"]) for e in state["events"]]
    events = [record + writer.verdict(e) + mark_bytes(e["mark"]) for record, e in zip(records, state["events"])]
    sums = ("g", "p", "s", "cleared", "refunded", "paid")
    parts = [
        number_of(state["records"], 4) + number_of(state["now"], 8),
        listed(bytes([len(name)]) + name.encode() for name in writer.places),
        listed(events),
        listed(writer.known(t["token"]) + bytes([t["live"]]) + b"".join(number_of(t[k], 8) for k in sums) for t in state["txns"]),
        listed(
            account_bytes(writer, b) + number_of(states.NUMBERS[b["currency"]], 2) + number_of(b["amount"], 8) for b in state["balances"]
        ),
        counters_bytes(writer, state["counters"]),
        listed(
            writer.known(x["product"]) + writer.known(x["user"]) + number_of(x["day"], 8) + number_of(x["amount"], 8)
            for x in state["sums"]
        ),
        number_of(state["made"], 4),
        listed(notice_bytes(writer, n) for n in state["notices"]),
    ]
    return b"".join(parts)
