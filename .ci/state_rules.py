"""When the state of a core is sound: a second reading of the rules, apart from the program's code."""
import json

LAST_STAMP = 253_370_764_799_999
MOST_RECORDS = (1 << 30) - 1
LEAST_AMOUNT = 1
GREATEST_AMOUNT = 1_000_000_000
DAY = 86_400_000
DIGITS = {"USD": 2, "EUR": 2, "GBP": 2, "CAD": 2, "AUD": 2, "JPY": 0, "KWD": 3}
NUMBERS = {"USD": 840, "EUR": 978, "GBP": 826, "CAD": 124, "AUD": 36, "JPY": 392, "KWD": 414}
CARD_EVENTS = ("authorization", "increment", "reversal", "clearing", "refund")
NOTICES = ("void", "standin", "reversal", "capture", "refund", "expiry")
OWNERS = {"gateway": 1, "network": 2, "programme": 3, "user": 4}


def noting(found):
    """A function that notes among those found each rule that a state breaks."""

    def must(rule, holds):
        if not holds and rule not in found:
            found.append(rule)
        return holds

    return must


def amount_of(event):
    """The amount of an event in minor units: a text with the currency's digits, or a number of minor units."""
    amount = event["amount"]
    if isinstance(amount, str):
        whole, _, part = amount.partition(".")
        digits = DIGITS[event["currency"]]
        return int(whole) * 10**digits + int((part + "0" * digits)[:digits] or 0)
    return amount


def event_of(rest):
    number, verdict, mark, amount, text = rest.split(" ", 4)
    body = json.loads(text)
    if "amount" in body:
        body["minor"] = int(amount) if amount != "-" else amount_of(body)
    return {"number": int(number), "verdict": verdict, "mark": mark, "body": body}


def txn_of(rest):
    token, live, *sums = rest.split()
    names = ("g", "p", "s", "cleared", "refunded", "paid")
    return {"token": token, "live": live == "live", **dict(zip(names, map(int, sums)))}


def balance_of(rest):
    owner, currency, amount = rest.split()
    kind, _, user = owner.partition(":")
    return {"kind": kind, "user": user, "currency": currency, "amount": int(amount)}


def counter_of(rest):
    control, user, span, amount, count = rest.split()
    return {"control": control, "user": user, "span": span.split(":"), "amount": int(amount), "count": int(count)}


def sum_of(rest):
    product, user, day, amount = rest.split()
    return {"product": product, "user": user, "day": int(day), "amount": int(amount)}


def notice_of(rest):
    number, method, txn, user, currency, call, amount, gateway = rest.split()
    names = {"number": int(number), "method": method, "txn": txn, "user": user, "currency": currency}
    return {**names, "call": int(call), "amount": int(amount), "gateway": int(gateway)}


# The list of a state that a line is of, by its first word, and how the line is read.
PARTS = {
    "event": ("events", event_of),
    "txn": ("txns", txn_of),
    "balance": ("balances", balance_of),
    "counter": ("counters", counter_of),
    "sum": ("sums", sum_of),
    "notice": ("notices", notice_of),
}


def state_of(lines):
    state = {name: [] for name, _ in PARTS.values()}
    for line in lines:
        word, rest = line.split(" ", 1)
        if word == "head":
            state["records"], state["now"], state["made"] = map(int, rest.split())
        else:
            name, read = PARTS[word]
            state[name].append(read(rest))
    return state


def rises(keys):
    return all(a < b for a, b in zip(keys, keys[1:]))


def check_order(s, must):
    must("records", s["records"] <= MOST_RECORDS)
    must("now", s["now"] <= LAST_STAMP)
    numbers = [0] + [e["number"] for e in s["events"]]
    must("numbers", rises(numbers) and numbers[-1] <= s["records"])
    stamps = [0] + [e["body"]["at"] for e in s["events"]] + [s["now"]]
    must("stamps", all(a <= b for a, b in zip(stamps, stamps[1:])))
    tokens = [e["body"]["token"] for e in s["events"]]
    must("tokens", len(set(tokens)) == len(tokens))
    for e in s["events"]:
        if "minor" in e["body"]:
            must("form", LEAST_AMOUNT <= e["body"]["minor"] <= GREATEST_AMOUNT)


def note_setting(known, body):
    """Notes what a setting that was done makes known; the first of a name stands."""
    kind = body["type"]
    if kind == "user":
        known["users"].add(body["user"])
    elif kind == "card":
        known["cards"].setdefault(body["card"], body)
    elif kind == "product":
        known["products"].setdefault(body["product"], body)
    elif kind == "control":
        known["controls"].setdefault(body["control"], body["window"])
    elif kind == "set":
        known["sets"].add(body["set"])


def note_txn(known, listed, e):
    """Notes the transaction that an authorisation begins, if it is listed, and returns the one that an ask is of, if any."""
    body = e["body"]
    if body["type"] == "increment":
        return known["txns"].get(body["txn"])
    if body["type"] != "authorization":
        return None
    card = known["cards"].get(body["card"])
    product = known["products"].get(card["product"]) if card else None
    if product and body["token"] in listed:
        known["txns"][body["token"]] = {"user": card["user"], "currency": body["currency"], "product": product, "origin": e["number"]}
    return known["txns"].get(body["token"])


def known_of(s, must):
    """What the events make known: first things of a name stand. Transactions begin with their authorisations."""
    default = {"currency": "USD", "funding": "ACCOUNT"}
    known = {"users": set(), "cards": {}, "products": {"default": default}, "controls": {}, "sets": set(), "txns": {}, "calls": []}
    listed = {t["token"] for t in s["txns"]}
    for e in s["events"]:
        body, kind = e["body"], e["body"]["type"]
        if e["verdict"] == "done":
            note_setting(known, body)
        of = note_txn(known, listed, e)
        if e["mark"] != "none" and must("a mark on no ask", of is not None):
            txn = body["token"] if kind == "authorization" else body["txn"]
            call = {"txn": txn, "first": kind == "authorization", "asked": e["mark"] == "asked", "amount": body["minor"]}
            known["calls"].append(call)
    return known


def check_verdicts(s, known, must):
    for e in s["events"]:
        body, kind, verdict, mark = e["body"], e["body"]["type"], e["verdict"], e["mark"]
        ask = kind in ("authorization", "increment")
        if verdict == "approved" or verdict.startswith("part:"):
            must("approved", ask)
        if verdict == "done":
            must("done", not ask)
        must("pending", (verdict == "pending") == (mark == "asked"))
        must("marks", mark not in ("unknown", "switch"))
        txn = known["txns"].get(body["token"] if kind == "authorization" else body.get("txn"))
        takes_effect = verdict in ("done", "approved") or verdict.startswith("part:")
        if kind in CARD_EVENTS and takes_effect:
            must("its transaction", txn is not None and txn["currency"] == body["currency"])
        if mark != "none":
            must("marked", not ask or txn is None or txn["currency"] == body["currency"])
            must("gateway", txn is None or txn["product"]["funding"] == "GATEWAY")
        if verdict.startswith("part:") or mark.startswith("part:"):
            if not must("part", verdict.startswith("part:") and mark.startswith("part:")):
                continue
            _, currency, amount = verdict.split(":")
            must("same part", int(amount) == int(mark.split(":")[1]))
            must("least part", int(amount) >= LEAST_AMOUNT)
            if not must("permitted", kind == "authorization" and body.get("partial") is True and currency == body["currency"]):
                continue
            must("less", int(amount) < body["minor"])
        if verdict.startswith("declined:move"):
            must("move", kind == "move")
        if verdict.startswith("declined:control:"):
            must("control", verdict.split(":")[2] in known["controls"])
        if verdict.startswith("declined:limit:"):
            must("set", verdict.split(":")[2] in known["sets"])


def check_txns(s, known, must):
    must("begun", [t["token"] for t in s["txns"]] == list(known["txns"]))
    asked = [c for c in known["calls"] if c["asked"]]
    first_asked = {c["txn"] for c in asked if c["first"]}
    for t in s["txns"]:
        if t["token"] not in known["txns"]:
            continue
        of = known["txns"][t["token"]]
        must("its product's currency", of["currency"] == of["product"]["currency"])
        if not t["live"]:
            must("ended", t["g"] == t["p"] == t["s"] == 0 and all(c["txn"] != t["token"] for c in asked))
    for e in s["events"]:
        body = e["body"]
        if body["type"] == "increment":
            if e["mark"] != "none" or e["verdict"] == "approved" or e["verdict"].startswith("part:"):
                of = known["txns"].get(body["txn"])
                must("in turn", of is not None and of["origin"] < e["number"] and body["txn"] not in first_asked)


def check_sums(s, known, must):
    for t in s["txns"]:
        if t["token"] not in known["txns"]:
            continue
        of, token = known["txns"][t["token"]], t["token"]
        approved = cleared = refunded = 0
        for e in s["events"]:
            body, kind = e["body"], e["body"]["type"]
            its = body["token"] if kind == "authorization" else body.get("txn")
            if its != token:
                continue
            if kind in ("authorization", "increment"):
                if e["verdict"] == "approved":
                    approved += body["minor"]
                elif e["verdict"].startswith("part:"):
                    approved += int(e["verdict"].split(":")[2])
            elif e["verdict"] == "done":
                cleared += body["minor"] if kind == "clearing" else 0
                refunded += body["minor"] if kind == "refund" else 0
        must("cleared", t["cleared"] == cleared and t["refunded"] == refunded)
        must("refunded at most cleared", t["refunded"] <= t["cleared"])
        must("held", t["g"] + t["p"] + t["s"] <= approved)
        must("paid", t["p"] <= t["paid"] <= approved + t["cleared"])
        if of["product"]["funding"] == "ACCOUNT":
            must("own", t["g"] == t["p"] == t["paid"] == 0)
        else:
            must("gateway's", t["s"] == 0)


def check_balances(s, known, must):
    owed = {}

    def give(kind, user, currency, amount):
        owed[(kind, user, currency)] = owed.get((kind, user, currency), 0) + amount

    for e in s["events"]:
        if e["body"]["type"] == "load" and e["verdict"] == "done":
            give("user", e["body"]["user"], e["body"]["currency"], e["body"]["minor"])
            give("programme", "", e["body"]["currency"], -e["body"]["minor"])
    for t in s["txns"]:
        if t["token"] not in known["txns"]:
            continue
        of = known["txns"][t["token"]]
        give("network", "", of["currency"], t["cleared"] - t["refunded"])
        give("programme", "", of["currency"], -t["paid"])
        own = of["product"]["funding"] == "ACCOUNT"
        give("user", of["user"], of["currency"], t["refunded"] - t["cleared"] if own else t["g"] + t["p"])
    for (kind, user, currency), amount in list(owed.items()):
        give("gateway", "", currency, -amount)
    keys = []
    for b in s["balances"]:
        if b["kind"] == "user":
            must("user", b["user"] in known["users"])
        keys.append((OWNERS[b["kind"]], b["user"].encode() + b"\0", NUMBERS[b["currency"]]))
        must("balance", owed.pop((b["kind"], b["user"], b["currency"]), 0) == b["amount"])
    must("balances in order", rises(keys))
    must("unlisted", not any(owed.values()))


def check_bounds(s, known, must):
    records, most = s["records"], s["records"] * GREATEST_AMOUNT
    asked = [c for c in known["calls"] if c["asked"]]
    live = sum(t["live"] for t in s["txns"])
    asked_amount = sum(c["amount"] for c in asked)
    opened = asked_amount + sum(t["g"] + t["p"] + t["s"] for t in s["txns"])
    by_control = {}
    for k in s["counters"]:
        must("counter's amount", opened - most <= k["amount"] <= most)
        must("counter's count", len(asked) - records <= k["count"] <= records)
        by_control[k["control"]] = by_control.get(k["control"], 0) + 1
    must("counters", max(by_control.values(), default=0) + len(asked) + live <= 3 * records)
    users = sum(b["kind"] == "user" for b in s["balances"])
    must("accounts", users + len(asked) + live <= 3 * records)
    must("sums", len(s["sums"]) + len(asked) <= records)
    must("each sum", all(x["amount"] + asked_amount <= most for x in s["sums"]))
    must("notices", s["made"] + 2 * len(asked) + live <= 4 * records)


def check_names(s, known, must):
    places = {name: place for place, name in enumerate(known["controls"])}
    keys = []
    for k in s["counters"]:
        if not must("control", k["control"] in places):
            continue
        must("user", k["user"] in known["users"])
        kind, text = k["span"]
        if known["controls"][k["control"]] == "TRANSACTION":
            of = known["txns"].get(text)
            if not must("span", kind == "txn" and of is not None and of["user"] == k["user"]):
                continue
            number = of["origin"]
        else:
            if not must("span", kind == "number"):
                continue
            number = int(text)
        keys.append((places[k["control"]], k["user"].encode() + b"\0", number))
    must("counters in order", rises(keys))
    for x in s["sums"]:
        product = known["products"].get(x["product"])
        must("product", product is not None and product["funding"] == "GATEWAY")
        must("user", x["user"] in known["users"])
        must("day", 0 <= x["day"] <= LAST_STAMP // DAY)
    must("sums in order", rises([(x["product"].encode() + b"\0", x["user"].encode() + b"\0", x["day"]) for x in s["sums"]]))


def check_notices(s, known, must):
    most = s["records"] * GREATEST_AMOUNT
    numbers = [0] + [n["number"] for n in s["notices"]]
    must("numbers of notices", rises(numbers) and numbers[-1] <= s["made"])
    for n in s["notices"]:
        must("method", n["method"] in NOTICES)
        of = known["txns"].get(n["txn"])
        if not must("transaction", of is not None and of["product"]["funding"] == "GATEWAY"):
            continue
        must("addressed", of["user"] == n["user"] and of["currency"] == n["currency"])
        must("void", (n["method"] == "void") == (n["call"] != 0))
        if n["call"]:
            must("call", n["call"] <= len(known["calls"]) and n["call"] > 0 and known["calls"][n["call"] - 1]["txn"] == n["txn"])
        must("amounts", n["amount"] <= most and n["gateway"] <= most)
        must("given back", n["method"] == "capture" or n["gateway"] <= n["amount"])


def broken(lines):
    """The rules that the state of these lines breaks: none if it is sound."""
    return rules_broken(state_of(lines))


def rules_broken(s):
    """The rules that a state breaks: none if it is sound."""
    found = []
    must = noting(found)
    check_order(s, must)
    known = known_of(s, must)
    for check in (check_txns, check_verdicts, check_sums, check_balances, check_bounds, check_names, check_notices):
        check(s, known, must)
    return found
