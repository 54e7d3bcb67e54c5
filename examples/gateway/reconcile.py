#!/usr/bin/env python3
"""Compares a gateway's store with the issuer's books: issuer balances DEVICE | reconcile.py STORE.

Writes a line for each currency, and one for what is under way. Ends with 0 if both sides are equal in each currency. Else it
ends with 1 if nothing is under way, so that somebody has to look, and with 3 if calls or notices are, which may explain it.
"""
import json
import sys
from collections import defaultdict
from decimal import Decimal


def gateway_side(path):
    """Returns by currency what was funded and not voided, less what notices gave back."""
    funded, given_back = {}, defaultdict(Decimal)
    voids, notices = set(), set()
    with open(path, encoding="ascii") as store:
        for line in store:
            if not line.endswith("\n"):
                break  # The gateway is writing it, or was killed while it did.
            word, text = line.split(" ", 1)
            message = json.loads(text)
            if word == "funded":
                funded[message["token"]] = message
            elif word == "noted" and message["notice"] not in notices:
                notices.add(message["notice"])
                given_back[message["currency"]] += Decimal(message["gateway"])
                voids.add(message.get("token"))
    side = defaultdict(Decimal)
    for token, message in funded.items():
        if token not in voids:
            side[message["currency"]] += Decimal(message["amount"])
    for currency, amount in given_back.items():
        side[currency] -= amount
    return side


def issuer_side(lines):
    """Returns by currency what the gateway's account has paid in, and the counts of the last line."""
    side, counts = defaultdict(Decimal), None
    for line in map(json.loads, lines):
        if line.get("account") == "gateway":
            side[line["currency"]] = -Decimal(line["balance"])
        counts = line if "calls" in line else counts
    if counts is None:
        sys.exit("reconcile.py: no whole report of the issuer on standard input")
    return side, counts


def main(words):
    if len(words) != 1:
        sys.exit(__doc__)
    try:
        gateway = gateway_side(words[0])
    except (ArithmeticError, KeyError, OSError, TypeError, ValueError) as error:
        sys.exit(f"reconcile.py: {words[0]} is no store of a gateway: {error}")
    try:
        issuer, counts = issuer_side(sys.stdin)
    except (ArithmeticError, AttributeError, KeyError, TypeError, ValueError):
        sys.exit("reconcile.py: no report of the issuer on standard input")
    is_equal = True
    for currency in sorted({*gateway, *issuer}):
        difference = gateway[currency] - issuer[currency]
        is_equal = is_equal and difference == 0
        print(f"{currency}: gateway {gateway[currency]}, issuer {issuer[currency]}, difference {difference}")
    print(f"under way: {counts['calls']} calls, {counts['notices']} notices")
    if not is_equal:
        sys.exit(3 if counts["calls"] or counts["notices"] else 1)


main(sys.argv[1:])
