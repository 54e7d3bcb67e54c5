#!/usr/bin/env python3
"""Writes a statement as a page of HTML: page.py USER CURRENCY FROM TO <LINES. The four words are those of the statement.

LINES is what a statement is as lines. The page is page.html beside this file, with its $names filled in. If the lines are no whole
statement, or don't add up, nothing is written, and it ends with 1.
"""
import html
import json
import sys
from datetime import datetime, timedelta
from decimal import Decimal
from pathlib import Path
from string import Template

ROW = Template(
    '<tr><td>$time</td><td>$other</td><td>$txn</td>'
    '<td class="money">$out</td><td class="money">$into</td><td class="money">$balance</td></tr>'
)
NO_ROW = '<tr><td colspan="6" class="none">Nothing moved on these days.</td></tr>'


def whole(lines):
    """Returns the opening balance, the rows and the closing balance of a whole statement."""
    opening, *rows, closing = [json.loads(line, parse_float=Decimal) for line in lines]
    if opening.get("line") != "opening" or closing.get("line") != "closing":
        raise ValueError("no whole statement: the first line isn't an opening, or the last no closing")
    return Decimal(opening["balance"]), rows, Decimal(closing["balance"])


def time_of(at):
    """Returns a stamp in milliseconds as text."""
    return (datetime(1970, 1, 1) + timedelta(milliseconds=at)).isoformat(" ", "seconds")


def page(words, lines):
    """Returns the page of these lines. A column shows a sum of what it has, and an amount stands in the column of its sign."""
    opening, rows, closing = whole(lines)
    balance = opening
    sums = {"out": opening * 0, "into": opening * 0}
    shown = []
    for row in rows:
        amount = Decimal(row["amount"])
        side = "out" if amount < 0 else "into"
        balance += amount
        sums[side] += abs(amount)
        texts = {
            "time": time_of(row["at"]), "other": row["other"], "txn": row.get("txn", ""),
            "out": "", "into": "", side: f"{abs(amount):,}", "balance": f"{balance:,}",
        }
        shown.append(ROW.substitute({name: html.escape(text) for name, text in texts.items()}))
    if balance != closing:
        raise ValueError(f"the rows come to {balance}, and the closing line says {closing}")
    user, currency, first, last = map(html.escape, words)
    template = Template(Path(__file__).with_name("page.html").read_text(encoding="utf-8"))
    return template.substitute(
        user=user, currency=currency, first=first, last=last, opening=f"{opening:,}", closing=f"{closing:,}",
        out=f"{sums['out']:,}", into=f"{sums['into']:,}", rows="\n".join(shown) or NO_ROW,
    )


def main(words):
    if len(words) != 4:
        sys.exit(__doc__)
    try:
        sys.stdout.write(page(words, sys.stdin))
    except (KeyError, TypeError, ValueError, ArithmeticError) as fault:
        sys.exit(f"page.py: {fault}")


if __name__ == "__main__":
    main(sys.argv[1:])
