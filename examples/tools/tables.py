#!/usr/bin/env python3
"""Joins a device's lines with the replies of a dry run of them, as a table of records, for queries and for export.

usage: tables.py LINES REPLIES QUERY       writes what a query in SQL of the table `records` gives, as CSV
       tables.py LINES REPLIES --save FILE   makes FILE a new SQLite file with that table

LINES is what device_lines.py writes of a device, and REPLIES what `issuer dry` writes of LINES. docs/RECIPES.md has examples.
"""
import csv
import json
import os
import sqlite3
import sys

# A record's own fields; `minor` is its amount in minor units, and `line` the whole line. The amount of a purchase that was approved
# in part is that part.
COLUMNS = {
    "record": "INTEGER PRIMARY KEY", "at": "INTEGER", "type": "TEXT", "event": "TEXT", "reply": "TEXT", "reason": "TEXT",
    "user": "TEXT", "card": "TEXT", "txn": "TEXT", "currency": "TEXT", "amount": "TEXT", "minor": "INTEGER", "mcc": "TEXT",
    "mid": "TEXT", "call": "INTEGER", "outcome": "TEXT", "notice": "INTEGER", "line": "TEXT",
}


class Replies:
    """What events were told, and what the gateway was sent."""

    def __init__(self, texts):
        self.decisions, self.requests, self.notices = {}, {}, {}
        for text in map(json.loads, texts):
            if text.get("reply") in ("done", "approved", "partial", "declined"):
                self.decisions[text["event"]] = text
            elif "number" in text:
                self.requests[text["number"]] = text
            elif "method" in text:
                self.notices[text["notice"]] = text


class Records:
    """Rows of the table. What a line doesn't say itself comes from its purchase, its call or its notice."""

    def __init__(self, replies):
        self.replies = replies
        self.holders = {}
        self.purchases = {}

    def row(self, number, text):
        line = json.loads(text)
        about = {
            **self.purchases.get(line.get("txn"), {}),
            **self.replies.requests.get(line.get("call"), {}),
            **self.replies.notices.get(line.get("notice"), {}),
            **line,
        }
        about["event"] = line.get("token", about.get("event") if "call" in line else None)
        if line["type"] == "authorization":
            about["txn"] = line["token"]
        decision = self.replies.decisions.get(line.get("token"), {})
        if "amount" in decision:
            about["amount"] = decision["amount"]
        row = {**about, "record": number, "reply": decision.get("reply"), "reason": decision.get("reason"), "line": text.rstrip()}
        row["user"] = about.get("user", self.holders.get(about.get("card")))
        row["minor"] = int(about["amount"].replace(".", "")) if "amount" in about else None
        self.keep(line, row)
        return [row.get(column) for column in COLUMNS]

    def keep(self, line, row):
        """What later lines may be about."""
        if line["type"] == "card" and row["reply"] == "done":
            self.holders[line["card"]] = line["user"]
        if line["type"] == "authorization":
            self.purchases[line["token"]] = {name: row[name] for name in ("txn", "card", "mcc", "mid")}


def fill(database, lines, replies):
    columns = ", ".join(f"{name} {form}" for name, form in COLUMNS.items())
    places = ", ".join("?" for _ in COLUMNS)
    database.execute(f"CREATE TABLE records ({columns})")
    records = Records(Replies(replies))
    database.executemany(f"INSERT INTO records VALUES ({places})", (records.row(*item) for item in enumerate(lines, 1)))
    database.commit()


def asked(database, query):
    """Returns what the query gives, which has to be one that gives rows."""
    try:
        answer = database.execute(query)
    except sqlite3.Error as error:
        sys.exit(f"{query}: {error}")
    if answer.description is None:
        sys.exit(f"{query}: it gives no rows")
    return answer


def main(words):
    is_saved = len(words) == 4 and words[2] == "--save"
    if not is_saved and len(words) != 3:
        sys.exit(__doc__)
    if is_saved and os.path.exists(words[3]):
        sys.exit(f"{words[3]}: it is there already")
    database = sqlite3.connect(":memory:")
    try:
        with open(words[0]) as lines, open(words[1]) as replies:
            fill(database, lines, replies)
        if is_saved:
            database.execute("VACUUM INTO ?", words[3:])
    except (OSError, sqlite3.Error) as error:
        sys.exit(f"tables.py: {error}")
    except (AttributeError, KeyError, TypeError, ValueError):
        sys.exit(f"tables.py: {words[0]} has no lines of a device, or {words[1]} no replies to them")
    if not is_saved:
        answer = asked(database, words[2])
        table = csv.writer(sys.stdout, lineterminator="\n")
        table.writerow(column[0] for column in answer.description)
        table.writerows(answer)


if __name__ == "__main__":
    main(sys.argv[1:])
