#!/usr/bin/env python3
"""A gateway to start from: gateway.py PORT STORE CURRENCY=LIMIT..

It funds a purchase of at most LIMIT, its increments included, in each currency that is named, and refuses every other one.
It answers as docs/GATEWAY.md says: a token has one text, and one answer until it is voided. After that it is refused. A notice
acts once.

STORE is a file that grows, but for a line that a kill cut short: the next start drops that. It has a line for each token and
each notice, `funded`, `refused` or `noted` and then the text that came. A line is on the disk before its answer goes out, so
the gateway may be killed at any moment. One store belongs to one device, because the notices of two devices have the same
numbers. gateway.js keeps the same store.
"""
import json
import os
import re
import sys
import threading
from collections import Counter
from http.server import BaseHTTPRequestHandler
from socketserver import ThreadingTCPServer

DECIMALS = {"USD": 2, "EUR": 2, "GBP": 2, "CAD": 2, "AUD": 2, "JPY": 0, "KWD": 3}
ASKS = ("pgfs.authorization", "pgfs.authorization.incremental")
# What a void shares with the request whose token it has.
SHARED = ("amount", "currency", "txn", "user")
LONGEST_TEXT = 16384


def minor_units(amount, currency):
    """Counts the minor units of an amount, which has exactly the decimals of its currency."""
    decimals = DECIMALS[currency]
    if not re.fullmatch(rf"\d+\.\d{{{decimals}}}" if decimals else r"\d+", amount, re.ASCII):
        raise ValueError(f"no amount of {currency}: {amount}")
    return int(amount.replace(".", ""))


class Store:
    """What was answered: the requests and voids by their tokens, and the notices by their numbers."""

    def __init__(self, path):
        self.requests = {}
        self.funded = set()
        self.voids = set()
        self.notices = {}
        self.spent = Counter()
        self.file = open(path, "ab+")
        self.file.seek(0)
        content = self.file.read()
        # A line that a kill cut short was never answered.
        whole = content[: content.rfind(b"\n") + 1]
        self.file.truncate(len(whole))
        for line in whole.decode().splitlines():
            self.take(*line.split(" ", 1))
        # What was taken lasts, and so does the file's name in its folder.
        os.fsync(self.file.fileno())
        folder = os.open(os.path.dirname(os.path.abspath(path)), os.O_RDONLY)
        os.fsync(folder)
        os.close(folder)

    def keep(self, word, text):
        """Writes a line, and takes it once it lasts. If that fails, only the next start can tell what does."""
        try:
            self.file.write(f"{word} {text}\n".encode())
            self.file.flush()
            os.fsync(self.file.fileno())
        except OSError as error:
            print(f"the store can't be written: {error}", file=sys.stderr, flush=True)
            os._exit(1)
        self.take(word, text)

    def take(self, word, text):
        message = json.loads(text)
        if word == "noted":
            self.notices[message["notice"]] = text
            if message["method"] == "x.void":
                self.void(message)
        else:
            self.requests[message["token"]] = text
            if word == "funded":
                self.funded.add(message["token"])
                self.spend(message, 1)

    def void(self, notice):
        if notice["token"] in self.funded and notice["token"] not in self.voids:
            self.spend(notice, -1)
        self.voids.add(notice["token"])

    def spend(self, message, sign):
        self.spent[message["txn"]] += sign * minor_units(message["amount"], message["currency"])


class Gateway:
    """Answers one text after another, by what is in its store."""

    def __init__(self, store, limits):
        self.store = store
        self.limits = limits
        self.lock = threading.Lock()

    def answer(self, text):
        """Returns the status and the body that answer this text."""
        message = json.loads(text)
        amount = minor_units(message["amount"], message["currency"])
        with self.lock:
            if message["method"] not in ASKS:
                return (200 if self.acts_on(message, text) else 409), {}
            if self.funds(message, text, amount):
                return 200, {"amount": message["amount"], "token": message["token"]}
            return 402, {}

    def funds(self, message, text, amount):
        token = message["token"]
        known = self.store.requests.get(token)
        if known not in (None, text):
            return self.contradicts(f"token {token}")
        if token in self.store.voids:
            return False
        if known is None:
            is_within = self.store.spent[message["txn"]] + amount <= self.limits.get(message["currency"], 0)
            self.store.keep("funded" if is_within else "refused", text)
        return token in self.store.funded

    def acts_on(self, notice, text):
        """Whether this notice is acknowledged: it is new, or known with this text."""
        known = self.store.notices.get(notice["notice"])
        # What isn't an amount is never kept.
        minor_units(notice["gateway"], notice["currency"])
        if known is None and self.fits_its_request(notice):
            self.store.keep("noted", text)
            return True
        return known == text or self.contradicts(f"notice {notice['notice']}")

    def contradicts(self, what):
        """Says that this came with another text than is known, as it does from an old copy of a device: somebody has to look."""
        print(f"{what} came with another text", file=sys.stderr, flush=True)
        return False

    def fits_its_request(self, notice):
        if notice["method"] != "x.void" or notice["token"] not in self.store.requests:
            return True
        request = json.loads(self.store.requests[notice["token"]])
        return all(request[name] == notice[name] for name in SHARED)


class Handler(BaseHTTPRequestHandler):
    """One message on one connection, which ends if nothing comes."""

    timeout = 10

    def do_POST(self):
        try:
            status, body = self.server.gateway.answer(self.text())
        except (KeyError, TypeError, ValueError):
            status, body = 400, {}
        answer = json.dumps(body).encode()
        self.send_response(status)
        self.send_header("Content-Type", "application/json")
        self.send_header("Content-Length", str(len(answer)))
        self.end_headers()
        self.wfile.write(answer)

    def text(self):
        """Reads a text as the issuer writes it: printable ASCII, so that it is one line of the store."""
        length = int(self.headers.get("Content-Length", ""))
        if self.path != "/jit" or not 0 < length <= LONGEST_TEXT:
            raise ValueError("no message")
        text = self.rfile.read(length).decode("ascii")
        if len(text) < length or not text.isprintable():
            raise ValueError("no text of an issuer")
        return text

    def log_message(self, *_):
        """Says nothing of each message: the store has it."""


class Server(ThreadingTCPServer):
    allow_reuse_address = True
    daemon_threads = True
    request_queue_size = 1024

    def handle_error(self, *words):
        """Ignores a connection that fails: its message comes again."""
        if not isinstance(sys.exc_info()[1], OSError):
            super().handle_error(*words)


def main():
    try:
        port, path, *limits = sys.argv[1:]
        pairs = [limit.split("=") for limit in limits]
        limits = {currency: minor_units(amount, currency) for currency, amount in pairs}
        port = int(port)
    except (KeyError, ValueError):
        sys.exit(__doc__)
    # The port comes first: whoever has it alone writes to the store.
    try:
        server = Server(("127.0.0.1", port), Handler)
        server.gateway = Gateway(Store(path), limits)
    except (OSError, OverflowError) as error:
        sys.exit(f"gateway.py: port {port}, store {path}: {error}")
    server.serve_forever()


main()
