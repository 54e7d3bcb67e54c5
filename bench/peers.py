"""The program on a device of its own, clients of it, gateways, and the row of a figure."""
import contextlib
import json
import os
import random
import resource
import selectors
import shutil
import socket
import struct
import subprocess
import sys
import tempfile
import threading
import time
from collections import Counter
from dataclasses import dataclass
from http.server import BaseHTTPRequestHandler, HTTPServer
from pathlib import Path

HOST = "127.0.0.1"
# After how many seconds of silence a client is closed.
CLIENT_SILENCE = 30


@dataclass
class Row:
    """One figure: what it is of, what came, what is aimed at, and whether that is met."""

    what: str
    figure: str
    aim: str = ""
    is_met: bool = True


def purchase(event, card="own", amount="0.01", **more):
    members = {"type": "authorization", "token": event, "card": card, "currency": "USD", "amount": amount, "mcc": "5411", "mid": "m1"}
    return json.dumps({**members, **more})


def settings(timeout_ms):
    """A user with two cards: the user's balance pays for `own`, and a gateway with this time to answer is asked for `asks`."""
    product = {"type": "product", "token": "s1", "product": "g", "currency": "USD", "funding": "GATEWAY", "timeout_ms": timeout_ms}
    return [
        json.dumps(product),
        '{"type":"user","token":"s2","user":"u1"}',
        '{"type":"card","token":"s3","card":"own","user":"u1"}',
        '{"type":"card","token":"s4","card":"asks","user":"u1","product":"g"}',
        '{"type":"load","token":"s5","user":"u1","currency":"USD","amount":"1000000.00"}',
    ]


def now():
    """The time in milliseconds since 1970."""
    return time.time_ns() // 1000000


def rest(moment):
    """How many seconds are left until this moment."""
    return max(0, moment - time.monotonic())


def until(is_so, seconds, pause=0.01):
    """Waits until it is so, and returns how many seconds that took, or None after this time."""
    start = time.monotonic()
    while not is_so():
        if time.monotonic() - start > seconds:
            return None
        time.sleep(pause)
    return time.monotonic() - start


def seconds_of(took, limit):
    return f"{took:.2f} s" if took is not None else f"not within {limit} s"


def free_port():
    """A port on which nobody listens, below those that the system gives to whoever connects."""
    while True:
        port = random.randrange(20000, 32000)
        with socket.socket() as probe, contextlib.suppress(OSError):
            probe.bind((HOST, port))
            return port


class Issuer:
    """The program on a device of its own."""

    program, folder, outside = "build/issuer", "build", None

    def __init__(self, timeout_ms=60000, lines=(), handles=None, gateway=None):
        self.room = Path(tempfile.mkdtemp(prefix="hostile.", dir=self.folder))
        self.device = str(self.room / "device")
        self.port, self.gateway, self.handles = free_port(), gateway or free_port(), handles
        self.process = None
        self.outer, self.synced = self.room / "outer", self.room / "synced"
        self.outer.write_bytes(bytes(16))
        self.synced.touch()
        self.run("format", self.device, "64000000", "7")
        self.run("replay", self.device, text="".join(f"{line}\n" for line in [*settings(timeout_ms), *lines]))

    def run(self, *words, text="", **more):
        """What a run writes that has to end well."""
        return subprocess.run([self.program, *words], input=text, capture_output=True, text=True, check=True, **more).stdout

    def balances(self):
        return [json.loads(line) for line in self.run("balances", self.device).splitlines()]

    def held(self):
        """What the user's purchases hold."""
        return next(line["held"] for line in self.balances() if line.get("account") == "user")

    def notices(self):
        """How many notices wait."""
        return self.balances()[-1]["notices"]

    def watched(self):
        """The environment of a program in the outside of outside.c, which the next two calls change."""
        return {**os.environ, "LD_PRELOAD": self.outside, "OUTSIDE": str(self.outer), "SYNCED": str(self.synced)}

    def move_clock(self, millis):
        self.set_outer(0, millis)

    def slow_down(self, millis):
        self.set_outer(1, millis)

    def set_outer(self, place, number):
        with open(self.outer, "r+b") as file:
            file.seek(8 * place)
            file.write(struct.pack("=q", number))

    def serve(self, is_watched=False):
        def limit():
            if self.handles:
                resource.setrlimit(resource.RLIMIT_NOFILE, (self.handles, self.handles))

        words = [self.program, "serve", self.device, str(self.port), str(self.gateway), "4294967295"]
        environment = self.watched() if is_watched else None
        self.process = subprocess.Popen(words, stdin=subprocess.DEVNULL, preexec_fn=limit, env=environment)
        if until(self.listens, 60) is None:
            raise TimeoutError("the program doesn't listen")

    def listens(self):
        with contextlib.suppress(ConnectionRefusedError), socket.create_connection((HOST, self.port)):
            return True
        return False

    def connections(self):
        """How many connections it has open."""
        names, count = f"/proc/{self.process.pid}/fd", -1
        for name in os.listdir(names):
            with contextlib.suppress(FileNotFoundError):
                count += os.readlink(f"{names}/{name}").startswith("socket:")
        return count

    def processor(self):
        """How many seconds of a processor it has used."""
        return int(Path(f"/proc/{self.process.pid}/schedstat").read_text().split()[0]) / 1e9

    def stop(self):
        if self.process:
            self.process.kill()
            self.process.wait()
            self.process = None

    def __enter__(self):
        return self

    def __exit__(self, *_):
        self.stop()
        shutil.rmtree(self.room, ignore_errors=True)


def request(line):
    body = line.encode()
    return b"POST /events HTTP/1.1\r\nHost: localhost\r\nContent-Length: %d\r\n\r\n%s" % (len(body), body)


class Peer:
    """One end of a connection. `took` is how many seconds passed from `since` to its end."""

    def __init__(self, opened):
        self.socket, self.since, self.got, self.took = opened, time.monotonic(), b"", None

    def say(self, sent):
        """Sends the bytes, unless the other side has closed the connection."""
        with contextlib.suppress(OSError):
            self.socket.sendall(sent)

    def take(self):
        """Takes what came, and returns whether the connection has ended."""
        piece = b""
        with contextlib.suppress(OSError):
            piece = self.socket.recv(65536)
        self.got += piece
        if not piece:
            self.took = time.monotonic() - self.since
        return not piece

    def body(self):
        """The bytes of a whole message after its head, or None."""
        head, _, body = self.got.partition(b"\r\n\r\n")
        length = head.partition(b"Content-Length: ")[2].partition(b"\r\n")[0]
        return body if length and len(body) >= int(length) else None


class Client(Peer):
    """A connection to the program."""

    def __init__(self, port, sent=b""):
        super().__init__(socket.create_connection((HOST, port), timeout=20))
        self.say(sent)

    def reply(self):
        """The reason of a decline, else the reply, and `nothing` if no whole response came."""
        body = self.body()
        said = json.loads(body) if body else {"reply": "nothing"}
        return said.get("reason") or said["reply"]


def ended(clients, seconds):
    """Waits until these connections have ended, for at most this time."""
    limit = time.monotonic() + seconds
    with selectors.DefaultSelector() as poll:
        for client in clients:
            if client.took is None:
                poll.register(client.socket, selectors.EVENT_READ, client)
        while poll.get_map() and time.monotonic() < limit:
            for key, _ in poll.select(rest(limit)):
                if key.data.take():
                    poll.unregister(key.fileobj)
                    key.fileobj.close()


def post(port, line, seconds=20):
    """A client that posts this line, once it is answered or after this time."""
    client = Client(port, request(line))
    ended([client], seconds)
    return client


def post_all(port, lines, seconds):
    """Clients that post these lines at once, once all are answered or after this time."""
    clients = [Client(port, request(line)) for line in lines]
    ended(clients, seconds)
    return clients


def crowd(port, count):
    """Clients that say nothing."""
    return [Client(port) for _ in range(count)]


def lost_of(clients):
    """How many of these purchases weren't approved, and what they were told."""
    replies = Counter(client.reply() for client in clients if client.reply() != "approved")
    return sum(replies.values()), ", ".join(f"{count} {reply}" for reply, count in replies.most_common()) or "0"


class Gateway:
    """A gateway that takes each connection. While it `answers`, it funds each request and acknowledges each notice.

    With `padding` an answer has so long a member that is ignored, and comes in two pieces.
    """

    def __init__(self, answers=True, padding=0):
        self.answers, self.padding, self.is_over = answers, padding, False
        self.asked, self.answered, self.silences = 0, 0, []
        self.socket = socket.create_server((HOST, 0), backlog=4096)
        self.port = self.socket.getsockname()[1]
        self.poll = selectors.DefaultSelector()
        self.poll.register(self.socket, selectors.EVENT_READ)
        self.waiting = []
        self.thread = threading.Thread(target=self.work, daemon=True)
        self.thread.start()

    def work(self):
        while not self.is_over:
            for key, _ in self.poll.select(0.005):
                if key.data is None:
                    link = Peer(self.socket.accept()[0])
                    self.poll.register(link.socket, selectors.EVENT_READ, link)
                else:
                    self.hear(key.data)
            while self.answers and self.waiting:
                self.answer(self.waiting[0])

    def hear(self, link):
        is_new = link.body() is None
        if link.take():
            self.silences.append(link.took)
            self.leave(link)
        elif is_new and link.body() is not None:
            link.since = time.monotonic()
            self.asked += b'"number":' in link.body()
            self.waiting.append(link)

    def answer(self, link):
        text = json.loads(link.body())
        body = json.dumps({"padding": "x" * self.padding, "token": text.get("token"), "amount": text["amount"]}).encode()
        whole = b"HTTP/1.1 200 OK\r\nContent-Length: %d\r\n\r\n%s" % (len(body), body)
        if self.padding:
            link.say(whole[:100])
            time.sleep(0.002)
            whole = whole[100:]
        link.say(whole)
        self.answered += 1
        self.leave(link)

    def leave(self, link):
        if link in self.waiting:
            self.waiting.remove(link)
        self.poll.unregister(link.socket)
        link.socket.close()

    def __enter__(self):
        return self

    def __exit__(self, *_):
        self.is_over = True
        self.thread.join()
        for key in list(self.poll.get_map().values()):
            key.fileobj.close()


class Funds(BaseHTTPRequestHandler):
    """Funds what is asked for, and acknowledges each notice."""

    def do_POST(self):
        asked = json.loads(self.rfile.read(int(self.headers["Content-Length"])))
        told = json.dumps({name: asked[name] for name in ("token", "amount") if name in asked}).encode()
        self.send_response(200)
        self.send_header("Content-Length", str(len(told)))
        self.end_headers()
        self.wfile.write(told)


def serve_plainly(port):
    HTTPServer((HOST, port), Funds).serve_forever()


@contextlib.contextmanager
def plain_gateway(port):
    """A gateway of Python's `HTTPServer`, a process of its own: it takes one connection at a time, and five may queue."""
    code = f"import peers; peers.serve_plainly({port})"
    process = subprocess.Popen([sys.executable, "-B", "-c", code], cwd=Path(__file__).parent, stderr=subprocess.DEVNULL)
    try:
        # The system's list of sockets tells that it listens. To connect would take a place in its queue.
        if until(lambda: f"0100007F:{port:04X} 00000000:0000 0A" in Path("/proc/net/tcp").read_text(), 20) is None:
            raise TimeoutError("the gateway doesn't listen")
        yield process
    finally:
        process.kill()
        process.wait()


@contextlib.contextmanager
def full_gateway():
    """The port of a gateway that takes no connections: its queue is full."""
    with socket.create_server((HOST, 0), backlog=0) as gateway, contextlib.ExitStack() as queue:
        for _ in range(3):
            peer = queue.enter_context(socket.socket())
            peer.setblocking(False)
            peer.connect_ex(gateway.getsockname())
        yield gateway.getsockname()[1]
