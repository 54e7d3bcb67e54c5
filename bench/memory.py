#!/usr/bin/env python3
"""What the program does if it lacks memory: memory.py ISSUER SHIM FOLDER.

Each of three runs is made again and again, and each time one allocation more goes well before one is refused (allocations.c). It ends
with status 7 or as it does with ample memory; one that serves ends with 3 if it was refused to the outside, in a wait or in listening. What it told is
the front of what it tells with ample memory, and has its records. The same holds of a longer replay and of a longer served run under
twenty limits of their address space.
"""
import contextlib
import json
import os
import resource
import socket
import subprocess
import sys
import threading
from collections import Counter
from pathlib import Path

from peers import HOST, Client, Peer, ended, free_port, purchase, request, settings, until

# An allocation was refused; to the outside, in a wait or in listening.
WANT, INPUT_FAULT = 7, 3
ISSUER, SHIM, FOLDER = sys.argv[1:]
DEVICE, COPY, REFUSED_AT = (str(Path(FOLDER) / name) for name in ("device", "copy", "refused"))

USER = '{"type":"user","token":"t1","user":"u1"}'
CARD = '{"type":"card","token":"t2","card":"c1","user":"u1"}'
LOAD = '{"type":"load","token":"t3","user":"u1","currency":"USD","amount":"50.00"}'
PRODUCT = '{"type":"product","token":"p1","product":"g","currency":"USD","funding":"GATEWAY","timeout_ms":60000}'
GATEWAY_CARD = '{"type":"card","token":"t2","card":"c1","user":"u1","product":"g"}'


class Wrong(Exception):
    """A run did something else than it should."""


def purchase_of(event, amount):
    return purchase(event, "c1", amount)


def expect(is_so, *what):
    if not is_so:
        raise Wrong(" ".join(str(word) for word in what))


def run(*words, text="", **more):
    return subprocess.run([ISSUER, *words], input=text.encode(), stdout=subprocess.PIPE, stderr=subprocess.DEVNULL, timeout=60, **more)


def well(*words, text=""):
    """What a run writes that has to end well."""
    ran = run(*words, text=text)
    expect(ran.returncode == 0, words, "ended with", ran.returncode)
    return ran.stdout


def lines(*texts):
    return "".join(f"{text}\n" for text in texts)


def format_device(size):
    with contextlib.suppress(FileNotFoundError):
        os.unlink(DEVICE)
    well("format", DEVICE, str(size), "7")


def refusing(number):
    """The environment of a program whose allocation of this number is refused."""
    with contextlib.suppress(FileNotFoundError):
        os.unlink(REFUSED_AT)
    return {**os.environ, "LD_PRELOAD": SHIM, "REFUSED": str(number), "REFUSED_AT": REFUSED_AT}


def was_refused():
    return os.path.exists(REFUSED_AT) and os.path.getsize(REFUSED_AT) > 0


def expect_front(told, whole, what):
    """What was told is the front of all that is told, in whole lines."""
    expect(whole.startswith(told) and (not told or told.endswith(b"\n")), what, "told", told)


def expect_kept(told, text, what):
    """The device opens, and each line that was told is told again in the same words, without a record more."""
    Path(COPY).write_bytes(Path(DEVICE).read_bytes())
    opening = well("replay", COPY)
    before = Path(COPY).read_bytes()
    heard = text.splitlines(keepends=True)[: told.count(b"\n")]
    again = well("replay", COPY, text="".join(heard))
    expect(again == opening + told, what, "told", told, "and then", again)
    expect(Path(COPY).read_bytes() == before, what, "told a line that had no record")
    return opening


def dry(limits):
    text = lines(USER, CARD, LOAD, purchase_of("a1", "50.00"))
    whole = well("dry", text=text)
    ran = run("dry", text=text, **limits)
    expect(ran.returncode in (0, WANT), "dry ended with", ran.returncode)
    expect_front(ran.stdout, whole, "dry")
    expect(ran.returncode == WANT or ran.stdout == whole, "dry ended early")
    return ran.returncode


def replay(limits):
    format_device(100)
    ran = run("replay", DEVICE, text=lines(USER), **limits)
    expect(ran.returncode in (0, WANT), "replay ended with", ran.returncode)
    expect_front(ran.stdout, b'{"event":"t1","reply":"done"}\n', "replay")
    expect(ran.returncode == WANT or ran.stdout, "replay ended early")
    expect_kept(ran.stdout, lines(USER), "replay")
    return ran.returncode


class TwoCalls:
    """A gateway that funds the second call, and refuses the first once it is told to."""

    def __init__(self, listening):
        self.socket, self.may_refuse, self.over, self.asked = listening, threading.Event(), threading.Event(), 0
        self.thread = threading.Thread(target=self.work, daemon=True)
        self.thread.start()

    def work(self):
        while not self.over.is_set():
            with contextlib.suppress(OSError):
                link = self.socket.accept()[0]
                threading.Thread(target=self.hear, args=[Peer(link)], daemon=True).start()

    def hear(self, link):
        link.socket.settimeout(10)
        while link.body() is None:
            if link.take():
                link.socket.close()
                return
        asked = json.loads(link.body())
        self.asked += 1
        if asked.get("event") == "a1":
            self.may_refuse.wait(10)
            link.say(b"HTTP/1.1 402 Payment Required\r\nContent-Length: 0\r\n\r\n")
        else:
            body = json.dumps({name: asked[name] for name in ("token", "amount") if name in asked}).encode()
            link.say(b"HTTP/1.1 200 OK\r\nContent-Length: %d\r\n\r\n%s" % (len(body), body))
        link.socket.close()


class Served:
    """The program that serves the device, until it ends or is killed."""

    def __init__(self, gateway_port, limits):
        self.port = free_port()
        words = [ISSUER, "serve", DEVICE, str(self.port), str(gateway_port), "1000000"]
        self.process = subprocess.Popen(words, stdin=subprocess.DEVNULL, stderr=subprocess.DEVNULL, **limits)
        until(lambda: self.has_ended() or self.listens(), 60, 0.002)

    def has_ended(self):
        return self.process.poll() is not None

    def listens(self):
        with contextlib.suppress(OSError), socket.create_connection((HOST, self.port)):
            return True
        return False

    def connect(self, sent=b""):
        """A client, or None if the program has ended."""
        with contextlib.suppress(OSError):
            return Client(self.port, sent)
        return None

    def end(self):
        """Its status, or 0 if it still served."""
        if until(self.has_ended, 0.2, 0.002) is None:
            self.process.kill()
            self.process.wait()
            return 0
        return self.process.returncode


def expect_replies_kept(clients, texts, what):
    """The device opens, and each purchase whose reply came whole is told the same again, without a record more."""
    told = [(text, client.body()) for client, text in zip(clients, texts) if client and client.body()]
    Path(COPY).write_bytes(Path(DEVICE).read_bytes())
    opening = well("replay", COPY)
    before = Path(COPY).read_bytes()
    again = well("replay", COPY, text=lines(*(text for text, _ in told)))
    expect(again == opening + b"".join(body for _, body in told), what, "told", told, "and then", again)
    expect(Path(COPY).read_bytes() == before, what, "told a purchase that had no record")


def two_calls(served, gateway, texts):
    """Two purchases wait for the gateway; it funds the second, a client comes and ends, and it refuses the first."""
    first = served.connect(request(texts[0]))
    until(lambda: gateway.asked or served.has_ended(), 10, 0.002)
    second = served.connect(request(texts[1]))
    ended([client for client in [second] if client], 10)
    third = served.connect()
    if third:
        third.socket.close()
    gateway.may_refuse.set()
    ended([client for client in [first] if client], 10)
    return [first, second]


def serve(limits):
    format_device(1000)
    well("replay", DEVICE, text=lines(PRODUCT, USER, GATEWAY_CARD))
    texts = [purchase_of("a1", "60.00"), purchase_of("a2", "30.00")]
    with socket.create_server((HOST, 0)) as port:
        gateway = TwoCalls(port)
        served = Served(port.getsockname()[1], limits)
        clients = two_calls(served, gateway, texts)
        status = served.end()
        gateway.over.set()
    expect(status in (0, WANT, INPUT_FAULT), "serve ended with", status)
    told = sum(1 for client in clients if client and client.body())
    expect(status or told == 2, "serve told", told, "purchases and went on")
    expect_replies_kept(clients, texts, "serve")
    return status


def ends(statuses):
    return ", ".join(f"{count} with status {status}" for status, count in sorted(statuses.items()))


def each_refused(what, make):
    """Refuses each allocation of a run in turn, until the run makes no more."""
    statuses, number = Counter(), 1
    while True:
        status = make({"env": refusing(number)})
        if not was_refused():
            break
        statuses[status] += 1
        number += 1
    print(f"{what}: {number - 1} allocations, each refused once; {ends(statuses)}", flush=True)


def limited(size):
    def limit():
        resource.setrlimit(resource.RLIMIT_AS, (size, size))

    return {"preexec_fn": limit}


def least_size(is_enough):
    """The least address space that is enough, to 64 KiB."""
    low, high = 0, 1 << 14
    while low + 1 < high:
        middle = (low + high) // 2
        low, high = (low, middle) if is_enough(middle << 16) else (middle, high)
    return high << 16


MANY = [*settings(60000), *(purchase(f"e{number}") for number in range(5000))]


def long_replay(limits):
    format_device(4000000)
    ran = run("replay", DEVICE, text=lines(*MANY), **limits)
    expect(ran.returncode in (0, WANT), "a long replay ended with", ran.returncode)
    expect_front(ran.stdout, MANY_TOLD, "a long replay")
    expect(ran.returncode == WANT or ran.stdout == MANY_TOLD, "a long replay ended early")
    expect_kept(ran.stdout, lines(*MANY), "a long replay")
    return ran.returncode


def long_serve(limits):
    format_device(4000000)
    well("replay", DEVICE, text=lines(*settings(60000)))
    served, clients, texts = Served(free_port(), limits), [], []
    for number in range(3000):
        if served.has_ended():
            break
        texts.append(purchase(f"e{number}"))
        client = served.connect(request(texts[-1]))
        clients.append(client)
        ended([client] if client else [], 10)
    status = served.end()
    expect(status in (0, WANT, INPUT_FAULT), "a long served run ended with", status)
    told = sum(1 for client in clients if client and client.body())
    expect(status or told == 3000, "a long served run told", told)
    expect_replies_kept(clients, texts, "a long served run")
    return status


def each_size(what, make):
    """Twenty limits, from what a run of no lines needs to what this one needs."""
    least = least_size(lambda size: run("dry", **limited(size)).returncode == 0)
    most = least_size(lambda size: run("dry", text=lines(*MANY), **limited(size)).returncode == 0)
    sizes = [least + (most - least) * step // 19 for step in range(20)]
    statuses = Counter(make(limited(size)) for size in sizes)
    print(f"{what}: twenty limits from {least >> 10:,} to {most >> 10:,} KiB; {ends(statuses)}", flush=True)


def main():
    for what, make in (("dry of four lines", dry), ("replay of one line", replay), ("two calls served", serve)):
        each_refused(what, make)
    for what, make in (("a replay of 5,005 lines", long_replay), ("3,000 purchases served", long_serve)):
        each_size(what, make)


if __name__ == "__main__":
    MANY_TOLD = well("dry", text=lines(*MANY))
    main()
