#!/usr/bin/env python3
"""Instructions a byte that hostile lines and requests cost (valgrind's callgrind): costs.py ISSUER FOLDER [MOST].

Lines have 16,384 bytes, and heads 8192. From the count of a run with many of them that of a run with a few is taken away. With MOST it
ends with status 1 if a byte costs more than that.
"""
import re
import signal
import socket
import subprocess
import sys
import time
from pathlib import Path

from peers import HOST, free_port, until

ISSUER, FOLDER = sys.argv[1:3]
MOST = float(sys.argv[3]) if len(sys.argv) > 3 else None
DEVICE = str(Path(FOLDER) / "device")
LINE, HEAD, HEADER_LINES = 16384, 8192, 64
USER = '{"type":"user","token":"t1","user":"u1"'
WORDS = ["valgrind", "--tool=callgrind", f"--callgrind-out-file={FOLDER}/counts", ISSUER]


def counted(said):
    return int(re.search(r"Collected : (\d+)", said)[1])


def filled(front, piece, end):
    """A line of as many pieces as fit, and spaces."""
    count = (LINE - len(front) - len(end)) // len(piece)
    return (front + piece * count + end).ljust(LINE)


def lines():
    nest = "[" * 125 + "]" * 125
    return {
        "spaces after an event": (USER + "}").ljust(LINE),
        "a long text": filled(USER + ',"x":"', "a", '"}'),
        "a long text of escapes": filled(USER + ',"x":"', "\\u0041", '"}'),
        "a long number": filled(USER + ',"x":', "1", "}"),
        "many members": filled(USER, ',"x":0', "}"),
        "members that an event has": filled(USER, ',"type":"user"', "}"),
        "127 levels, again and again": filled(USER + ',"x":[0', "," + nest, "]}"),
        "brackets alone": "[" * LINE,
        "no JSON": "x" * LINE,
        "a text that never ends": '"' + "a" * (LINE - 1),
    }


def dry(line, count):
    ran = subprocess.run([*WORDS, "dry"], input=(line + "\n").encode() * count, capture_output=True, check=True)
    return counted(ran.stderr.decode())


def line_costs(line):
    few, many = 2, 12
    return (dry(line, many) - dry(line, few)) / (many - few) / LINE


def head_of(count):
    """A head of this many bytes, of the most header lines that there may be, for a body of 40 bytes."""
    front = "POST /events HTTP/1.1\r\nContent-Length: 40\r\n"
    left, number = count - len(front) - 2, HEADER_LINES - 1
    width = left // number
    names = ["a:" + "b" * (width - 4) + "\r\n"] * (number - 1)
    names.append("a:" + "b" * (left - width * (number - 1) - 4) + "\r\n")
    return front + "".join(names) + "\r\n"


class Counted:
    """The program that serves a device, and how many instructions it took."""

    def __enter__(self):
        Path(DEVICE).unlink(missing_ok=True)
        subprocess.run([ISSUER, "format", DEVICE, "100000", "7"], check=True)
        self.port = free_port()
        words = [*WORDS, "serve", DEVICE, str(self.port), str(free_port()), "4294967295"]
        self.process = subprocess.Popen(words, stdin=subprocess.DEVNULL, stderr=subprocess.PIPE)
        until(self.listens, 60)
        return self

    def listens(self):
        with socket.socket() as probe:
            return probe.connect_ex((HOST, self.port)) == 0

    def say(self, pieces, pause):
        with socket.create_connection((HOST, self.port), timeout=60) as client:
            client.setsockopt(socket.IPPROTO_TCP, socket.TCP_NODELAY, 1)
            for piece in pieces:
                client.sendall(piece)
                time.sleep(pause)
            while client.recv(65536):
                pass

    def __exit__(self, *_):
        self.process.send_signal(signal.SIGTERM)
        self.count = counted(self.process.communicate()[1].decode())


def served(request, times, is_cut):
    with Counted() as program:
        for _ in range(times):
            pieces = [request[i : i + 1] for i in range(len(request))] if is_cut else [request]
            program.say(pieces, 0.002 if is_cut else 0)
    return program.count


def request_costs(request, is_cut):
    few, many = (1, 2) if is_cut else (5, 55)
    return (served(request, many, is_cut) - served(request, few, is_cut)) / (many - few) / len(request)


def main():
    costs = {f"a line: {what}": line_costs(line) for what, line in lines().items()}
    body = USER + "}"
    whole = (head_of(HEAD) + body).encode()
    short = f"POST /events HTTP/1.1\r\nContent-Length: {LINE}\r\n\r\n".encode() + body.encode().ljust(LINE)
    costs["a request with 64 header lines of 8192 bytes in all"] = request_costs(whole, False)
    costs["the same head, one byte at a time"] = request_costs(whole, True)
    costs["a request with a body of 16,384 bytes"] = request_costs(short, False)
    costs["the same body, one byte at a time"] = request_costs(short, True)
    for what, cost in costs.items():
        print(f"{what}: {cost:.1f} instructions a byte")
    sys.exit(MOST is not None and max(costs.values()) > MOST)


if __name__ == "__main__":
    main()
