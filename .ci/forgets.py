"""Kills `issuer` on a disk that forgets, and asks whether each record of which a byte of a text went out stands.

usage: forgets.py PROGRAM ROOM

ROOM has the library of .ci/disk.c as `disk.so`, the programs `load` and `gateway` of bench/, and the files to be replayed: `lines`, and
`turning`, for which a small device turns ten times. Chance goes by a number, which a failure tells. ISSUER_CHANCE gives it again: the replays are then the same, and what is served nearly so.
"""
import json
import os
import random
import re
import shutil
import signal
import socket
import subprocess
import sys
import threading
from collections import namedtuple
from concurrent.futures import ThreadPoolExecutor
from pathlib import Path

from disk import HALVES_START, MARK, MARKED, SECONDS, SIZE, Lost, Machine, Seen, Wrong
from disk import compare, end_all, is_body, is_half, is_selector, read_log, record_line, refuse, said_by, stands_on, start, texts_of

PROGRAM, ROOM = sys.argv[1], Path(sys.argv[2])
CHANCE = os.environ.get("ISSUER_CHANCE") or str(random.SystemRandom().randrange(10**6))
KILLS, PARTS = 200, 2
# The same of a device that turns. Each second run of these is killed in its next turn, or at the write after it.
TURNING_KILLS, TURN = 100, 5
# The most kills that a disk needs whose syncs don't all count, to lose something.
CONTROL_KILLS = 200
# Of a hundred kills, those after which the machine goes on and keeps all that was written.
KEPT = 20
# The last action at which a run is killed; for one run in six the last one of an opening, more or less.
ACTIONS = {"replay": (40, 5), "serve": (80, 20)}
# The most times that the disk forgets on one device while serving: the more records stand, the longer an opening takes.
SERVED = 10
KILLED = -signal.SIGKILL

SETTINGS = b"""\
{"type":"product","token":"p1","product":"g","currency":"USD","funding":"GATEWAY","timeout_ms":%d}
{"type":"user","token":"t1","user":"u1"}
{"type":"card","token":"t2","card":"c1","user":"u1","product":"g"}
"""
# What the gateway does with the calls, in turn (bench/gateway.c); and if each is to be answered soon.
NAMES = "m1,m1,m1,bytes,m1,refuses,m1,slow,garbled,m1,silent,m1,early,m1,fails,m1"
PROMPT_NAMES = "m1,refuses,m1,garbled,m1,early,fails"
FLIGHT, GATEWAY_MILLIS = 8, 3


# What is replayed: a file of lines, and the size of the device.
Input = namedtuple("Input", "file size")
PLAIN, TURNING = Input("lines", SIZE), Input("turning", 9500)


def machine_of(name, syncs="all", size=SIZE):
    return Machine(PROGRAM, ROOM / name, syncs, f"{CHANCE} {name}", size)


def moment_of(machine, command):
    """The number of the action at which a run is killed."""
    most, few = ACTIONS[command]
    return machine.chance.randint(1, few if machine.chance.randrange(6) == 0 else most)


def is_kept(machine):
    return machine.chance.randrange(100) < KEPT


def kill_all(machine, kills, kill_some):
    """Has the disk forget after this number of kills, of which a quarter at least come amid an append."""
    left = kills
    while left > 0:
        left -= kill_some(left)
    if machine.amid < kills / 4:
        raise Wrong(f"only {machine.amid} of {kills} kills came amid an append or a turn")
    if machine.size == TURNING.size and machine.turning < kills / 5:
        raise Wrong(f"only {machine.turning} of {kills} kills came amid a turn")


# Runs that replay.


def lines_of(given):
    return (ROOM / given.file).read_bytes().splitlines(keepends=True)


def marked(lines):
    return MARK + b"".join(line + MARK for line in lines)


def count_told(texts):
    """Of how many marked lines a text went out."""
    return sum(part != b"" for part in b"".join(texts).split(MARKED)[1:])


def kill_replays(name, syncs, kills, given=PLAIN):
    machine, lines = machine_of(name, syncs, given.size), lines_of(given)
    bodies = whole_replay(machine_of(f"{name}-whole", size=given.size), lines)
    kill_all(machine, kills, lambda most: replay_through(machine, lines, bodies, most))


def kill_turns(name, syncs, kills):
    kill_replays(name, syncs, kills, TURNING)


def whole_replay(machine, lines):
    """The bodies of all records that a run makes which isn't killed."""
    status, out, machine.done = machine.replay(b"".join(lines))
    refuse(status, [0])
    compare(out == b"".join(texts_of(machine.done)))
    bodies = [action.data[4:-1] for action in machine.done if is_body(action, machine.size)]
    machine.forget()
    return bodies


def moment_of_replay(machine, lines):
    """The number of the action at which a run is killed that takes these lines: on a device that turns half the time one of the next turn."""
    if machine.size == TURNING.size and machine.chance.randrange(2) == 0:
        copy = machine.room / "copy"
        shutil.copy(machine.device, copy)
        _, _, actions = machine.replay(marked(lines), device=copy)
        for number, action in enumerate(actions, 1):
            if is_half(action, machine.size):
                return number + machine.chance.randrange(TURN)
    return moment_of(machine, "replay")


def replay_through(machine, lines, bodies, most):
    """Replays all lines, in runs that are killed, and returns after how many kills the disk forgot. Each run begins with the first line
    that wasn't told, whose record may stand."""
    machine.format()
    told, forgot, seen = 0, 0, Seen()
    while told < len(lines) and forgot < most:
        status, _, actions = machine.replay(marked(lines[told:]), stop=moment_of_replay(machine, lines[told:]))
        refuse(status, [0, KILLED])
        machine.done += actions
        told += count_told(texts_of(actions))
        seen.add(texts_of(actions))
        if status == 0 or not is_kept(machine):
            machine.forget()
            machine.tells_again([line for line in lines[:told] if b'"ack"' not in line], seen)
            forgot += status == KILLED
    first, stood = stands_on(machine.device.read_bytes())
    if stood != bodies[first:first + len(stood)]:
        raise Lost("the records are others than those of a run that isn't killed")
    return forgot


# Runs that serve.

PORTS, PORTS_LOCK = set(), threading.Lock()


def some_port():
    """A port that nobody listens on, and that nobody else got here."""
    with PORTS_LOCK:
        while True:
            port = random.randrange(20000, 32000)
            with socket.socket() as probe:
                if port not in PORTS and probe.connect_ex(("127.0.0.1", port)) != 0:
                    PORTS.add(port)
                    return port


class Gateway:
    """A gateway (bench/gateway.c), and what it heard."""

    def __init__(self, room):
        self.port, self.heard = some_port(), room / "heard"

    def __enter__(self):
        with open(self.heard, "wb") as heard:
            self.process = start([ROOM / "gateway", str(self.port), str(GATEWAY_MILLIS)], stdout=heard)
        return self

    def __exit__(self, *_):
        self.process.kill()
        self.process.wait()

    def texts(self):
        return {line.partition(b" ")[2] for line in self.heard.read_bytes().splitlines()}


class Clients:
    """Clients that post purchases (bench/load.c) until one fails. Each purchase is an event."""

    def __init__(self, room, port, first, count, names):
        words = [str(word) for word in (port, first, count, FLIGHT, "c1", names)]
        self.out, self.figures = room / "replies", room / "figures"
        with open(self.out, "wb") as out, open(self.figures, "wb") as figures:
            self.process = start([ROOM / "load", *words], stdout=out, stderr=figures)

    def end(self, seconds):
        """How many purchases were begun, and what their responses said."""
        try:
            self.process.wait(timeout=seconds)
        except subprocess.TimeoutExpired:
            self.process.kill()
            self.process.wait()
        figures = self.figures.read_text().split()
        return int(figures[0]) if len(figures) == 8 else 0, {line.split(b" ", 2)[2] for line in self.out.read_bytes().splitlines()}


def purchase(event):
    """The line that the clients post as this event."""
    names = NAMES.split(",")
    form = '{"type":"authorization","token":"%s","card":"c1","currency":"USD","amount":"1.00","mcc":"5411","mid":"%s"}\n'
    return (form % (event, names[int(event[1:]) % len(names)])).encode()


def start_serving(machine, port, gateway, stop=0):
    return machine.start("serve", machine.device, str(port), str(gateway.port), "4294967295", stop=stop, stdin=subprocess.DEVNULL)


def serve(machine, gateway, first):
    """A run that serves until it is killed, and how many purchases were begun."""
    port = some_port()
    server = start_serving(machine, port, gateway, moment_of(machine, "serve"))
    clients = Clients(machine.room, port, first, 100000, NAMES)
    try:
        status = server.wait(timeout=SECONDS)
    finally:
        server.kill()
        actions = read_log(machine.log)
        # Clients that were never let in try for seconds.
        begun, bodies = clients.end(SECONDS if any(text.startswith(b"HTTP") for text in texts_of(actions)) else 0)
    refuse(status, [KILLED])
    compare(bodies <= set(map(said_by, texts_of(actions))))
    machine.done += actions
    return begun


def kill_serves(name, syncs, kills):
    machine = machine_of(name, syncs)
    kill_all(machine, kills, lambda most: serve_on(machine, min(most, SERVED)))


def serve_on(machine, most):
    """Serves on a new device, in runs that are killed, and returns after how many kills the disk forgot."""
    forgot, first, ever = 0, 0, Seen()
    set_up(machine, 400)
    with Gateway(machine.room) as gateway:
        while forgot < most:
            begun = serve(machine, gateway, first)
            # Those that weren't answered are posted once more, as a client would.
            first += max(0, begun - FLIGHT)
            ever.add(texts_of(machine.done))
            if not is_kept(machine):
                machine.forget()
                machine.tells_again([purchase(event) for event in ever.events], ever)
                forgot += 1
        compare(gateway.texts() <= set(ever.sent.values()))
    return forgot


def set_up(machine, timeout):
    machine.format()
    status, _, _ = machine.replay(SETTINGS % timeout)
    refuse(status, [0])
    machine.settle()


# The order of writes, syncs and texts.


def records_in_order(actions, size=SIZE):
    """The line of each record, by the place of its write, and how often the device turned. After a record come a sync, its gate and a sync,
    and after a half a sync, the selector that names it and a sync. No text goes out between."""
    letters = {"sync": "s", "text": "t", "write": "g"}
    story = "".join("b" if is_body(action, size) or is_half(action, size) else letters[action.kind] for action in actions)
    # A run that was killed may end amid an append.
    if not re.fullmatch("s(t|bsgs)*(b|bs|bsg)?", story):
        raise Lost(f"writes (b), gates (g), syncs (s) and texts (t) come in another order: {story}")
    lines, gate, turns = {}, None, 0
    for place in (match.start() for match in re.finditer("bsgs", story)):
        body, opened = actions[place], actions[place + 2]
        if is_half(body, size):
            if not is_selector(opened) or opened.data != bytes([body.number > HALVES_START]):
                raise Lost(f"it isn't the selector of the half that was written: {opened}")
            gate, turns = body.number + len(body.data) - 1, turns + 1
            continue
        if opened.data != b"\x01" or opened.number + 1 != body.number or gate not in (None, opened.number):
            raise Lost(f"it isn't the gate before the record that is opened: {opened}")
        gate = opened.number + len(body.data)
        lines[place] = record_line(body)
    return lines, turns


def said_key(line):
    """What a line's texts name it by: its event, or the call that it answers."""
    return line.get("token", line.get("call"))


def order_of_replay(name, given, least):
    """The record of each line stands before its first text, and the device turns so often at least."""
    lines = lines_of(given)
    status, _, actions = machine_of(name, size=given.size).replay(marked(lines))
    refuse(status, [0])
    records, turns = records_in_order(actions, given.size)
    if turns < least:
        raise Wrong(f"the device turned {turns} times")
    first = {said_key(record): place for place, record in reversed(records.items()) if said_key(record)}
    marks = [place for place, action in enumerate(actions) if action.data == MARKED]
    for line, begin, end in zip(lines, marks, marks[1:]):
        text = next(place for place in range(begin + 1, end + 1) if actions[place].kind == "text")
        if text == end or first.get(said_key(json.loads(line)), begin) > text or any(text < place < end for place in records):
            raise Lost(f"a text goes out before its record stands: {line}")
    if len(records) < len(lines) / 2:
        raise Wrong(f"only {len(records)} of {len(lines)} lines made a record")


def order_of_serve(name):
    """The record of an event stands before its request and its reply, and that of an answer before what it decides."""
    machine, count, port, calls = machine_of(name), 60, some_port(), {}
    set_up(machine, 60000)
    with Gateway(machine.room) as gateway, start_serving(machine, port, gateway) as server:
        try:
            begun, bodies = Clients(machine.room, port, 0, count, PROMPT_NAMES).end(SECONDS)
        finally:
            server.kill()
    actions = read_log(machine.log)
    places = {said_key(record): place for place, record in records_in_order(actions)[0].items()}
    for place, action in enumerate(actions):
        if action.kind == "text":
            told = json.loads(said_by(action.data))
            calls.update({told[key]: told["number"] for key in ("event", "token") if "number" in told})
            if any(places.get(need, place) >= place for need in needs_of(told, calls)):
                raise Lost(f"a text goes out before its record stands: {told}")
    if begun != count or len(bodies) != count or len(places) < 2 * count:
        raise Wrong(f"of {count} purchases {len(bodies)} were answered, by {len(places)} records")


def needs_of(told, calls):
    """The event and the call whose records have to stand before this text goes out."""
    if "notice" in told:
        return [calls[told["token"]]]
    if "number" in told or told["reply"] == "pending":
        return [told["event"]]
    return [told["event"], calls[told["event"]]]


# All of it.


def is_noticed(name, syncs, kill):
    """A disk whose syncs don't all count loses something."""
    try:
        kill(name, syncs, CONTROL_KILLS)
    except Lost:
        return
    raise Wrong(f"nothing was lost in {CONTROL_KILLS} kills, and these syncs count: {syncs}")


def checks():
    for part in range(1, PARTS + 1):
        yield kill_serves, f"serve-{part}", "all", KILLS // PARTS
        yield kill_replays, f"replay-{part}", "all", KILLS // PARTS
    yield kill_turns, "turns", "all", TURNING_KILLS
    yield order_of_replay, "replay-order", PLAIN, 0
    yield order_of_replay, "turns-order", TURNING, 10
    yield order_of_serve, "serve-order"
    for syncs in ("none", "gate", "body"):
        yield is_noticed, f"replay-{syncs}", syncs, kill_replays
        yield is_noticed, f"serve-{syncs}", syncs, kill_serves
    yield is_noticed, "turns-appends", "appends", kill_turns


def main():
    signal.signal(signal.SIGTERM, end_all)
    signal.signal(signal.SIGINT, end_all)
    with ThreadPoolExecutor(2 * PARTS) as pool:
        faults = {check[1]: pool.submit(*check) for check in checks()}
    faults = {name: future.exception() for name, future in faults.items() if future.exception()}
    for name, fault in faults.items():
        print(f"{name}, by chance {CHANCE}: {fault!r}", file=sys.stderr)
    sys.exit(len(faults) > 0)


if __name__ == "__main__":
    main()
