"""A machine with a device on a disk that forgets, for the check of that name (forgets.py).

The library of .ci/disk.c kills the program at some action, and leaves a log of what it did. From that the device is made anew as it may be
after the machine stopped: what a sync settled is as it was written, and what no sync settled has its old bytes, the new ones or any others.
"""
import json
import os
import random
import shutil
import subprocess
import sys
from collections import namedtuple

sys.path.insert(0, "examples/tools")
sys.dont_write_bytecode = True
from device_lines import FIRST_GATE, HALVES_START, Body, Journal, bodies_of  # noqa: E402

# A device in halves, each of which has room for all that a run makes, so that it never turns.
SIZE, INSTANCE = 1 << 18, 7
SECONDS = 60
# A line that gets this text alone marks where the texts of the line before it end.
MARK, MARKED = b"[]\n", b'{"fault":"JSON","reply":"form"}\n'

Action = namedtuple("Action", "kind number data")
SYNC = Action("sync", 0, b"")


class Lost(Exception):
    """The disk forgot what a text had told, or what the program can't do without."""


class Wrong(Exception):
    """Something else isn't as it should be."""


def compare(is_seen):
    """The library sees calls of the C library, and not how else a program may write."""
    if not is_seen:
        raise Wrong("the program writes by other calls than those that .ci/disk.c stands before")


CHILDREN = []


def start(words, **options):
    """A program that doesn't outlive this one if a signal ends it."""
    child = subprocess.Popen(words, **options)
    CHILDREN.append(child)
    return child


def end_all(*_):
    for child in CHILDREN:
        child.kill()
    os._exit(1)


def read_log(path):
    """What a run did. A text of which no byte was taken isn't among it, and one that was taken in parts is there once."""
    actions, rests = [], {}
    for line in path.read_text().splitlines() if path.exists() else []:
        kind, number, data = (line + "  ").split(" ")[:3]
        number, data = int(number or 0), bytes.fromhex(data)
        if kind != "took":
            is_rest = kind == "text" and rests.get(number) == data
            actions.append(Action("rest" if is_rest else kind, number, data))
        elif number > 0:
            rests[actions[-1].number] = actions[-1].data[number:]
        else:
            actions.pop()
    return [action for action in actions if action.kind != "rest"]


def texts_of(actions):
    return [action.data for action in actions if action.kind == "text"]


def said_by(text):
    """A line of output, or the body of a message over HTTP, without the line feed at its end."""
    return (text.partition(b"\r\n\r\n")[2] or text).rstrip(b"\n")


def is_half(action, size):
    """Whether a half is written, with an image: the first write of a turn."""
    return action.kind == "write" and action.number in (HALVES_START, HALVES_START + (size - HALVES_START) // 2)


def is_selector(action):
    """Whether the half that was written is named: the other write of a turn."""
    return action.kind == "write" and action.number == FIRST_GATE


def is_body(action, size):
    """Whether a record is written; the other writes are of gates, and of turns."""
    return action.kind == "write" and len(action.data) > 1 and not is_half(action, size)


def record_line(action):
    """The line of the record that is written: between its length and the closed gate after it."""
    return Body(action.data[4:-1]).line()


def stands_on(device):
    """How many records are in the image alone, and the bodies of those after it."""
    return Journal(device).first(), [device[start:end] for start, end in bodies_of(device)]


def torn(old, new, chance):
    """What a place may have that was written and not settled."""
    cut, noise = chance.randrange(len(new) + 1), chance.randbytes(len(new))
    each = bytes(chance.choice(three) for three in zip(old, new, noise))
    return chance.choice((old, new, noise, new[:cut] + old[cut:], old[:cut] + new[cut:], each))


def last_sync(actions):
    return max((place for place, action in enumerate(actions) if action.kind == "sync"), default=-1)


def image_of(device, actions, chance):
    """The device, as a machine that stops after these actions may leave it."""
    settled, image = last_sync(actions), bytearray(device)
    for place, action in enumerate(actions):
        if action.kind == "write":
            here = slice(action.number, action.number + len(action.data))
            image[here] = action.data if place < settled else torn(image[here], action.data, chance)
    return bytes(image)


class Seen:
    """What texts told of which a byte went out."""

    def __init__(self):
        self.events, self.replies, self.acknowledged, self.sent = set(), set(), set(), {}

    def add(self, texts):
        for said in map(said_by, texts):
            told = json.loads(said)
            if "event" in told:
                self.events.add(told["event"])
            if "method" in told:
                self.add_sent(said, *((name, told[name]) for name in ("number", "notice") if name in told))
            elif told["reply"] in ("done", "approved", "declined"):
                self.replies.add(said)
            elif told["reply"] == "acked":
                self.acknowledged.add(told["notice"])

    def add_sent(self, said, key):
        """A request or a notice to the gateway."""
        if self.sent.setdefault(key, said) != said:
            raise Lost(f"it has two texts: {said}")

    def notices(self):
        return [number for name, number in self.sent if name == "notice"]

    def check_notices(self, out):
        """What acknowledgements of all these notices are told now."""
        told = {line["notice"]: line["reply"] for line in map(json.loads, out.splitlines()) if "notice" in line}
        for notice in self.notices():
            if told[notice] not in (["already"] if notice in self.acknowledged else ["already", "acked"]):
                raise Lost(f"notice {notice} is {told[notice]}")


class Machine:
    """A machine with its device, the library's log, and what was done since the disk forgot last."""

    def __init__(self, program, room, syncs, chance, size=SIZE):
        self.program, self.room, self.library, self.size = program, room, room.parent / "disk.so", size
        self.syncs, self.chance, self.amid, self.turning = syncs, random.Random(chance), 0, 0
        self.device, self.log = room / "device", room / "log"
        room.mkdir()
        self.format()

    def format(self):
        self.device.unlink(missing_ok=True)
        subprocess.run([self.program, "format", self.device, str(self.size), str(INSTANCE)], check=True, timeout=SECONDS)
        self.settle()

    def settle(self):
        """What the device has now lasts."""
        self.lasting, self.done = self.device.read_bytes(), []

    def forget(self):
        """The machine stops, amid an append or a turn if something isn't settled."""
        compare(self.device.read_bytes() == image_of(self.lasting, self.done + [SYNC], self.chance))
        unsettled = [action for action in self.done[last_sync(self.done) + 1:] if action.kind == "write"]
        self.amid += unsettled != []
        self.turning += any(is_half(action, self.size) or is_selector(action) for action in unsettled)
        self.device.write_bytes(image_of(self.lasting, self.done, self.chance))
        self.settle()

    def start(self, command, device, *words, stop=0, **streams):
        """The program, killed at its action of this number. None is its action 0."""
        self.log.unlink(missing_ok=True)
        disk = {"DISK": str(device), "DISK_LOG": str(self.log), "DISK_SYNCS": self.syncs, "DISK_STOP": str(stop)}
        environment = {**os.environ, **disk, "LD_PRELOAD": str(self.library)}
        return start([self.program, command, device, *words], env=environment, **streams)

    def replay(self, lines, stop=0, device=None):
        """How a replay ended, what it wrote and what it did."""
        pipes = {"stdin": subprocess.PIPE, "stdout": subprocess.PIPE, "stderr": subprocess.DEVNULL}
        with self.start("replay", device or self.device, stop=stop, **pipes) as process:
            out, _ = process.communicate(lines, timeout=SECONDS)
        actions = read_log(self.log)
        compare(b"".join(texts_of(actions)).startswith(out))
        return process.returncode, out, actions

    def tells_again(self, lines, seen):
        """A copy of the device opens, has a record of each of these lines and of each notice, and tells the same replies."""
        copy = self.room / "copy"
        shutil.copy(self.device, copy)
        acknowledgements = b"".join(b'{"type":"ack","notice":%d}\n' % notice for notice in seen.notices())
        status, out, actions = self.replay(b"".join(lines) + MARK + acknowledgements, device=copy)
        refuse(status, [0])
        marked = next(place for place, action in enumerate(actions) if action.data == MARKED)
        for action in (action for action in actions[:marked] if is_body(action, self.size)):
            raise Lost(f"a record of which a byte went out is made again: {record_line(action)}")
        missing = seen.replies - set(out.splitlines())
        if missing:
            raise Lost(f"a reply isn't told again: {missing.pop()}")
        seen.check_notices(out.partition(MARKED)[2])
        seen.add(texts_of(actions[:marked]))


def refuse(status, good):
    """A run that ends otherwise than it should lost something if it refuses its device."""
    if status == 4:
        raise Lost("the device isn't opened")
    if status not in good:
        raise Wrong(f"a run ended with {status}")
