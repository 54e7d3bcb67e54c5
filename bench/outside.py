"""The attacks of `hostile.py` that need the library of outside.c: a sync that is slow, a clock that jumps, and the syncs of a folder."""
import fcntl
import subprocess
import time

from peers import CLIENT_SILENCE, Client, Gateway, Issuer, Row, ended, post, purchase, request
from peers import rest, seconds_of, until

# A jump of the clock, in milliseconds, and within how many seconds the program believes one that lasts.
JUMP, BELIEVED = 30 * 86400 * 1000, 15


def slow_sync():
    """A client whose request came within a long sync hasn't been silent."""
    with Issuer() as issuer:
        issuer.serve(is_watched=True)
        slow, client = Client(issuer.port), Client(issuer.port)
        until(lambda: issuer.connections() == 2, 5)
        issuer.slow_down(1000 * CLIENT_SILENCE + 1000)
        slow.say(request(purchase("e1")))
        time.sleep(1)
        issuer.slow_down(0)
        client.say(request(purchase("e2")))
        ended([slow, client], CLIENT_SILENCE + 2)
    what = f"a client whose request came within a sync of {CLIENT_SILENCE + 1} s is told"
    yield Row(what, client.reply(), "approved", client.reply() == "approved")


def jump(issuer, gateway, seconds, millis):
    """Clients that post before a jump of the clock, within it and after it."""
    before = Client(issuer.port, request(purchase("e2", "asks")))
    until(lambda: gateway.asked == 1, 5)
    back = time.monotonic() + seconds
    issuer.move_clock(millis)
    within = post(issuer.port, '{"type":"user","token":"e3","user":"u2"}', seconds)
    time.sleep(rest(back))
    issuer.move_clock(0)
    after = Client(issuer.port, request(purchase("e4", "asks")))
    ended([before, after], 4)
    return before, within, after


def short_jumps():
    """A jump of the clock that doesn't last expires no hold and moves no deadline."""
    for seconds, millis, what in (0.08, JUMP, "30 days"), (1, JUMP, "30 days"), (0.08, 600000, "10 minutes"):
        with Gateway(answers=False) as gateway, Issuer(1500, gateway=gateway.port) as issuer:
            issuer.serve(is_watched=True)
            post(issuer.port, purchase("e1", amount="7.00"))
            before, within, after = jump(issuer, gateway, seconds, millis)
            issuer.stop()
            held = issuer.held()
        name = f"a jump of {what} for {seconds} s:"
        yield Row(f"{name} what was held before it is then", held, "7.00", held == "7.00")
        if seconds >= 1:
            yield Row(f"{name} a client within it is answered after", seconds_of(within.took, seconds), "1 s", within.took is not None)
        for when, client in ("before", before), ("after", after):
            is_met = client.reply() == "GATEWAY_TIMEOUT" and 1.4 < client.took
            yield Row(f"{name} a call from {when} it, with 1.5 s to answer, ends after", seconds_of(client.took, 4), "1.5 s", is_met)


def restless(least):
    """What is held after a clock was 30 days ahead most of the time, and else by this many milliseconds."""
    with Issuer() as issuer:
        issuer.serve(is_watched=True)
        post(issuer.port, purchase("e1", amount="7.00"))
        limit = time.monotonic() + BELIEVED
        while time.monotonic() < limit:
            issuer.move_clock(JUMP)
            time.sleep(0.7)
            issuer.move_clock(least)
            time.sleep(0.2)
        issuer.stop()
        return issuer.held()


def restless_clock():
    """A clock that is far ahead again and again is not believed, though it stays a little ahead in between."""
    for least in 0, 1000:
        held = restless(least)
        what = f"a clock that is 30 days ahead for 0.7 s of each 0.9 s, else {least / 1000:g} s: what was held is then"
        yield Row(what, held, "7.00", held == "7.00")


def lasting_jump():
    """A jump of the clock that lasts is believed, and not at once."""
    with Gateway(answers=False) as gateway, Issuer(60000, gateway=gateway.port) as issuer:
        issuer.serve(is_watched=True)
        client = Client(issuer.port, request(purchase("e1", "asks")))
        until(lambda: gateway.asked == 1, 5)
        issuer.move_clock(JUMP)
        client.since = time.monotonic()
        ended([client], BELIEVED)
    is_met = client.reply() == "GATEWAY_TIMEOUT" and client.took > 1.1
    yield Row("a clock that stays 30 days ahead is believed after", seconds_of(client.took, BELIEVED), f"2 to {BELIEVED} s", is_met)


def formatted(issuer, name):
    """The status of formatting this file, and how many bytes it then has."""
    status = subprocess.run([issuer.program, "format", name, "1000", "7"], stderr=subprocess.DEVNULL).returncode
    return status, name.stat().st_size


def files():
    """Formatting a file that is there makes its name last, and one of no bytes is made again."""
    with Issuer() as issuer:
        issuer.run("format", issuer.device, "64000000", "7", env=issuer.watched())
        count = len(issuer.synced.read_bytes())
        yield Row("formatting a file that is there syncs its folder", f"{count} times", "once", count > 0)
        empty = issuer.room / "empty"
        with open(empty, "wb") as other:
            fcntl.flock(other, fcntl.LOCK_EX)
            status, size = formatted(issuer, empty)
        what = "formatting a file of 0 bytes that another program holds ends with status"
        yield Row(what, str(status), "4", (status, size) == (4, 0))
        status, size = formatted(issuer, empty)
        what = "formatting a file of 0 bytes, as a killed format leaves it, ends with status"
        yield Row(what, str(status), "0", (status, size) == (0, 1000))
