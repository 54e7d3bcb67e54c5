#!/usr/bin/env python3
"""What strangers, broken gateways and a wrong clock do to `issuer serve`, with a figure for each: hostile.py [OPTION].. ATTACK..

Each attack starts the program on a device of its own, on ports of this machine that nobody else has, and ends it. It prints a row
for each figure: what is measured, what is aimed at, what came, and a star if the aim is missed. With --check it prints only the
rows that miss their aim, and ends with status 1 if there is one.
"""
import argparse
import os
import random
import resource
import signal
import sys
import threading
import time

from outside import files, lasting_jump, restless_clock, short_jumps, slow_sync
from peers import CLIENT_SILENCE, Client, Gateway, Issuer, Row, crowd, ended, full_gateway, lost_of, plain_gateway, post, post_all
from peers import now, purchase, request, rest, seconds_of, until

# After how many seconds of silence a link to the gateway is closed, and by how much that may be late.
LINK_SILENCE, LATE = 120, 6
# The limit of file handles where they are few, and how many clients then come.
FEW_HANDLES, MANY_CLIENTS = 256, 400


def cost_of_events(issuer, count, seconds):
    """Milliseconds of a processor for an event, by this count of them one by one, or as many as come within this time."""
    events, before, limit = 0, issuer.processor(), time.monotonic() + seconds
    while events < count and time.monotonic() < limit:
        reply = post(issuer.port, purchase(f"e{events}")).reply()
        if reply != "approved":
            raise ValueError(f"an event was told {reply}")
        events += 1
    return (issuer.processor() - before) * 1000 / events


def idle_share(issuer, seconds):
    """Hundredths of a processor that it takes if nothing comes."""
    before = issuer.processor()
    time.sleep(seconds)
    return (issuer.processor() - before) * 100 / seconds


def beside(silent, events, seconds):
    """What letting in these silent clients takes of a processor, an event beside them, and idling beside them."""
    with Issuer() as issuer:
        issuer.serve()
        before = issuer.processor()
        clients = crowd(issuer.port, silent)
        until(lambda: issuer.connections() >= silent, 20, 0.2)
        time.sleep(0.5)
        let_in = issuer.processor() - before
        idle = idle_share(issuer, seconds)
        cost = cost_of_events(issuer, events, 10)
        if issuer.connections() < silent:
            raise ValueError("not all silent clients were let in, or some were let go too early")
        for client in clients:
            client.socket.close()
    return let_in, cost, idle


def crowd_rows(sizes, events, seconds):
    alone = None
    for silent in sizes:
        let_in, cost, idle = beside(silent, events, seconds)
        alone = alone or cost
        if silent > 0:
            yield Row(f"letting in {silent:,} silent clients takes, of a processor,", f"{let_in:.2f} s")
        is_met = cost <= 2 * alone
        yield Row(f"an event beside {silent:,} silent clients takes, of a processor,", f"{cost:.3f} ms", f"{2 * alone:.3f} ms", is_met)
        yield Row(f"idling beside {silent:,} silent clients takes, of a processor,", f"{idle:.1f} %", "2 %", idle < 2)


def crowds():
    """A wait costs what is ready, and not what is open."""
    most = resource.getrlimit(resource.RLIMIT_NOFILE)[0] - 100
    yield from crowd_rows(sorted({min(silent, most) for silent in (0, 4000, 10000)}), 2000, 5)


def small_crowd():
    """The same beside so few that any machine bears them."""
    yield from (row for row in crowd_rows((0, 800), 300, 1) if row.what.startswith("an event"))


def in_pieces(client, line):
    """Sends a request in some pieces, with pauses between them."""
    whole = request(line)
    cuts = sorted(random.sample(range(1, len(whole)), 4))
    for start, end in zip([0, *cuts], [*cuts, len(whole)]):
        time.sleep(random.random() / 100)
        client.since = time.monotonic()
        client.say(whole[start:end])


def pieces():
    """Long requests and answers that come in pieces are found as they come."""
    with Gateway(padding=12000) as gateway, Issuer(gateway=gateway.port) as issuer:
        issuer.serve()
        silent, took = crowd(issuer.port, 50), []
        for number in range(100):
            client = Client(issuer.port)
            in_pieces(client, purchase(f"e{number}", ("own", "asks")[number % 2], padding="x" * random.randrange(15000)))
            ended([client], 5)
            took.append(client.took if client.reply() == "approved" else 5)
        for client in silent:
            client.socket.close()
    longest = max(took) * 1000
    yield Row("after its last piece a request of up to 15,000 bytes is answered within", f"{longest:.0f} ms", "2000 ms", longest < 2000)


def silence():
    """A client that gives no byte for 30 seconds is closed, unless it waits for the gateway."""
    with Gateway(answers=False) as gateway, Issuer(gateway=gateway.port) as issuer:
        issuer.serve()
        whole, start = request(purchase("e1")), time.monotonic()
        silent, half, waits, slow = (Client(issuer.port, sent) for sent in (b"", whole[:50], request(purchase("e2", "asks")), b""))
        for at in range(4):
            slow.say(whole[at : at + 1])
            ended([silent, half], rest(start + (at + 1) * CLIENT_SILENCE / 4))
            time.sleep(rest(start + (at + 1) * CLIENT_SILENCE / 4))
        ended([silent, half], LATE)
        time.sleep(rest(start + CLIENT_SILENCE + 2))
        gateway.answers = True
        slow.say(whole[4:])
        ended([waits, slow], LATE)
    for what, client in ("says nothing", silent), ("stops within its request", half):
        is_met = client.took is not None and CLIENT_SILENCE - 1 < client.took
        yield Row(f"a client that {what} is closed after", seconds_of(client.took, CLIENT_SILENCE + LATE), f"{CLIENT_SILENCE} s", is_met)
    for what, client in ("waits for the gateway that long", waits), ("gives a byte every 8 seconds", slow):
        yield Row(f"a client that {what} is told", client.reply(), "approved", client.reply() == "approved")


def silent_links():
    """A link to the gateway is closed after 120 seconds of silence."""
    with Gateway(answers=False) as gateway, Issuer(500, gateway=gateway.port) as issuer:
        issuer.serve()
        post(issuer.port, purchase("e1", "asks"))
        limit = LINK_SILENCE + LATE
        until(lambda: len(gateway.silences) == 2, limit)
        for what, took in zip(("request", "notice"), [*gateway.silences, None, None]):
            is_met = took is not None and LINK_SILENCE - 1 < took
            yield Row(f"a link with an unanswered {what} is closed after", seconds_of(took, limit), f"{LINK_SILENCE} s", is_met)


def kept_links():
    """Silent clients don't lock out the calls of those that are in."""
    with Gateway() as gateway, Issuer(handles=FEW_HANDLES, gateway=gateway.port) as issuer:
        issuer.serve()
        early = crowd(issuer.port, 4)
        until(lambda: issuer.connections() == 4, 5)
        late = crowd(issuer.port, MANY_CLIENTS)
        time.sleep(1)
        for number, client in enumerate(early):
            client.say(request(purchase(f"e{number}", "asks")))
        ended(early, 5)
        for client in late:
            client.socket.close()
    lost, told = lost_of(early)
    what = f"of 4 calls of clients that were in before {MANY_CLIENTS} silent ones, with {FEW_HANDLES} handles, these are lost"
    yield Row(what, told, "0", lost == 0)


def kept_clients():
    """Calls that wait don't lock out other clients."""
    with Gateway(answers=False) as gateway, Issuer(handles=FEW_HANDLES, gateway=gateway.port) as issuer:
        issuer.serve()
        calls = []
        while gateway.asked == len(calls) and len(calls) < FEW_HANDLES:
            calls.append(Client(issuer.port, request(purchase(f"u{len(calls)}", "asks"))))
            until(lambda: gateway.asked == len(calls), 1)
        client = post(issuer.port, purchase("e1"), 5)
        for call in calls:
            call.socket.close()
    is_met = client.reply() == "approved" and client.took < 1
    what = f"beside as many open calls as {FEW_HANDLES} handles take, an event that asks nobody is answered after"
    yield Row(what, seconds_of(client.took, 5), "1 s", is_met)


def let_in_again():
    """With few handles a client is let in as silent ones are let go."""
    with Issuer(handles=FEW_HANDLES) as issuer:
        issuer.serve()
        silent, limit = crowd(issuer.port, MANY_CLIENTS), 2 * CLIENT_SILENCE + LATE
        client = post(issuer.port, purchase("e1"), limit)
        for other in silent:
            other.socket.close()
    is_met = client.took is not None and client.took < CLIENT_SILENCE + LATE
    what = f"a client after {MANY_CLIENTS} silent ones, with {FEW_HANDLES} handles, is answered after"
    yield Row(what, seconds_of(client.took, limit), f"{CLIENT_SILENCE} s", is_met)


def unanswered(issuer):
    """The gateway takes 125 calls and answers none of them in its second. It has as many voids then."""
    issuer.serve()
    post_all(issuer.port, [purchase(f"u{number}", "asks") for number in range(125)], 5)


def reached():
    """With few handles and 125 calls that the gateway didn't answer, later calls don't fail at once."""
    with Gateway(answers=False) as gateway, Issuer(1000, handles=FEW_HANDLES, gateway=gateway.port) as issuer:
        unanswered(issuer)
        before = gateway.asked
        clients = post_all(issuer.port, [purchase(f"e{number}", "asks") for number in range(4)], 3)
        count = gateway.asked - before
    failed = sum(client.reply() == "GATEWAY_CONNECTION" for client in clients)
    what = f"of 4 calls after 125 that weren't answered, with {FEW_HANDLES} handles, these fail by CONNECTION"
    yield Row(what, str(failed), "0", failed == 0)
    yield Row("and these reach the gateway", str(count))


def reached_again():
    """With few handles and 125 calls that the gateway didn't answer, later calls reach it as their links are closed."""
    with Gateway(answers=False) as gateway, Issuer(1000, handles=FEW_HANDLES, gateway=gateway.port) as issuer:
        unanswered(issuer)
        before, since, number = gateway.asked, time.monotonic(), 0
        while gateway.asked == before and time.monotonic() - since < LINK_SILENCE + LATE:
            post(issuer.port, purchase(f"e{number}", "asks"), 3)
            number += 1
            time.sleep(0.5)
        took = time.monotonic() - since if gateway.asked > before else None
    yield Row("the first that reaches it comes after", seconds_of(took, LINK_SILENCE + LATE), f"{LINK_SILENCE} s", took is not None)


def dials():
    """A hundred purchases at once, to a gateway that takes one connection at a time and has a short queue."""
    for stopped in 0, 0.5:
        with Issuer() as issuer, plain_gateway(issuer.gateway) as gateway:
            issuer.serve()
            if stopped:
                gateway.send_signal(signal.SIGSTOP)
                threading.Timer(stopped, gateway.send_signal, [signal.SIGCONT]).start()
            clients = post_all(issuer.port, [purchase(f"e{number}", "asks") for number in range(100)], 30)
        lost, told = lost_of(clients)
        which = f"a plain gateway, which is stopped for {stopped} s" if stopped else "a plain gateway"
        yield Row(f"of 100 purchases at once, to {which}, these are lost", told, "0", lost == 0)
        longest = max((client.took for client in clients if client.took is not None), default=None)
        yield Row("the last of them is answered after", seconds_of(longest, 30))


def all_sent(issuer, seconds):
    """Waits until nothing that waited is under way any more, for at most this time, and returns how many seconds that took."""
    start, quiet = time.monotonic(), 0
    # An event is answered once the run has begun to send.
    post(issuer.port, purchase(f"o{now()}"), seconds)
    while quiet < 10 and rest(start + seconds) > 0:
        time.sleep(0.05)
        quiet = quiet + 1 if issuer.connections() == 0 else 0
    return time.monotonic() - start


def calls_again():
    """A restart with 500 open calls, to a plain gateway."""
    lines = [purchase(f"e{number}", "asks", at=now()) for number in range(500)]
    with Issuer(lines=lines) as issuer, plain_gateway(issuer.gateway):
        issuer.serve()
        took = all_sent(issuer, 70)
        lost, told = lost_of([post(issuer.port, line) for line in lines])
    yield Row("of 500 open calls at a restart, to a plain gateway, these are lost", told, "0", lost == 0)
    yield Row("the last of them is closed after", f"{took:.1f} s")


def notices_again():
    """Restarts with 2,000 notices that wait, to a plain gateway."""
    lines = [purchase(f"e{number}", "asks") for number in range(2000)]
    lines += [f'{{"type":"answer","call":{number},"outcome":"CONNECTION"}}' for number in range(1, 2001)]
    with Issuer(lines=lines) as issuer, plain_gateway(issuer.gateway):
        left, starts, came = issuer.notices(), [], []
        while left > 0 and len(starts) < 4:
            issuer.serve()
            starts.append(all_sent(issuer, 130))
            issuer.stop()
            left = issuer.notices()
            came.append(2000 - left)
    yield Row("of 2,000 notices that wait, to a plain gateway, the first start brings", str(came[0]), "2000", came[0] == 2000)
    yield Row("after that start nothing more is under way after", f"{starts[0]:.1f} s")
    yield Row(f"after {len(starts)} starts it has brought", str(came[-1]))


def full_queue():
    """Others are served while the gateway takes no connections."""
    with full_gateway() as gateway, Issuer(3000, gateway=gateway) as issuer:
        issuer.serve()
        calls, took, limit = [], [], time.monotonic() + 5
        while time.monotonic() < limit:
            calls.append(Client(issuer.port, request(purchase(f"g{len(calls)}", "asks"))))
            for _ in range(5):
                took.append(post(issuer.port, purchase(f"e{len(took)}")).took)
                time.sleep(0.01)
        ended(calls, 10)
    longest = max(took) * 1000
    held_up = sum(one for one in took if one > 0.05) * 1000 / 5
    yield Row("while the gateway takes no connections, another client is answered within", f"{longest:.1f} ms", "50 ms", longest < 50)
    yield Row("of each second it is held up, in waits of more than 50 ms,", f"{held_up:.0f} ms", "0 ms", held_up == 0)
    yield Row(f"and of {len(calls)} calls these are lost", lost_of(calls)[1])


def end_of_run():
    """A run ends soon, though it has calls that don't go out."""
    lines = [purchase(f"e{number}", "asks", at=now()) for number in range(50)]
    with full_gateway() as gateway, Issuer(lines=lines, gateway=gateway) as issuer:
        start = time.monotonic()
        issuer.run("serve", issuer.device, str(issuer.port), str(gateway), "10")
        took = time.monotonic() - start
    yield Row("a run of 10 waits with 50 open calls to a gateway that takes no connections ends after", f"{took:.2f} s", "2 s", took < 2)


def pause():
    """Answers that came in time are taken in time, though the program was stopped meanwhile."""
    with Gateway(answers=False) as gateway, Issuer(1000, gateway=gateway.port) as issuer:
        issuer.serve()
        clients = [Client(issuer.port, request(purchase(f"e{number}", "asks"))) for number in range(10)]
        until(lambda: gateway.asked == 10, 5)
        issuer.process.send_signal(signal.SIGSTOP)
        gateway.answers = True
        until(lambda: gateway.answered == 10, 5)
        time.sleep(1.5)
        issuer.process.send_signal(signal.SIGCONT)
        ended(clients, 5)
    lost, told = lost_of(clients)
    yield Row("of 10 purchases whose answers came within a stop of 1.5 s, these are lost", told, "0", lost == 0)


ATTACKS = [
    crowds, small_crowd, pieces, silence, silent_links, kept_links, kept_clients, let_in_again, reached, reached_again, dials,
    calls_again, notices_again, full_queue, end_of_run, pause, slow_sync, short_jumps, restless_clock, lasting_jump, files,
]
NEED_OUTSIDE = [slow_sync, short_jumps, restless_clock, lasting_jump, files]
BY_NAME = {attack.__name__: attack for attack in ATTACKS}


def is_withstood(name, is_check):
    """Prints the rows of an attack, or in a check those that miss their aim, and returns whether none does."""
    if BY_NAME[name] in NEED_OUTSIDE and not Issuer.outside:
        print(f"{name} is left out: it needs the library of outside.c")
        return True
    rows = []
    for row in BY_NAME[name]():
        rows.append(row)
        if not is_check:
            print(f"{row.what:<96} {row.aim:>10} {row.figure:>18}{'' if row.is_met else ' *'}", flush=True)
        elif not row.is_met:
            print(f"{name}: {row.what} {row.figure}, and the aim is {row.aim}", flush=True)
    return all(row.is_met for row in rows)


def main():
    parser = argparse.ArgumentParser(description=__doc__)
    parser.add_argument("--issuer", default=Issuer.program, help="the program")
    parser.add_argument("--folder", default=Issuer.folder, help="where the devices are made")
    parser.add_argument("--outside", help="the library of outside.c")
    parser.add_argument("--check", action="store_true", help="print only what misses its aim")
    parser.add_argument("attacks", nargs="+", choices=list(BY_NAME), metavar="ATTACK", help=", ".join(BY_NAME))
    words = parser.parse_args()
    Issuer.program, Issuer.folder, Issuer.outside = os.path.abspath(words.issuer), words.folder, words.outside
    # Whoever is told to end lets the programs end that it started.
    signal.signal(signal.SIGTERM, lambda *_: sys.exit(1))
    are_withstood = [is_withstood(name, words.check) for name in words.attacks]
    return 1 if words.check and not all(are_withstood) else 0


if __name__ == "__main__":
    sys.exit(main())
