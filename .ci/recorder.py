#!/usr/bin/env python3
"""Stands before a reference gateway and keeps what it hears, so that its books outlast a kill.

    .ci/recorder.py PORT PROGRAM WORDS..

It listens on PORT of this machine and starts PROGRAM, a gateway whose first word is its own port. Each request goes on to the
gateway after a moment, on a connection of its own, and its response goes back after another one. If either side ends, the
other is closed. So are connections that last too long, and those that come when there are MOST_OPEN.

Signal USR1 has it kill the gateway, start it anew and let it hear all bodies again; what comes meanwhile waits. USR2 has it
hold the gateway up for a while. When it has done so, it writes a line.
"""
import asyncio
import json
import random
import re
import signal
import sys

# How many connections are open at a time, of those that come and of those to the gateway.
MOST_OPEN, MOST_ASKED = 800, 64
# In seconds: the longest moment before a request goes on and before its response does, how long the gateway is held up, and how
# long a connection may last.
MOMENT, WHILE, LONGEST = 0.15, 0.3, 10


def request(body):
    return b"POST /jit HTTP/1.1\r\nContent-Length: %d\r\n\r\n%s" % (len(body), body)


def groups(bodies):
    """Parts of this list, in order, none of which has two bodies for one token. The gateway may hear a part in any order."""
    part, tokens = [], set()
    for body in bodies:
        token = json.loads(body).get("token")
        if token in tokens or len(part) == MOST_ASKED:
            yield part
            part, tokens = [], set()
        part.append(body)
        if token:
            tokens.add(token)
    yield part


class Recorder:
    def __init__(self, program):
        self.program = program
        self.gateway = None
        self.heard = []
        self.open = 0
        self.room = asyncio.Semaphore(MOST_ASKED)
        self.is_up = asyncio.Event()
        self.is_over = asyncio.Event()
        self.fault = None
        # A task that nobody holds may be lost while it waits.
        self.tasks = set()

    async def answer(self, text):
        """What the gateway answers to these bytes: none if it ends first."""
        reader, writer = await asyncio.open_connection("127.0.0.1", int(self.program[1]))
        try:
            writer.write(text)
            return await reader.read()
        finally:
            writer.transport.abort()

    async def listening(self):
        """The gateway listens."""
        while self.gateway.returncode is None:
            try:
                _, writer = await asyncio.open_connection("127.0.0.1", int(self.program[1]))
                writer.transport.abort()
                return
            except ConnectionError:
                await asyncio.sleep(0.01)
        raise RuntimeError("the gateway has ended")

    async def start(self):
        """Starts the gateway, and lets it hear what was heard before."""
        self.gateway = await asyncio.create_subprocess_exec(*self.program)
        await self.listening()
        for bodies in groups(self.heard):
            await asyncio.gather(*(self.answer(request(body)) for body in bodies))
        self.is_up.set()

    async def stop(self):
        self.is_up.clear()
        self.gateway.kill()
        await self.gateway.wait()

    async def kill(self):
        await self.stop()
        await self.start()
        print("killed", flush=True)

    async def hold_up(self):
        self.gateway.send_signal(signal.SIGSTOP)
        await asyncio.sleep(WHILE)
        self.gateway.send_signal(signal.SIGCONT)
        print("held up", flush=True)

    async def ask(self, head, body):
        """The gateway's response to a request, whose body is kept first."""
        await asyncio.sleep(random.uniform(0, MOMENT))
        async with self.room:
            await self.is_up.wait()
            self.heard.append(body)
            response = await self.answer(head + body)
        await asyncio.sleep(random.uniform(0, MOMENT))
        return response

    async def pass_on(self, reader, writer):
        """Passes one request on, and its response, unless the side that asks ends before."""
        head = await reader.readuntil(b"\r\n\r\n")
        size = re.search(rb"\r\ncontent-length: *(\d+)\r\n", head, re.IGNORECASE)
        if not size:
            return
        body = await reader.readexactly(int(size[1]))
        ends = [asyncio.ensure_future(self.ask(head, body)), asyncio.ensure_future(reader.read(1))]
        try:
            await asyncio.wait(ends, return_when=asyncio.FIRST_COMPLETED)
            if ends[0].done():
                writer.write(ends[0].result())
                await writer.drain()
        finally:
            for end in ends:
                end.cancel()
            await asyncio.gather(*ends, return_exceptions=True)

    async def serve(self, reader, writer):
        self.open += 1
        try:
            if self.open <= MOST_OPEN:
                await asyncio.wait_for(self.pass_on(reader, writer), LONGEST)
        except (OSError, EOFError, asyncio.TimeoutError, asyncio.LimitOverrunError):
            pass
        finally:
            self.open -= 1
            writer.close()

    def begin(self, work):
        task = asyncio.ensure_future(work)
        self.tasks.add(task)
        task.add_done_callback(self.end)

    def end(self, task):
        self.tasks.discard(task)
        if not task.cancelled() and task.exception():
            self.fault = task.exception()
            self.is_over.set()


async def main(port, program):
    recorder = Recorder(program)
    await recorder.start()
    loop = asyncio.get_running_loop()
    loop.add_signal_handler(signal.SIGUSR1, lambda: recorder.begin(recorder.kill()))
    loop.add_signal_handler(signal.SIGUSR2, lambda: recorder.begin(recorder.hold_up()))
    loop.add_signal_handler(signal.SIGTERM, recorder.is_over.set)
    server = await asyncio.start_server(lambda *ends: recorder.begin(recorder.serve(*ends)), "127.0.0.1", port, backlog=1024)
    await recorder.is_over.wait()
    server.close()
    await recorder.stop()
    if recorder.fault:
        raise recorder.fault


if __name__ == "__main__":
    asyncio.run(main(int(sys.argv[1]), sys.argv[2:]))
