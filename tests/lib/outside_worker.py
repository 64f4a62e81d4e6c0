"""A worker of another hand, for `tests/gate/outside_workers`: it keeps all that it says,
and does what a worker may do."""

import asyncio
import contextlib
import os
import random
import tempfile
import time

import wire

MOST_SECONDS = 120
LONGEST_MESSAGE = 1_048_576

# What the master tells on standard error.
REMARKS = tempfile.TemporaryFile("w+")


class Worker:
    """A worker that keeps what it said, by command and name of a log."""

    def __init__(self, place, address):
        self.place, self.name, self.password, self.address = place, f"w{place}", f"secret {place}", address
        self.session = os.urandom(16).hex()
        self.socket, self.gate = None, asyncio.Lock()
        self.said, self.whole, self.lost = {}, set(), set()
        self.logins, self.cuts, self.doubled = [], 0, 0
        self.forget()

    def forget(self):
        """A new session begins."""
        self.number, self.unanswered, self.answers, self.heard, self.tasks = 0, {}, {}, set(), {}

    async def live(self):
        while True:
            try:
                await self.connect()
            except (wire.Closed, asyncio.TimeoutError, OSError):
                pass
            except AssertionError as fault:
                fail(f"{self.name}: {fault!r}")
            self.socket = None
            await asyncio.sleep(0.02)

    async def connect(self):
        link = await wire.connected(self.address)
        try:
            answer = await log_in(link, self, self.password)
            assert (answer["seq_number"], answer["op"]) == (0, "response"), answer
            if answer["result"] in ("already up", "busy"):
                return
            assert answer["result"] in ("new", "resumed"), answer
            self.logins.append(answer["result"])
            async with self.gate:
                if answer["result"] == "new":
                    self.drop()
                for data in list(self.unanswered.values()):
                    await link.send(data)
                self.socket = link
            while True:
                await self.take(link, wire.unpacked(await link.recv()))
        finally:
            link.abort()

    def drop(self):
        """What a session that was given up leaves: the logs of its commands stay as they are."""
        for command, task in self.tasks.items():
            task.cancel()
            if command not in self.whole:
                self.lost.add(command)
        self.forget()

    async def take(self, link, message):
        number = message["seq_number"]
        if message["op"] == "response":
            self.unanswered.pop(number, None)
            answer = (message["result"], message.get("is_exception", False))
            assert self.answers.setdefault(number, answer) == answer, (number, answer, self.answers[number])
            return
        await link.send(wire.packed({"seq_number": number, "op": "response", "result": None}))
        if number in self.heard:
            return
        self.heard.add(number)
        if message["op"] == "start_command":
            assert message["command_name"] == "shell", message
            command = int(message["command_id"])
            (script, once) = message["args"]["command"]
            assert once == "once" and command not in self.said, message
            self.said[command] = {}
            self.tasks[command] = asyncio.ensure_future(self.run(command, script))

    async def run(self, command, script):
        try:
            await getattr(self, script)(command)
        except asyncio.CancelledError:
            raise
        except BaseException as fault:
            fail(f"{self.name}, command {command}, {script}: {fault!r}")

    async def send(self, data, pieces=None):
        """Sends what can be sent now; what is lost is sent again after the next login."""
        async with self.gate:
            if self.socket is None:
                return
            with contextlib.suppress(wire.Closed):  # the next login is sent it again
                await (self.socket.send(data) if pieces is None else self.socket.send_pieces(pieces))

    async def request(self, keys, pieces=1):
        number, self.number = self.number, self.number + 1
        data = wire.packed({"seq_number": number, **keys})
        self.unanswered[number] = data
        await self.send(data, None if pieces == 1 else in_pieces(data, pieces))
        return number

    async def say(self, command, text, item="stdout", pieces=1):
        """An update, kept as it has to be in the log."""
        letter = {"stdout": "o", "stderr": "e", "header": "h"}[item]
        lines = text[:-1].split("\n") if text.endswith("\n") else text.split("\n")
        self.said[command].setdefault("stdio", []).extend(letter + line for line in lines)
        return await self.request({"op": "update", "command_id": str(command), "args": [[item, text]]}, pieces)

    async def poke(self):
        """A ping, and a pong that nobody asked for."""
        with contextlib.suppress(wire.Closed):
            if self.socket is not None:
                await self.socket.send(b"", wire.PING)
                await self.socket.send(b"unasked", wire.PONG)

    async def answered(self, number):
        """The answer to a request."""
        end = time.monotonic() + MOST_SECONDS
        while number not in self.answers:
            assert time.monotonic() < end, f"request {number} had no answer"
            await asyncio.sleep(0.005)
        return self.answers[number]

    async def finish(self, command, code=0):
        await self.request({"op": "update", "command_id": str(command), "args": [["rc", code]]})
        self.whole.add(command)
        await self.answered(await self.request({"op": "complete", "command_id": str(command), "args": None}))

    # The scripts, by the first word of a step's command.

    async def plain(self, command):
        await self.say(command, f"begins {command}\n", "header")
        for place in range(40):
            await self.say(command, f"line {place} of {command}\n", random.choice(["stdout", "stderr"]))
            await asyncio.sleep(0.005)
        await self.finish(command)

    async def many(self, command):
        """More than the lane's queue holds, as fast as it goes, several lines at once."""
        for place in range(0, 3000, 3):
            await self.say(command, "".join(f"{place + more} of {command}\n" for more in range(3)))
        await self.finish(command)

    async def fails(self, command):
        await self.say(command, "fails\n")
        await self.finish(command, 3)

    async def repeats(self, command):
        """Requests once more, and others under numbers that were had: answered as the first, and without effect."""
        for place in range(60):
            number = await self.say(command, f"once {place} of {command}\n")
            self.doubled += 1
            if place % 3 == 0:
                other = {"op": "update", "command_id": str(command), "args": [["stdout", "never\n"]]}
            elif place % 3 == 1:
                other = {"op": "complete", "command_id": str(command), "args": "never"}
            else:
                other = {"op": "update", "command_id": "77"}
            await self.send(wire.packed({"seq_number": random.choice([number, max(0, number - 5)]), **other}))
        await self.finish(command)

    async def odd(self, command):
        """Bad arguments, other commands, unknown operations, texts, pings and pongs."""
        asked = [
            ({"op": "update", "command_id": str(command)}, "bad arguments"),
            ({"op": "update", "command_id": "00", "args": []}, "bad arguments"),
            ({"op": "update", "command_id": str(command), "args": [["stdout", 7]]}, "bad arguments"),
            ({"op": "update", "command_id": "4000", "args": [["stdout", "x"]]}, "no such command"),
            ({"op": "complete", "command_id": "4000", "args": None}, "no such command"),
            ({"op": "upload"}, "no such operation"),
            ({"op": "shutdown"}, "no such operation"),
            ({"op": "auth", "username": self.name, "password": "x"}, "already authenticated"),
        ]
        for place, (keys, text) in enumerate(asked):
            number = await self.request(keys)
            await self.say(command, f"odd {place} of {command}\n")
            await self.send(f"a text {place}")
            await self.poke()
            answer = await self.answered(number)
            assert answer == (text, True), (keys, answer)
        await self.finish(command)

    async def named(self, command):
        """A log of another name beside the first."""
        for place in range(20):
            line = f"named {place} of {command}"
            self.said[command].setdefault("build.log", []).append("o" + line)
            items = [["log", ["build.log", line + "\n"]]]
            await self.request({"op": "update", "command_id": str(command), "args": items})
        await self.say(command, "unnamed\n")
        await self.finish(command)

    async def fragments(self, command):
        """Messages in pieces, some of them empty, with pings between; the longest that may be among them."""
        for place in range(30):
            await self.say(command, f"piece {place} of {command}\n", pieces=random.randrange(2, 9))
        head = len(wire.packed({"seq_number": self.number, "op": "update", "command_id": str(command), "args": [["stdout", "x" * 70_000]]})) - 70_000
        number = await self.say(command, "x" * (LONGEST_MESSAGE - head - 1) + "\n", pieces=40)
        assert await self.answered(number) == (None, False)
        await self.finish(command)

    async def cut(self, command):
        """The connection is cut in mid-output, and the session resumed."""
        for place in range(80):
            await self.say(command, f"over a cut {place} of {command}\n")
            if place % 20 == 10:
                await self.abort()
            await asyncio.sleep(random.random() / 100)
        await self.finish(command)

    async def abort(self):
        async with self.gate:
            if self.socket is not None:
                self.cuts += 1
                self.socket.abort()

    async def is_given_up(self, command):
        """Waits for the end of the session, which is the end of this script."""
        await asyncio.sleep(MOST_SECONDS)
        fail(f"{self.name}, command {command}: the session was not given up")

    async def oversized(self, command):
        await self.say(command, f"before {command}\n")
        await self.send(b"\xc6" + LONGEST_MESSAGE.to_bytes(4, "big") + bytes(LONGEST_MESSAGE))
        await self.is_given_up(command)

    async def fragments_too_long(self, command):
        await self.say(command, f"before {command}\n")
        await self.send(None, in_pieces(bytes(LONGEST_MESSAGE + 1), 20))
        await self.is_given_up(command)

    async def garbage(self, command):
        await self.say(command, f"before {command}\n")
        await self.send(random.choice([b"\xc1", b"\x91\xc0", b"\xc0\xc0", b"", b"\x81\xa2op\xa1x"]))
        await self.is_given_up(command)


def in_pieces(data, count):
    """The bytes in so many pieces that end anywhere."""
    places = sorted(random.randrange(len(data) + 1) for _ in range(count - 1))
    return [data[start:end] for start, end in zip([0] + places, places + [len(data)])]


async def log_in(link, worker, password):
    """Logs in as this worker; answers what is answered."""
    login = {"seq_number": 0, "op": "auth", "username": worker.name, "password": password, "session": worker.session}
    await link.send(wire.packed(login))
    return wire.unpacked(await asyncio.wait_for(link.recv(), MOST_SECONDS))


def fail(why):
    print(f"FAILED: {why}", flush=True)
    REMARKS.seek(0)
    print("the last that the master told:", *REMARKS.read().splitlines()[-20:], sep="\n    ", flush=True)
    os._exit(1)
