"""The strangers of `tests/chaos/chaos`: connections and logins that aren't those of its workers."""

import asyncio
import contextlib
import itertools
import os
import resource
import struct
import time

import wire
from chaos_builds import LINKED, STRANGER
from chaos_parts import CHANCE, FIGURES, fault
from wire import reset

# A connection that doesn't log in is closed after so many seconds, as is promised;
# a busy machine has some more.
SECONDS_TO_LOG_IN = 10
SLACK = 15
SECONDS_TO_CONNECT = 10
# A bound for a master that doesn't tell that it has no descriptor left.
SECONDS_TO_PAUSE = 20
TOO_MANY = "connection refused, too many connections"
# A second login is answered within so many seconds: a bound for a hang. It is far below the 60
# after which a connection that is silent ends by itself.
SECONDS_TO_ANSWER = 20
# It takes a connection for dead that is silent for one and a half;
# a busy machine may have a part of that.
LEAST_SECONDS_OF_SILENCE = 1
REQUEST = wire.request_head("master")
FRAME_OF_A_MILLION = bytes([0x82, 0xFF]) + struct.pack(">Q", 1_000_000) + bytes(4)


def costly_login():
    """A message of nearly the most bytes, whose tree takes the most memory: maps of one pair."""
    pairs = b"\x81\xc0" * 29 + b"\x81\xc0\xc0"
    count = 1_000_000 // len(pairs)
    return b"\xdd" + struct.pack(">I", count) + pairs * count


async def end_tasks(tasks):
    """Ends all. A wait with a limit that just met its end passes over a cancel, so it is tried again."""
    while going := [task for task in tasks if not task.done()]:
        for task in going:
            task.cancel()
        await asyncio.wait(going, timeout=1)


class Strangers:
    """What strangers do at both ports of a master."""

    def __init__(self, master, workers, web, builds):
        self.master, self.workers_address, self.web, self.builds = master, workers, web, builds
        self.tasks, self.descriptors = [], asyncio.Lock()

        # Whether strangers hold all places before a login.
        self.is_full = False

    def later(self, act):
        self.tasks.append(asyncio.ensure_future(act))
        return self.tasks[-1]

    @staticmethod
    def chosen(workers):
        """One of these workers; rather one whose way nobody has calm just now,
        which may be for long."""
        return CHANCE.choice([worker for worker in workers if not worker.way.calm.locked()] or workers)

    async def connected(self):
        """A WebSocket to the master. A connect that meets a full queue would be tried again for minutes."""
        FIGURES["connects of strangers"] += 1
        return await asyncio.wait_for(wire.connected("%s:%d" % self.workers_address), SECONDS_TO_CONNECT)

    async def opened_one(self, address):
        """A connection to the workers' port, or the web's, of which nothing is said yet."""
        FIGURES["connects of strangers"] += address == self.workers_address
        return await asyncio.wait_for(asyncio.open_connection(*address), SECONDS_TO_CONNECT)

    async def joined(self, name, password):
        """A connection that said a login. The answer isn't read."""
        link = await self.connected()
        login = {"seq_number": 0, "op": "auth", "username": name, "password": password, "session": os.urandom(8).hex()}
        await link.send(wire.packed(login))
        return link

    async def log_in(self, name, password):
        """Logs in by hand, and goes away. What was answered, empty where nothing was, and within how many seconds."""
        link, begun = None, time.monotonic()
        try:
            link = await self.joined(name, password)
            begun = time.monotonic()
            answer = wire.unpacked(await asyncio.wait_for(link.recv(), SECONDS_TO_LOG_IN + SLACK))["result"]
            return answer, time.monotonic() - begun
        except (OSError, wire.Closed):
            FIGURES["logins without an answer"] += 1
            return "", time.monotonic() - begun
        finally:
            if link is not None:
                reset(link.writer)

    async def wrong_login(self):
        name, password = CHANCE.choice([("w0", "secret"), ("w0", ""), ("w9", "secret 0"), ("", ""), ("w1", "secret 0")])
        answer, _ = await self.log_in(name, password)
        if answer not in ("", "bad login"):
            fault(f"a wrong login was answered {answer}")
        FIGURES["wrong logins"] += 1

    async def second_login(self):
        """A worker's name once more. While the first connection lives it is refused, and the first goes on. Only one whose
        process was stopped for long may be taken for dead. Its session is then given up, and so is this one's, once it comes
        back."""
        worker = self.chosen(LINKED)
        async with worker.way.calm, self.builds.heard:
            await asyncio.sleep(0.3)
            ride, begun = worker.way.ride(), time.monotonic()
            # One that has only connected hasn't its lane yet, and a cut may not have been told.
            is_up = worker.is_up and ride is not None and ride.is_logged_in
            if worker.is_faithful and not is_up:
                return
            answer, seconds = await self.log_in(worker.name, worker.password)
            still = worker.stopped(begun, time.monotonic()) + self.builds.lags.within(begun, time.monotonic())
            # A worker that was killed may have ended its connection before.
            lived = is_up and ride.ended_first is not ride.near
            await asyncio.sleep(0.3)
        FIGURES["second logins"] += 1
        if seconds > SECONDS_TO_ANSWER:
            fault(f"a second login of {worker.name} was answered {answer} after {seconds:.1f} s")
        if answer == "new":
            worker.taken_over += 2
            FIGURES["stopped workers that were taken over"] += lived
            if lived and still < LEAST_SECONDS_OF_SILENCE:
                fault(f"a second login took {worker.name} over within {seconds:.1f} s, of which it stood still for {still:.1f}")
        elif answer not in ("", "already up", "busy"):
            fault(f"a second login was answered {answer}")

    async def trickle(self):
        """A stranger who has logged in sends a byte each 4 ms, of a message without an end. Its name goes on to be answered."""
        link = await self.joined(STRANGER.name, STRANGER.password)
        try:
            answer = wire.unpacked(await asyncio.wait_for(link.recv(), SECONDS_TO_LOG_IN + SLACK))["result"]
            if answer not in ("new", True):
                return
            FIGURES["workers that trickle"] += 1
            link.writer.write(FRAME_OF_A_MILLION)
            gaps = []
            trickling = asyncio.ensure_future(self.bytes_without_end(link.writer, gaps))
            await asyncio.sleep(CHANCE.uniform(0.5, 2))
            async with self.builds.heard:
                answer, seconds = await self.log_in(STRANGER.name, STRANGER.password)
            is_well = not trickling.done() and answer in ("", "already up") and seconds <= SECONDS_TO_ANSWER
            # On a machine that stood still it was silent, and taken for dead.
            if not is_well and max(gaps, default=0) < LEAST_SECONDS_OF_SILENCE:
                fault(f"beside a worker that trickles a login was answered {answer} after {seconds:.1f} s")
            await asyncio.sleep(CHANCE.uniform(0, 2))
            trickling.cancel()
        except (wire.Closed, asyncio.IncompleteReadError):
            FIGURES["logins without an answer"] += 1
        finally:
            reset(link.writer)

    @staticmethod
    async def bytes_without_end(writer, gaps):
        """Sends them, and notes how many seconds lay between two."""
        while not writer.is_closing():
            writer.write(b"\0")
            begun = time.monotonic()
            await asyncio.sleep(0.004)
            gaps.append(time.monotonic() - begun)

    async def long_login(self):
        """A login of a million bytes: one whose tree is large is refused, and one of a long name is a wrong one."""
        link = await self.connected()
        is_costly = CHANCE.random() < 0.7
        login = {"seq_number": 0, "op": "auth", "username": "n" * 900_000, "password": "p"}
        answer = ""
        try:
            await link.send(costly_login() if is_costly else wire.packed(login))
            FIGURES["logins of 1 MiB"] += 1
            answer = wire.unpacked(await asyncio.wait_for(link.recv(), SECONDS_TO_LOG_IN + SLACK))["result"]
        except (OSError, wire.Closed):
            pass
        finally:
            reset(link.writer)
        if answer not in ("", "bad login") or is_costly and answer:
            fault(f"a login of a million bytes was answered {answer}")

    async def silent(self):
        """A connection that says nothing is closed by the master in time."""
        reader, writer = await self.opened_one(self.workers_address)
        self.later(self.is_closed(reader, writer, "silent", b""))

    async def slow(self):
        """So is one that says its handshake slowly."""
        reader, writer = await self.opened_one(self.workers_address)
        self.later(self.is_closed(reader, writer, "slow", REQUEST))

    async def is_closed(self, reader, writer, kind, data):
        begun = time.monotonic()
        FIGURES[f"{kind} connections"] += 1
        try:
            while time.monotonic() - begun < SECONDS_TO_LOG_IN + SLACK:
                writer.write(data[:1])
                data = data[1:]
                try:
                    return await asyncio.wait_for(reader.read(1), 0.2)
                except asyncio.TimeoutError:
                    pass
                except OSError:
                    return
            fault(f"a {kind} connection was not closed within {SECONDS_TO_LOG_IN + SLACK} seconds")
        finally:
            reset(writer)

    async def nonsense(self):
        _, writer = await self.opened_one(CHANCE.choice([self.workers_address, self.web]))
        FIGURES["connections with nonsense"] += 1
        start = CHANCE.choice([b"", REQUEST, REQUEST + b"\x82\x84" + bytes(4), b"GET / HTTP/1.1\r\n"])
        writer.write(start + CHANCE.randbytes(CHANCE.randrange(3_000)))
        await asyncio.sleep(CHANCE.random())
        reset(writer)

    @contextlib.asynccontextmanager
    async def opened(self, addresses):
        """Opens silent connections, and resets them in the end."""
        writers = []
        try:
            for address in addresses:
                _, writer = await self.opened_one(address)
                writers.append(writer)
            yield
        finally:
            for writer in writers:
                reset(writer)

    def limit_descriptors(self, most):
        """Has the master open no descriptor more, whichever of those below the limit are free."""
        used = {int(name) for name in os.listdir(f"/proc/{self.master.pid}/fd")}
        limit = next(number for number in itertools.count() if number not in used)
        resource.prlimit(self.master.pid, resource.RLIMIT_NOFILE, (limit, most))

    async def fill(self):
        """The master's descriptors run out, by silent connections on both ports, until it tells so."""
        async with self.descriptors:
            _, most = resource.prlimit(self.master.pid, resource.RLIMIT_NOFILE)
            told, begun = FIGURES["accepting paused"], time.monotonic()
            try:
                async with contextlib.AsyncExitStack() as stack:
                    while FIGURES["accepting paused"] == told and time.monotonic() < begun + SECONDS_TO_PAUSE:
                        self.limit_descriptors(most)
                        await stack.enter_async_context(self.opened([self.workers_address, self.web]))
                        await asyncio.sleep(0.1)
                    await asyncio.sleep(CHANCE.uniform(0.2, 2))
                    FIGURES["times that the descriptors were filled"] += 1
            finally:
                resource.prlimit(self.master.pid, resource.RLIMIT_NOFILE, (most, most))
            if FIGURES["accepting paused"] == told:
                fault(f"accepting was not told to be paused within {SECONDS_TO_PAUSE} seconds")
