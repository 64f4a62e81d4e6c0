"""What lies between a worker and the master of `tests/chaos/chaos`: it cuts connections,
lets them go dark, goes away, and turns connects away."""

import asyncio
import contextlib
import math

from between import kept_port
from chaos_parts import CHANCE, FIGURES, MOST_SECONDS
from wire import reset

# What a way does to a connect that it turns away.
CLOSED, RESET, UNANSWERED = "closed", "reset", "left without an answer"
# How a master answers a login that has taken its lane up, in MessagePack.
TAKEN_UP = b"\xa3new", b"\xa7resumed"


class Ride:
    """A connection on its way: after how many bytes of both directions it is cut, and how many are
    carried at once. Each third is cut only after more of the master's bytes. By then the worker has
    sent again all that wasn't answered, and has heard an answer. One that is cut sooner brings a
    worker no further, however slow the machine is."""

    def __init__(self, near, far, number, is_whole):
        self.near, self.far, self.ends = near, far, (near, far)
        self.is_cut, self.is_long = False, number % 3 == 0
        self.left = CHANCE.randrange(4_000, 40_000) if self.is_long else int(10 ** CHANCE.uniform(1, 6.3))
        self.piece = 65_536 if self.is_long else CHANCE.choice([65_536, 1_400, 23])
        self.seconds = MOST_SECONDS if self.is_long else CHANCE.uniform(0.2, 3)
        if is_whole:
            self.left, self.piece, self.seconds = math.inf, 4_096, MOST_SECONDS
        # Once it is to be halved its last bytes to the master are half of what comes next.
        self.is_halved = False
        # Once it is dark nothing is carried any more, and both ends stay open until it is over.
        self.is_dark, self.over, self.is_left_by_master = False, asyncio.Event(), asyncio.Event()
        # Whether its worker has logged in, as the master's first bytes say, and which of its ends has ended first. The master
        # hears of the worker's end from here alone, so that is known here before anything follows from it.
        self.said, self.is_logged_in, self.ended_first = b"", False, None

    def counts(self, writer):
        return not self.is_long or writer is self.near

    async def taken(self, reader, writer):
        """The next bytes for one end, which the other one said; none where that has ended."""
        data = b""
        with contextlib.suppress(OSError):
            data = await reader.read(self.piece)
        if not data:
            self.ended_first = self.ended_first or (self.near if writer is self.far else self.far)
        elif writer is self.near and not self.is_logged_in:
            self.said += data
            self.is_logged_in = any(answer in self.said for answer in TAKEN_UP)
        return data

    def reset(self):
        for end in self.ends:
            reset(end)


class Way:
    """It cuts each connection after random bytes, some of which are the handshake's and the
    login's, or after a while. It carries some in small pieces. One of so many bytes a second cuts
    none. While somebody has its `calm` it goes on to carry, and cuts nothing."""

    def __init__(self, bytes_a_second=None):
        self.master, self.count, self.keeper = None, 0, kept_port()
        self.port = self.keeper.getsockname()[1]
        self.bytes_a_second = bytes_a_second
        self.calm = asyncio.Lock()
        self.rides = []
        # How it turns connects away just now, and those that it turned away.
        self.turns_away, self.turned = None, []

    async def open(self):
        self.server = await asyncio.start_server(self.carry, "127.0.0.1", self.port)

    async def be_away(self, seconds):
        """For so long all connections are gone, in the midst of what a worker says, and connects are refused."""
        for ride in self.rides:
            ride.is_halved = True
        for _ in range(50):
            if all(ride.is_cut for ride in self.rides):
                break
            await asyncio.sleep(0.02)
        self.server.close()
        try:
            for ride in list(self.rides):
                ride.reset()
            await asyncio.sleep(seconds)
        finally:
            await self.open()

    async def turn_away(self, seconds, how):
        """All connections are gone, and for so long from the next connect on each is taken, and then closed at once, reset,
        or left without an answer. How many connects found it so."""
        self.turns_away, self.turned = how, []
        try:
            for ride in list(self.rides):
                ride.is_cut = True
                ride.reset()
            for _ in range(500):
                if self.turned:
                    break
                await asyncio.sleep(0.02)
            await asyncio.sleep(seconds)
        finally:
            self.turns_away = None
            for writer in self.turned:
                reset(writer)
        return len(self.turned)

    def turn(self, writer):
        self.turned.append(writer)
        if self.turns_away == CLOSED:
            writer.close()
        elif self.turns_away == RESET:
            reset(writer)

    def ride(self):
        """The connection that was made last, if it still carries."""
        alive = [ride for ride in self.rides if not ride.is_cut and not ride.is_dark and ride.ended_first is None]
        return alive[-1] if alive else None

    async def carry(self, reader, writer):
        if self.turns_away:
            return self.turn(writer)
        try:
            far_reader, far_writer = await asyncio.open_connection(*self.master)
        except OSError:
            writer.close()
            return
        self.count += 1
        ride = Ride(writer, far_writer, self.count, self.bytes_a_second)
        late = asyncio.ensure_future(self.cut_late(ride))
        self.rides.append(ride)
        await asyncio.gather(self.pass_on(ride, reader, far_writer), self.pass_on(ride, far_reader, writer))
        self.rides.remove(ride)
        late.cancel()

    async def cut_late(self, ride):
        await asyncio.sleep(ride.seconds)
        while self.calm.locked():
            await asyncio.sleep(0.02)
        if not ride.is_dark:
            await self.cut(ride, ride.near, b"")

    async def pass_on(self, ride, reader, writer):
        with contextlib.suppress(OSError):
            while not ride.is_dark and (data := await ride.taken(reader, writer)):
                if ride.is_dark:
                    break
                if ride.is_halved and writer is ride.far and len(data) > 200:
                    return self.halve(ride, writer, data)
                if self.is_last(ride, writer, data):
                    return await self.cut(ride, writer, data)
                await self.carry_on(writer, data)
        if ride.is_dark:
            await self.be_dark(ride, reader, writer)
        if writer is ride.near:
            ride.is_left_by_master.set()
        for end in ride.ends:
            end.close()

    def is_last(self, ride, writer, data):
        """Whether it is cut within these bytes. They count."""
        if not ride.counts(writer):
            return False
        if len(data) >= ride.left and not self.calm.locked():
            return True
        ride.left = max(0, ride.left - len(data))
        return False

    async def carry_on(self, writer, data):
        writer.write(data)
        await writer.drain()
        # While there are bytes and room neither the next read nor the next write waits, and nothing else would go on.
        await asyncio.sleep(len(data) / self.bytes_a_second if self.bytes_a_second else 0)

    @staticmethod
    async def be_dark(ride, reader, writer):
        """Nothing of the worker is read any more. What the master says is, and vanishes, so that its end is seen."""
        with contextlib.suppress(OSError):
            while writer is ride.near and await reader.read(65_536):
                pass
        if writer is ride.near:
            ride.is_left_by_master.set()
        await ride.over.wait()

    @staticmethod
    def halve(ride, writer, data):
        writer.write(data[: len(data) // 2])
        FIGURES["outages in mid-line"] += not ride.is_cut
        ride.is_cut = True
        ride.reset()

    async def cut(self, ride, writer, data):
        if ride.is_cut:
            return
        ride.is_cut = True
        async with self.calm:
            FIGURES["cuts"] += 1
            writer.write(data[: ride.left] if data else b"")
            for end in CHANCE.sample(ride.ends, 2):
                if CHANCE.random() < 0.5:
                    end.close()
                else:
                    reset(end)
                if CHANCE.random() < 0.1:
                    await asyncio.sleep(CHANCE.random() / 20)
