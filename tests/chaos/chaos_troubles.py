"""The troubles of `tests/chaos/chaos`: what is done to a master,
its workers and the ways between them while builds run."""

import asyncio
import fcntl
import math
import os
import signal
import struct
import termios
import time

import wire
from chaos_builds import LINKED
from chaos_parts import CHANCE, FIGURES, IS_LONG, fault
from chaos_pauses import Pauses
from chaos_readers import BadReaders
from chaos_strangers import end_tasks

SET_PIPE_SIZE, PIPE_SIZE = 1031, 4_096


class Errors:
    """A master's standard error: a small pipe, which can be left unread."""

    def __init__(self):
        self.near, self.far = os.pipe()
        fcntl.fcntl(self.near, SET_PIPE_SIZE, PIPE_SIZE)

    async def open(self):
        os.close(self.far)
        self.reader = asyncio.StreamReader(limit=2**20)
        form = asyncio.StreamReaderProtocol(self.reader)
        self.transport, _ = await asyncio.get_running_loop().connect_read_pipe(lambda: form, os.fdopen(self.near, "rb", 0))

    async def hear(self, builds):
        async for line in self.reader:
            builds.hear(line.decode(errors="replace").rstrip("\n"))

    def is_full(self):
        (waits,) = struct.unpack("i", fcntl.ioctl(self.near, termios.FIONREAD, bytes(4)))
        return waits > PIPE_SIZE - 512


class Trouble(Pauses):
    """Troubles again and again, each of which waits for so many seconds before the next."""

    def __init__(self, master, workers, web, builds, shelf, errors):
        super().__init__(master, workers, web, builds)
        self.readers, self.errors = BadReaders(web, builds, shelf), errors

    def begin(self):
        acts = [
            (self.kill, 1.5, 4),
            (self.stop, 0.3, 1.5),
            (self.wrong_login, 0.2, 1),
            (self.second_login, 0.5, 2),
            (self.trickle, 0.5, 2),
            (self.long_login, 1, 3),
            (self.silent, 0.5, 1.5),
            (self.slow, 0.5, 1.5),
            (self.slow_reader, 0.3, 1),
            (self.stopped_reader, 1, 3),
            (self.nonsense, 0.3, 1.5),
            (self.outage, 2, 8),
            (self.dark, 1, 3),
            (self.turn_away, 0.5, 4 if IS_LONG else 2),
            (self.full_door, *((8, 20) if IS_LONG else (1, 4))),
            (self.pause, 0.05, 0.2),
            (self.fill, 4, 12),
            (self.block_errors, 3, 8),
            (self.cancel, 2, 8),
            (self.cancel_silent, 0.5, 1.5),
        ]
        for act, least, most in acts + ([(self.dark_for_good, 5, 15)] if IS_LONG else []):
            self.later(self.again_and_again(act, least, most))
        self.later(self.crowd())

    async def again_and_again(self, act, least, most):
        while True:
            await asyncio.sleep(CHANCE.uniform(least, most))
            try:
                await act()
            except (OSError, asyncio.TimeoutError, wire.Closed, ValueError) as error:
                FIGURES["troubles that met a full door" if self.is_full else "troubles that failed"] += 1
                if FIGURES["troubles that failed"] > 200:
                    fault(f"{act.__name__}: {error!r}")

    async def end(self):
        await end_tasks(self.tasks)
        for task in self.tasks:
            if not task.cancelled() and task.exception() is not None:
                fault(f"a trouble ended: {task.exception()!r}")
        self.tasks.clear()

    async def kill(self):
        """A worker that is logged in is killed, mostly in mid-line."""
        worker = self.chosen([worker for worker in LINKED if worker.is_mortal])
        async with worker.way.calm:
            pid = self.pid(worker)
            if worker.is_up and pid is not None:
                FIGURES["kills"] += 1
                self.signal(pid, signal.SIGKILL)

    async def stop(self):
        """The master or a worker is stopped for a while, and continued: one whose session has to go on for less than the time
        after which another login takes it for dead."""
        worker = CHANCE.choice([None] + LINKED)
        pid = self.master.pid if worker is None else self.pid(worker)
        if pid is None:
            return
        FIGURES["stops"] += 1
        begun, stops = time.monotonic(), self.builds.stops if worker is None else worker.stops
        stops.append((begun, math.inf))
        is_dear = worker is None or worker.is_faithful
        try:
            self.signal(pid, signal.SIGSTOP)
            await asyncio.sleep(CHANCE.choice([0.01, 0.1, 0.5, 1 if is_dear else 4]) * CHANCE.random())
        finally:
            self.signal(pid, signal.SIGCONT)
            stops[-1] = (begun, time.monotonic())

    async def slow_reader(self):
        self.later(self.readers.dawdle())

    async def stopped_reader(self):
        self.later(self.readers.stop())

    async def block_errors(self):
        """Nobody reads the master's standard error for some seconds, and its pipe is full: all else goes on."""
        async with self.descriptors, self.builds.heard:
            self.errors.transport.pause_reading()
            self.builds.blocks += 1
            try:
                await self.fill_errors()
                await asyncio.sleep(CHANCE.uniform(0.3, 1))
                FIGURES["times that standard error was blocked"] += self.errors.is_full()
                await self.awaits_look()
            finally:
                self.errors.transport.resume_reading()
            await asyncio.sleep(0.2)
            self.builds.blocks += 1

    async def fill_errors(self):
        """At most ten of these are told in a second, and one of each name."""
        for number in range(60):
            await self.log_in(str(number).ljust(250, "n"), "secret")
            if self.errors.is_full():
                return
            await asyncio.sleep(0.05)

    @staticmethod
    async def awaits_look():
        """A reader is answered, at least once a master that is stopped goes on."""
        looks, end = FIGURES["looks"], time.monotonic() + 3
        while FIGURES["looks"] == looks:
            if time.monotonic() > end:
                return fault("a blocked standard error stops the readers")
            await asyncio.sleep(0.05)

    async def cancel(self):
        """A build that prints is cancelled, before its start or while it runs."""
        printing = {step.build for step in self.builds.of_kind("prints") if step.build not in self.builds.results}
        if printing and FIGURES["cancels"] < 12:
            FIGURES["cancels"] += 1
            self.builds.cancel(CHANCE.choice(sorted(printing)))

    async def cancel_silent(self):
        """Silent commands end by their cancel alone."""
        running = [step for step in self.builds.of_kind("silent") if step.log is not None and step.result is None]
        running = [step for step in running if step.build not in self.builds.cancelled]
        if running:
            FIGURES["cancels of silent commands"] += 1
            self.builds.cancel(CHANCE.choice(running).build)
