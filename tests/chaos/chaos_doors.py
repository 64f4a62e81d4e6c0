"""How strangers of `tests/chaos/chaos` hold the places of a master that connections without a login
have."""

import asyncio
import contextlib
import math
import time

from chaos_builds import LINKED, WORKERS
from chaos_parts import CHANCE, FIGURES, IS_LONG, fault
from chaos_strangers import SECONDS_TO_ANSWER, SECONDS_TO_LOG_IN, TOO_MANY, Strangers, end_tasks
from wire import reset

MOST_GUESTS = 256
# A worker that was cut has so many seconds to log in once nothing keeps it away: a bound for a hang.
SECONDS_TO_COME_BACK = SECONDS_TO_ANSWER + 10
# For so long a door is full, and in a long run until the strangers' ten seconds are over.
LEAST_SECONDS_FULL, MOST_SECONDS_FULL = 0.5, 12 if IS_LONG else 3


class Doors(Strangers):
    """Strangers in crowds at the workers' port."""

    @staticmethod
    def logins(worker):
        return worker.told["resumed"] + worker.told["logged in"]

    async def is_back(self, worker, logins, what):
        """Waits until a worker has logged in again, behind so many logins."""
        end = time.monotonic() + SECONDS_TO_COME_BACK
        while self.logins(worker) == logins:
            if worker.is_dismissed:
                return None  # it has nothing to do any more, and need not come again
            if time.monotonic() > end:
                return fault(f"{worker.name} isn't back from {what}")
            await asyncio.sleep(0.05)
        FIGURES[f"workers back from {what}"] += 1

    @contextlib.asynccontextmanager
    async def crowded(self):
        """Meanwhile the master may be told to have too many connections."""
        self.builds.doors.append((time.monotonic(), math.inf))
        place = len(self.builds.doors) - 1
        try:
            yield
        finally:
            self.builds.doors[place] = (self.builds.doors[place][0], time.monotonic())

    async def crowd(self):
        """More connections than may be without a login: those above are refused, and the workers go on. A busy machine may
        take them so slowly that the first are closed in time; then it is tried again."""
        await asyncio.sleep(CHANCE.uniform(2, 6))
        while not FIGURES["crowds that were refused"]:
            async with contextlib.AsyncExitStack() as calm:
                for worker in WORKERS:
                    await calm.enter_async_context(worker.way.calm)
                await calm.enter_async_context(self.descriptors)
                await asyncio.sleep(0.5)
                await calm.enter_async_context(self.crowded())
                await self.be_crowded()
            await asyncio.sleep(SECONDS_TO_LOG_IN)

    async def be_crowded(self):
        FIGURES["crowds"] += 1
        told = FIGURES[TOO_MANY]
        coming = [asyncio.ensure_future(self.opened_one(self.workers_address)) for _ in range(MOST_GUESTS * 5 // 4)]
        try:
            await self.is_told(told)
            FIGURES["crowds that were refused"] += FIGURES[TOO_MANY] > told
        finally:
            for each in coming:
                each.cancel()
            came = await asyncio.gather(*coming, return_exceptions=True)
            for each in came:
                if isinstance(each, tuple):
                    reset(each[1])

    @staticmethod
    async def is_told(told):
        """Waits for some seconds, until one more connection is told to be one too many."""
        for _ in range(80):
            await asyncio.sleep(0.1)
            if FIGURES[TOO_MANY] > told:
                return

    async def full_door(self):
        """Strangers hold all places before a login while a worker is cut and comes back. It gets in once there is room: at
        the latest when the strangers leave."""
        worker = self.chosen([worker for worker in LINKED if worker.is_faithful])
        async with worker.way.calm, self.descriptors:
            await asyncio.sleep(0.3)
            ride, logins = worker.way.ride(), self.logins(worker)
            if ride is None or not worker.is_up:
                return
            async with self.crowded():
                await self.be_full(ride)
            if ride.is_cut:
                FIGURES["full doors"] += 1
                await self.is_back(worker, logins, "a full door")

    async def be_full(self, ride):
        """Strangers come until one is told to be too many. Then the worker's connection is cut, and they stay for a while.
        Some of them come again whenever they are closed."""
        told = FIGURES[TOO_MANY]
        guests = [self.later(self.stay(place)) for place in range(MOST_GUESTS + CHANCE.randrange(16, 64))]
        try:
            await self.is_told(told)
            self.is_full = FIGURES[TOO_MANY] > told
            if self.is_full:
                ride.is_cut = True
                ride.reset()
                await asyncio.sleep(CHANCE.uniform(LEAST_SECONDS_FULL, MOST_SECONDS_FULL))
        finally:
            self.is_full = False
            await end_tasks(guests)

    async def stay(self, place):
        """A connection that says nothing. Each second one comes again whenever it is closed."""
        while True:
            writer = None
            try:
                reader, writer = await self.opened_one(self.workers_address)
                await reader.read(1)
            except (OSError, asyncio.TimeoutError):
                pass
            finally:
                if writer is not None:
                    reset(writer)
            if place % 2:
                return
            await asyncio.sleep(CHANCE.uniform(0.1, 1))
            FIGURES["strangers that came again to a full door"] += 1
