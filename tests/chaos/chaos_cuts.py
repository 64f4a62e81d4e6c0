"""How `tests/chaos/chaos` cuts its workers: ways that are away or turn connects away, and
connections that go dark."""

import asyncio
import time

from chaos_builds import LINKED
from chaos_doors import SECONDS_TO_COME_BACK, Doors
from chaos_parts import CHANCE, FIGURES, fault
from chaos_strangers import SECONDS_TO_ANSWER
from chaos_way import CLOSED, RESET, UNANSWERED

MOST_SECONDS_AWAY = 5
# The first time of each kind is short, so that a short run has all of them.
LEAST_SECONDS_TURNED, FIRST_SECONDS_TURNED = 0.2, 1.5
# After a minute of silence a worker and a master take each other for dead, as is promised;
# a busy machine has some more.
SECONDS_TO_NOTICE = 60 + 30
# A second connection goes dark within so many seconds: its login waits until then, for the master
# to take the first one for dead, or its session goes on.
MOST_SECONDS_OF_SECOND = 2.5
TWICE = "connections that were dark twice in a row"


class Cuts(Doors):
    """What is done to the ways between workers and their master."""

    def __init__(self, master, workers, web, builds):
        super().__init__(master, workers, web, builds)
        self.turns = []

    def one_that_prints(self, workers):
        """One of these workers, rather one that runs a command which prints."""
        printing = {step.worker for step in self.builds.of_kind("prints") if step.log is not None and step.result is None}
        return self.chosen([worker for worker in workers if worker in printing] or workers)

    async def outage(self):
        """A worker's way to its master is away for some seconds."""
        way = self.one_that_prints(LINKED).way
        async with way.calm:
            FIGURES["outages"] += 1
            await way.be_away(CHANCE.uniform(0, MOST_SECONDS_AWAY))

    async def turn_away(self):
        """A worker is cut, and for some time its connects are taken, but closed at once, reset or left without an answer.
        Then it goes on with its session."""
        worker = self.one_that_prints([worker for worker in LINKED if worker.is_lasting])
        async with worker.way.calm:
            await asyncio.sleep(0.3)
            if worker.way.ride() is None or not worker.is_up:
                return
            self.turns = self.turns or CHANCE.sample([CLOSED, RESET, UNANSWERED], 3)
            how, logins = self.turns.pop(), self.logins(worker)
            kind = f"times that connects were {how}"
            most = MOST_SECONDS_AWAY if FIGURES[kind] else FIRST_SECONDS_TURNED
            turned = await worker.way.turn_away(CHANCE.uniform(LEAST_SECONDS_TURNED, most), how)
            FIGURES[kind] += turned > 0
            FIGURES["connects that were turned away"] += turned
            await self.is_back(worker, logins, "connects that were turned away")

    async def dark(self):
        """A connection goes dark without an end. Its worker comes by another one, and goes on with its session; or a
        stranger logs in under its name, and takes its place."""
        worker = self.chosen(LINKED)
        async with worker.way.calm, self.builds.heard:
            await asyncio.sleep(0.3)
            ride = worker.way.ride()
            if ride is None or not worker.is_up:
                return
            ride.is_dark = True
            FIGURES["dark connections"] += 1
            rides = [ride]
            try:
                await asyncio.sleep(CHANCE.uniform(0, 3))
                if worker.is_faithful or worker.is_latent or FIGURES["dark connections"] % 2:
                    await self.come_back(worker, rides)
                else:
                    await self.take_over(worker)
            finally:
                self.lift(rides)

    @staticmethod
    def lift(rides):
        for ride in rides:
            ride.over.set()
            ride.reset()

    async def come_back(self, worker, rides):
        """The worker's end of a dark connection ends. The master's is still open when the worker logs in anew, and sometimes
        this connection goes dark as well."""
        logins = self.logins(worker)
        rides[0].near.transport.abort()
        if not FIGURES[TWICE] or CHANCE.random() < 0.5:
            await asyncio.sleep(CHANCE.uniform(0, MOST_SECONDS_OF_SECOND))
            await self.go_dark_again(worker, rides)
        await self.is_back(worker, logins, "a dark connection")
        for ride in rides:
            try:
                await asyncio.wait_for(ride.is_left_by_master.wait(), SECONDS_TO_COME_BACK)
            except asyncio.TimeoutError:
                fault(f"the master keeps the dark connection of {worker.name}")

    @staticmethod
    async def go_dark_again(worker, rides):
        """The connection by which a worker came again goes dark too, if it soon makes one."""
        end = time.monotonic() + MOST_SECONDS_AWAY
        while (ride := worker.way.ride()) is None:
            if time.monotonic() > end:
                return
            await asyncio.sleep(0.01)
        ride.is_dark = True
        rides.append(ride)
        FIGURES[TWICE] += 1
        await asyncio.sleep(CHANCE.random() / 2)
        ride.near.transport.abort()

    async def take_over(self, worker):
        answer, seconds = await self.log_in(worker.name, worker.password)
        worker.taken_over += 2
        if answer == "new" and seconds < SECONDS_TO_ANSWER:
            FIGURES["dark connections that were taken over"] += 1
        elif answer != "":
            fault(f"beside a dark connection of {worker.name} a login was answered {answer} after {seconds:.1f} s")

    async def dark_for_good(self):
        """A connection goes dark, and nobody ends it: master and worker notice by themselves, and the session goes on."""
        if not FIGURES["crowds that were refused"]:
            return  # a crowd needs all ways
        worker = self.chosen([worker for worker in LINKED if worker.is_faithful])
        async with worker.way.calm:
            await asyncio.sleep(0.3)
            ride, resumed = worker.way.ride(), worker.told["resumed"]
            if ride is None or not worker.is_up:
                return
            ride.is_dark = True
            FIGURES["dark connections"] += 1
            try:
                await asyncio.wait_for(self.resumes(worker, resumed), SECONDS_TO_NOTICE)
                FIGURES["dark connections that were noticed"] += 1
            except asyncio.TimeoutError:
                fault(f"a dark connection of {worker.name} wasn't noticed within {SECONDS_TO_NOTICE} s")
            finally:
                self.lift([ride])

    @staticmethod
    async def resumes(worker, resumed):
        while worker.told["resumed"] == resumed:
            await asyncio.sleep(0.1)
