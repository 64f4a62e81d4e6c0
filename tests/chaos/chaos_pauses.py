"""How `tests/chaos/chaos` pauses a worker that runs steps with limits."""

import asyncio
import math
import os
import signal
import time

from chaos_builds import PAUSED
from chaos_cuts import Cuts
from chaos_parts import CHANCE, FIGURES, IS_LONG, fault
from chaos_steps import SECONDS_OF_A_TICK
from processes import children_of

LEAST_SECONDS_PAUSED, MOST_SECONDS_PAUSED = 1, 12
# Once enough slots were kept the pauses of a short run are short.
LATER_SECONDS_PAUSED = MOST_SECONDS_PAUSED if IS_LONG else 3
MOST_SECONDS_BUSY = 2 * MOST_SECONDS_PAUSED
# A long pause begins so soon before a limit that the step is over in it.
MOST_SECONDS_BEFORE = 0.8
# A step is over so many seconds after its limit, whatever its worker does.
SECONDS_TO_END = 10
# What a worker has said by its pause is heard so many seconds later.
SECONDS_TO_HEAR = 1
# Between two pauses its commands go on for so long; a short run has few of them.
LEAST_SECONDS_BETWEEN, MOST_SECONDS_BETWEEN = 0.2, 2 if IS_LONG else 0.4
# So many slots are to be kept by commands that are paused.
KEPT, ENOUGH_KEPT = "slots that paused commands kept", 6 if IS_LONG else 1
GOES_ON, CUT, DARK = "goes on", "is cut", "goes dark"


class Pauses(Cuts):
    """Pauses of a process, of which nothing else is stopped."""

    def __init__(self, master, workers, web, builds):
        super().__init__(master, workers, web, builds)
        self.kinds = [GOES_ON]

    @staticmethod
    def signal(pid, number):
        try:
            os.kill(pid, number)
        except ProcessLookupError:
            pass

    def pid(self, worker):
        """A worker's process, where it has one."""
        if worker.is_latent:
            return next(iter(children_of(self.master.pid)), None)
        if worker.process is not None and worker.process.returncode is None:
            return worker.process.pid
        return None

    async def pause(self):
        """The worker's process is stopped for seconds while it runs steps of which some have limits. Its connection goes on
        meanwhile, is cut, or goes dark: then the master takes it for dead when the worker comes by another one."""
        steps = [step for step in self.builds.of_worker(PAUSED) if step.log is not None and step.result is None]
        ride, pid = PAUSED.way.ride(), self.pid(PAUSED)
        if not self.is_time(steps) or ride is None or not PAUSED.is_up or pid is None:
            return
        kind, logins = self.kinds.pop(), self.logins(PAUSED)
        self.kinds = self.kinds or [GOES_ON] + CHANCE.sample([CUT, DARK], 2)
        begun = time.monotonic()
        PAUSED.stops.append((begun, math.inf))
        try:
            await self.stand_still(pid, kind, ride)
            FIGURES["pauses over steps with limits"] += 1
            if kind != GOES_ON:
                await self.comes_again(ride, logins, kind)
        finally:
            self.lift([ride] if ride.is_dark else [])
            PAUSED.stops[-1] = (begun, time.monotonic())
        await asyncio.sleep(CHANCE.uniform(LEAST_SECONDS_BETWEEN, MOST_SECONDS_BETWEEN))

    @staticmethod
    def is_long():
        """Whether a pause is to be so long that a step is given up in it: until so many were."""
        return FIGURES[KEPT] < ENOUGH_KEPT

    def is_time(self, steps):
        """Whether a pause may begin, while these steps run. A long one begins just before a limit is reached."""
        if not self.is_long():
            return any(step.limits for step in steps)
        left = [step.began + SECONDS_OF_A_TICK * min(step.limits.values()) - time.monotonic() for step in steps if step.is_endless]
        return any(0 < seconds < MOST_SECONDS_BEFORE for seconds in left)

    async def stand_still(self, pid, kind, ride):
        """The process is stopped, and continued."""
        is_long, kept, begun = self.is_long(), FIGURES[KEPT], time.monotonic()
        seconds = MOST_SECONDS_PAUSED if is_long else CHANCE.uniform(LEAST_SECONDS_PAUSED, LATER_SECONDS_PAUSED)
        before = CHANCE.uniform(0, seconds / 2)
        try:
            self.signal(pid, signal.SIGSTOP)
            await asyncio.sleep(before)
            if kind == CUT:
                ride.reset()
            ride.is_dark = kind == DARK
            await asyncio.sleep(seconds - before)
            self.look_at_slots(begun)
            # On a busy machine the master's ten seconds are longer.
            while is_long and FIGURES[KEPT] == kept and time.monotonic() - begun < MOST_SECONDS_BUSY:
                await asyncio.sleep(0.1)
                self.look_at_slots(begun)
        finally:
            self.signal(pid, signal.SIGCONT)

    def look_at_slots(self, begun):
        """A command whose step is over by its limit goes on in a worker that is paused, since nobody could end it. Its build
        has its result, and keeps its slot: builds wait for it."""
        steps = self.builds.of_worker(PAUSED)
        kept = {step.build for step in steps if self.goes_on(step, begun)}
        own = {step.build for step in steps} & self.builds.begun
        running = own - set(self.builds.results) | kept
        FIGURES[KEPT] += len(kept)
        FIGURES["builds that waited for a paused command"] += bool(kept) * len({step.build for step in steps} - own)
        if len(running) > PAUSED.slots:
            fault(f"builds {sorted(running)} run on {PAUSED.slots} slots, and the commands of {sorted(kept)} are paused")

    def goes_on(self, step, begun):
        """Whether its step was given up, and its command can't have ended since."""
        if step.stopped is None or step.over is None or step.over < begun + SECONDS_TO_HEAR:
            return False
        return step.is_told_at_once() and step.over - step.stopped[1] > SECONDS_TO_END - SECONDS_TO_HEAR

    async def comes_again(self, ride, logins, kind):
        """Once it goes on its session does, by another connection."""
        if kind == DARK:
            await asyncio.sleep(CHANCE.random())
            ride.near.transport.abort()
        await self.is_back(PAUSED, logins, f"a pause in which its connection {kind}")
        FIGURES["paused workers that came by another connection"] += 1
