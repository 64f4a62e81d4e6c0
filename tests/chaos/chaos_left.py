"""What `tests/chaos/chaos` looks for once all is over: processes,
threads and descriptors that were left behind."""

import asyncio
import os
import time

from chaos_builds import STRANGER, WORKERS
from chaos_parts import fault
from processes import held, marked, name_of

# Strangers have so many seconds to log in,
# and a command that outlived its worker ends at its next line.
MOST_SECONDS = 30


class Left:
    """What a master and a worker have before anything happened, and what they have in the end."""

    def __init__(self, master):
        self.master, self.master_had, self.worker_had = master, None, None

    async def look_before(self, errors):
        """Looks at a worker that has just logged in, by the stranger's name, and at a master that has none any more."""
        await STRANGER.start(errors)
        while not STRANGER.is_up:
            await asyncio.sleep(0.01)
        await asyncio.sleep(0.5)
        self.worker_had = held(STRANGER.process.pid)
        STRANGER.process.terminate()
        await STRANGER.process.wait()
        while STRANGER.is_up:
            await asyncio.sleep(0.01)
        await asyncio.sleep(0.5)
        self.master_had = held(self.master.pid)

    def too_much(self):
        """What is there that wasn't in the beginning."""
        alive = {worker: worker.process.pid for worker in WORKERS if worker.process is not None and worker.process.returncode is None}
        due = set(alive.values()) | {self.master.pid}
        found = [f"process {pid}, {name_of(pid)}" for pid in marked() if pid not in due]
        for worker, pid in alive.items():
            threads, descriptors = held(pid)
            if threads > self.worker_had[0] or descriptors > self.worker_had[1]:
                found.append(f"{worker.name} has {threads} threads and {descriptors} descriptors, a new one {self.worker_had}")
        threads, descriptors = held(self.master.pid)
        if threads > self.master_had[0] or descriptors > self.master_had[1] + len(alive):
            found.append(f"the master has {threads} threads and {descriptors} descriptors, at first {self.master_had} without a worker")
        return found

    async def judge(self):
        """Nothing is left behind, at least after some time."""
        end = time.monotonic() + MOST_SECONDS
        while found := self.too_much():
            if time.monotonic() > end:
                for each in found:
                    fault(f"left behind: {each}")
                break
            await asyncio.sleep(0.2)
        return len(found)


async def end_all():
    """Nothing goes on after the run; what does was left behind."""
    end = time.monotonic() + MOST_SECONDS
    while (found := marked()) and time.monotonic() < end:
        await asyncio.sleep(0.2)
    for pid in found:
        fault(f"left behind: process {pid}, {name_of(pid)}")
        try:
            os.kill(pid, 9)
        except OSError:
            pass
