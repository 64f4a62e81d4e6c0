"""What the parts of `tests/chaos/chaos` share: its words, its chance, its figures and faults,
and what readers have seen."""

import asyncio
import collections
import os
import random
import sys
import threading
import time

from seeds import count_of, seeds_of

TOP = os.path.abspath(f"{__file__}/../../..")
(SEED,) = seeds_of(sys.argv[1:])
LINES = count_of(sys.argv[1:], 1_000_000)
# Only a long run takes the minute in which a dark connection is noticed,
# and the half one of a reader that stopped.
IS_LONG = LINES >= 500_000
MOST_SECONDS = 240 + LINES // 1_500
CHANCE = random.Random(SEED)

FAULTS = []
FIGURES = collections.Counter()
LATEST = "milliseconds that this script was late"


# How a program is started. When a shell ends the system continues all that is stopped in its group:
# so what is stopped here stands in none of a shell's.
APART = {"start_new_session": True}


def program(name):
    return os.path.join(os.environ.get("PROGRAMS", os.path.join(TOP, "dist")), name)


def fault(text):
    """Something isn't as it has to be."""
    if len(FAULTS) < 20:
        print(f"FAULT: {text}", flush=True)
    FAULTS.append(text)


class Lags:
    """When this script itself was late, for want of a processor. Meanwhile it heard no remark, and carried nothing between
    workers and their master."""

    # It looks so often, and what is shorter than that is no lag.
    SECONDS_OF_A_LOOK, LEAST_SECONDS = 0.01, 0.1

    def __init__(self):
        self.stretches = []

    async def watch(self):
        while True:
            begun = time.monotonic()
            await asyncio.sleep(self.SECONDS_OF_A_LOOK)
            self.note(begun, time.monotonic())

    def note(self, begun, ended):
        if ended - begun < self.LEAST_SECONDS:
            return
        if self.stretches and begun - self.stretches[-1][1] < self.LEAST_SECONDS:
            begun, _ = self.stretches.pop()
        self.stretches.append((begun, ended))
        FIGURES[LATEST] = max(FIGURES[LATEST], int(1_000 * (ended - begun)))

    def within(self, begun, ended):
        """For how many seconds it was late in that time. What is heard at its beginning may have been said before, in a lag
        that ends there: so each that touches that time counts as a whole."""
        return sum(end - start for start, end in self.stretches if start <= ended and begun <= end + self.LEAST_SECONDS)


class Shelf:
    """What readers have seen of each log: it may only grow, and no line of it may change."""

    def __init__(self):
        self.lock, self.lines, self.ended = threading.Lock(), {}, set()

    def count(self, log):
        with self.lock:
            return len(self.lines.get(log, [])), log in self.ended

    def add(self, log, offset, lines):
        """Lines of a log from a place on that was seen before."""
        with self.lock:
            seen = self.lines.setdefault(log, [])
            if offset > len(seen):
                return fault(f"log {log}: lines from {offset} on behind {len(seen)}")
            known = seen[offset : offset + len(lines)]
            if known != lines[: len(known)]:
                return fault(f"log {log} changed behind line {offset}")
            if log in self.ended and len(lines) > len(known):
                return fault(f"log {log} grew after its end")
            seen.extend(lines[len(known) :])

    def end(self, log, count):
        """The command has ended, and its log has so many lines."""
        with self.lock:
            if len(self.lines.get(log, [])) > count:
                return fault(f"log {log} has more lines than its {count}")
            if len(self.lines.get(log, [])) == count:
                self.lines.setdefault(log, [])
                self.ended.add(log)
