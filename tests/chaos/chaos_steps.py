"""The steps of `tests/chaos/chaos`: what their commands print, which limits they have, and what is
told of them."""

import json
import os

import numbered_lines
from chaos_parts import CHANCE, IS_LONG, TOP

PRINTER = os.path.join(TOP, "tests", "lib", "numbered_lines.py")
SECONDS_OF_A_TICK = 0.01
# A command that ticks prints a line each so many seconds.
SECONDS_OF_A_LINE = 0.1
# How many builds of each kind the worker that is paused has behind its first ones.
MORE_LIMITED = 10 if IS_LONG else 1


class Step:
    """A step of a build: the command that prints so many lines, or is silent where these are 0,
    and what becomes of it."""

    # Whether its command goes on until it is ended.
    is_endless = False

    def __init__(self, worker, kind, lines, seconds, limits=None):
        self.build, self.worker, self.kind = None, worker, kind
        self.seed, self.lines, self.seconds = CHANCE.randrange(2**31), lines, round(seconds, 2)
        self.name = f"{kind} {self.seed}"
        # Its limits in ticks by their keys.
        self.limits = limits or {}
        self.log, self.result = None, None
        self.began, self.over, self.between = None, None, None
        # The limit that it reached, as is told, and when. The count of blocks (Builds), each time
        # that something of it was told.
        self.stopped, self.blocks = None, []

    def is_told_at_once(self):
        """Whether its remarks were read as they came."""
        return all(count % 2 == 0 for count in self.blocks)

    def words(self):
        return ["/usr/bin/python3", "-SE", PRINTER, str(self.seed), str(self.lines), str(self.seconds)]

    def printed(self):
        """The lines of its command, each with its pipe."""
        return numbered_lines.printed(self.seed, self.lines)

    def table(self):
        limits = "".join(f"{key} = {ticks}\n" for key, ticks in self.limits.items())
        return f'[[build.step]]\nname = "{self.name}"\ncommand = {json.dumps(self.words())}\n{limits}'


class Silent(Step):
    """It prints nothing, and goes on for more than an hour."""

    is_endless = True

    def __init__(self, worker, kind="silent", limits=None):
        super().__init__(worker, kind, 0, 0, limits)

    def words(self):
        # It leaves its parent and its group: whoever ends the command has to find it too.
        return ["/bin/sh", "-c", f"(setsid sleep 4321.{self.seed} &); sleep 4321.{self.seed}"]


class Counting(Step):
    """It prints the numbers from 1 on."""

    def printed(self):
        return ((numbered_lines.OUTPUT, b"%d" % number) for number in range(1, self.lines + 1))


class Hushed(Counting):
    """It prints some lines at once, and then nothing any more."""

    is_endless = True

    def words(self):
        return ["/bin/sh", "-c", f"seq {self.lines}; sleep 4321.{self.seed}"]


class Ticking(Counting):
    """It prints a line again and again, and ends by itself."""

    def words(self):
        return ["/bin/sh", "-c", f": {self.seed}; for i in $(seq {self.lines}); do echo $i; sleep {SECONDS_OF_A_LINE}; done"]


def printing(workers, lines, average):
    """Builds of one or two steps, until they print so many lines."""
    builds = []
    while lines > 0:
        worker, count = CHANCE.choice(workers), CHANCE.choice([1, 1, 2])
        many = [CHANCE.randrange(average // 2, average * 3 // 2) for _ in range(count)]
        builds.append([Step(worker, "prints", each, CHANCE.uniform(0.5, 4)) for each in many])
        lines -= sum(step.lines for step in builds[-1])
    return builds


def timed(worker):
    """It has to reach its limit."""
    return Silent(worker, "timed", {"timeout_ticks": CHANCE.randrange(100, 250)})


def hushed(worker):
    """So has this one: its limit is that of silence."""
    return Hushed(worker, "hushed", CHANCE.randrange(1, 30), 0, {"silent_ticks": CHANCE.randrange(100, 250)})


def ticking(worker):
    """It reaches a limit only while its worker is paused, cut or slow."""
    limits = CHANCE.choice([{"silent_ticks": CHANCE.randrange(150, 300)}, {"timeout_ticks": CHANCE.randrange(500, 800)}])
    return Ticking(worker, "ticking", CHANCE.randrange(10, 30), 0, limits)


def free(worker):
    """It has no limit."""
    return Step(worker, "free", CHANCE.randrange(100, 400), CHANCE.uniform(0.5, 2))


def limited(worker):
    """The builds of the worker that is paused. Each kind is among its first ones."""
    kinds = [timed, hushed, ticking, free]
    rest = kinds * MORE_LIMITED
    CHANCE.shuffle(kinds)
    CHANCE.shuffle(rest)
    return [[kind(worker)] for kind in kinds + rest]
