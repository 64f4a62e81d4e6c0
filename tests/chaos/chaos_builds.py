"""The workers and the builds of `tests/chaos/chaos`, and what their master tells of them."""

import asyncio
import collections
import json
import re
import signal
import time

from chaos_parts import APART, CHANCE, FIGURES, IS_LONG, LINES, Lags, fault, program
from chaos_steps import Silent, Step, limited, printing
from chaos_way import Way
from processes import environment

# What the link of the narrow worker carries, and what is printed on it beside short commands.
BYTES_A_SECOND = 250_000
NOISY_LINES = min(max(LINES, 30_000), 60_000 if not IS_LONG else 200_000)
SHORT = 80 if IS_LONG else 16
SILENT = 24 if IS_LONG else 6


class Worker:
    """A worker, how it is to be treated, and what the master tells of it."""

    def __init__(self, place, slots, resume_ticks, bytes_a_second=None, **kinds):
        self.place, self.name, self.password = place, f"w{place}", f"secret {place}"
        self.slots, self.resume_ticks = slots, resume_ticks
        self.is_faithful, self.is_mortal, self.is_latent = [kinds.get(kind, False) for kind in ("faithful", "mortal", "latent")]
        self.way, self.process = Way(bytes_a_second), None
        self.is_up, self.is_dismissed, self.told = False, False, collections.Counter()
        self.ends, self.taken_over = 0, 0
        # When its process was stopped, and when it went on: never yet where it is stopped now.
        self.stops = []

    @property
    def is_lasting(self):
        """Whether its session has time to resume, and goes on as long as its process does."""
        return self.resume_ticks > 2_000 and not self.is_latent

    def words(self):
        return [program("buildworker"), f"127.0.0.1:{self.way.port}", self.name, self.password]

    def table(self):
        latent = f"latent = {json.dumps(self.words())}\n" if self.is_latent else ""
        return (
            f'[[worker]]\nname = "{self.name}"\npassword = "{self.password}"\nslots = {self.slots}\n'
            f"resume_ticks = {self.resume_ticks}\n{latent}"
        )

    async def start(self, errors):
        null = asyncio.subprocess.DEVNULL
        where = {"stdin": null, "stdout": errors, "stderr": errors, "env": environment()}
        self.process = await asyncio.create_subprocess_exec(*self.words(), **where, **APART)

    async def live(self, errors):
        """Runs the worker's process, again and again. It prints nothing, and ends when it is killed, or gives up."""
        while True:
            await self.start(errors)
            status = await self.process.wait()
            self.ends += 1
            if status == 1:
                FIGURES["workers that gave up connecting"] += 1
            elif status != -signal.SIGKILL:
                fault(f"{self.name} ended with status {status}")
            await asyncio.sleep(CHANCE.random() / 2)

    def stopped(self, begun, ended):
        """For how many seconds of that time its process was stopped."""
        return sum(max(0, min(end, ended) - max(start, begun)) for start, end in self.stops)


WORKERS = [
    Worker(0, 4, 3_000, faithful=True),
    Worker(1, 4, 3_000, faithful=True),
    Worker(2, 3, 3_000, mortal=True),
    Worker(3, 2, 3_000, mortal=True, latent=True),
    Worker(4, 2, 5),
    # Its link is narrow, and is never cut.
    Worker(5, 4, 3_000, BYTES_A_SECOND, faithful=True),
    # It is paused for seconds, over steps with limits. Its link is cut in such pauses alone.
    Worker(6, 4, 3_000, 10**9, faithful=True),
    # Under its name strangers log in. It has no process and no builds.
    Worker(7, 1, 0, 10**9),
]
LINKED, NARROW, PAUSED, STRANGER = WORKERS[:5], *WORKERS[5:]


class Builds:
    """All builds, their steps, and what the master tells of them."""

    def __init__(self):
        average = min(5_000, max(200, LINES // 40))
        builds = printing(WORKERS[:2], LINES * 11 // 10, average) + printing(WORKERS[2:5], LINES // 3, average // 2)
        builds += [[Silent(CHANCE.choice(WORKERS[:2]))] for _ in range(SILENT)]
        CHANCE.shuffle(builds)
        builds += limited(PAUSED)
        narrow = [[Step(NARROW, "noisy", NOISY_LINES, 0)]] + [[Step(NARROW, "short", 30, 1)] for _ in range(SHORT)]
        self.builds, self.results, self.cancelled, self.begun = narrow + builds, {}, set(), set()
        self.steps = {}
        for number, steps in enumerate(self.builds):
            for step in steps:
                step.build, self.steps[step.name] = number, step
        # Builds that are cancelled between their steps.
        self.halved = {number for number, steps in enumerate(self.builds) if len(steps) > 1 and CHANCE.random() < 0.3}
        self.remarks, self.say = [], None
        # When each cancel was told, and what had come between till then. The count of blocks is odd
        # while nobody reads the remarks, and even where they are read as they come.
        self.cancels, self.blocks = {}, 0
        # When the master's process was stopped and when it went on, when its door was full, and when this script was late.
        self.stops, self.doors, self.refusals, self.lags = [], [], [], Lags()
        # Whoever has this may rely on what was told: nobody keeps the master's remarks back.
        self.heard = asyncio.Lock()

    def configuration(self):
        text = 'listen = "127.0.0.1:0"\nweb = "127.0.0.1:0"\ncapacity = 32\nwriters = 2\n'
        text += "".join(worker.table() for worker in WORKERS)
        for steps in self.builds:
            text += f'[[build]]\nworker = "{steps[0].worker.name}"\n' + "".join(step.table() for step in steps)
        return text

    def logs(self):
        return [step.log for step in self.steps.values() if step.log is not None]

    def of_kind(self, kind):
        return [step for step in self.steps.values() if step.kind == kind]

    def of_worker(self, worker):
        return [step for step in self.steps.values() if step.worker is worker]

    def cancel(self, build):
        if build not in self.results and build not in self.cancelled:
            self.cancelled.add(build)
            self.say(f"cancel {build}\n")

    def between(self, build):
        """A count that grows by each cut and login of a build's worker,
        and each time that nobody reads the remarks."""
        return sum(self.builds[build][0].worker.told.values()) + self.blocks

    def hear(self, line):
        """A line of the master's standard error."""
        self.remarks.append(line)
        if "secret" in line:
            fault(f"a password is told: {line}")
        for form, take in FORMS:
            if found := form.fullmatch(line):
                return take(self, *found.groups())
        fault(f"an unknown remark: {line}")

    def worker(self, name, what, cause):
        worker = WORKERS[int(name)]
        worker.is_up = what in ("logged in", "resumed")
        worker.is_dismissed = what == "told to shut down" or worker.is_dismissed and not worker.is_up
        worker.told[what] += 1
        if cause in ("bad message", "full", "out of memory", "the master ends") and what in ("cut", "lost"):
            fault(f"{worker.name} {what}, {cause}")

    def started(self, build, log, name):
        step = self.steps[name]
        if step.build != int(build) or step.log is not None:
            fault(f"{name} started twice, or in build {build}")
        step.log, step.began = int(log), time.monotonic()
        step.blocks.append(self.blocks)

    def stopped(self, build, limit, log, name):
        step = self.steps[name]
        if (step.build, step.log) != (int(build), int(log)) or step.result is not None or step.stopped is not None:
            fault(f"{name} stopped twice, behind its end, or as log {log} of build {build}")
        step.stopped = limit, time.monotonic()
        step.blocks.append(self.blocks)
        FIGURES[f"steps that reached their {limit}"] += 1

    def ended(self, build, result, log, name):
        step = self.steps[name]
        if (step.build, step.log) != (int(build), int(log)) or step.result is not None:
            fault(f"{name} ended twice, or as log {log} of build {build}")
        step.result, step.over, step.between = result, time.monotonic(), self.between(step.build)
        step.blocks.append(self.blocks)
        if step.build in self.halved and result == "SUCCESS" and step is self.builds[step.build][0]:
            FIGURES["cancels between steps"] += 1
            self.cancel(step.build)

    def cancelling(self, build):
        self.cancels[int(build)] = time.monotonic(), self.between(int(build))

    def result(self, build, result):
        self.results[int(build)] = result

    def counted(self, *told):
        wanted = len(WORKERS), len(self.builds), len(self.steps)
        if tuple(map(int, told)) != wanted:
            fault(f"the configuration has {wanted}, and {told} are told")

    def waits(self, build, worker):
        FIGURES["builds that wait longer than a second"] += 1
        if int(build) in self.begun or self.builds[int(build)][0].worker.name != worker:
            fault(f"build {build} waits for {worker}, and began or is another one's")

    def began(self, build, what):
        self.begun.add(int(build))
        FIGURES[what] += 1

    def refused(self, what):
        self.refusals.append((what, time.monotonic()))
        FIGURES[what] += 1

    def refused_more(self, count, what):
        FIGURES[what] += int(count)

    def count(self, what):
        FIGURES[what] += 1


FORMS = [
    (re.compile(r"worker w(\d) (logged in|resumed|cut|lost|shut down|told to shut down)(?:, (.*))?"), Builds.worker),
    (re.compile(r"build (\d+) step started, log (\d+): (.*)"), Builds.started),
    (re.compile(r"build (\d+) step ended ([A-Z]+), log (\d+): (.*)"), Builds.ended),
    (re.compile(r"build (\d+) ended ([A-Z]+)"), Builds.result),
    (re.compile(r"((?:login|connection) refused, [a-z ]+)(?:, from [\d.:]+)?(?:: .*)?"), Builds.refused),
    (re.compile(r"(\d+) (more connections refused)"), Builds.refused_more),
    (re.compile(r"(accepting paused)"), Builds.count),
    (re.compile(r"(program of w3 (?:started|not started|ended))(?:, .*)?"), Builds.count),
    (re.compile(r"build (\d+) (started on w\d)"), Builds.began),
    (re.compile(r"(\d+) workers, (\d+) builds, (\d+) steps"), Builds.counted),
    (re.compile(r"build (\d+) waits for (w\d)"), Builds.waits),
    (re.compile(r"build \d+ (step not started), [a-z ]+: .*"), Builds.count),
    (re.compile(r"build (\d+) step stopped, (\w+), log (\d+): (.*)"), Builds.stopped),
    (re.compile(r"build (\d+) to be cancelled"), Builds.cancelling),
]
