"""A master over steps, for `tests/gate/builds`, `tests/gate/bad_steps` and `tests/gate/cut_steps`,
and how their parts are run."""

import asyncio
import contextlib
import http.client
import json
import os
import queue
import re
import signal
import subprocess
import sys
import tempfile
import threading
import time
from concurrent.futures import ThreadPoolExecutor

import wire
from processes import all_processes, told_of

TOP = os.path.abspath(f"{__file__}/../../..")
PROGRAMS = os.environ.get("PROGRAMS", os.path.join(TOP, "dist"))
MASTER, WORKER = os.path.join(PROGRAMS, "buildmaster"), os.path.join(PROGRAMS, "buildworker")
# A bound for a hang: nothing that is waited for takes as long.
MOST_SECONDS = 60
LISTEN = 'listen = "127.0.0.1:0"\nweb = "127.0.0.1:0"\n'


class Master:
    """A master of this configuration. Its lines are read by threads,
    but for a standard error that is given."""

    def __init__(self, text, errors=None):
        self.file = tempfile.NamedTemporaryFile("w", suffix=".toml")
        self.file.write(LISTEN + text)
        self.file.flush()
        words = [MASTER, "serve", self.file.name]
        pipe = subprocess.PIPE
        self.process = subprocess.Popen(words, stdin=pipe, stdout=pipe, stderr=pipe if errors is None else errors, text=True)
        self.workers = []
        self.reports, self.remarks, self.seen = queue.Queue(), queue.Queue(), []
        self.read(self.process.stdout, self.reports)
        if errors is None:
            self.read(self.process.stderr, self.remarks)
        _, self.address, self.web = next_line(self.reports).split()

    def read(self, stream, lines):
        def work():
            for line in stream:
                lines.put(line.rstrip("\n"))
            lines.put(None)

        threading.Thread(target=work, daemon=True).start()

    def awaits(self, pattern, seconds=MOST_SECONDS):
        """The first remark from here on that the pattern fits."""
        end = time.monotonic() + seconds
        while True:
            line = next_line(self.remarks, max(0.01, end - time.monotonic()))
            self.seen.append(line)
            if re.fullmatch(pattern, line):
                return line

    def says(self, line):
        self.process.stdin.write(line + "\n")
        self.process.stdin.flush()

    def hires(self, name="w0", password="p"):
        worker = subprocess.Popen([WORKER, self.address, name, password])
        self.workers.append(worker)
        return worker

    def asks(self, path):
        """What the web answers to a request."""
        link = http.client.HTTPConnection(self.web, timeout=MOST_SECONDS)
        link.request("GET", path)
        answer = json.loads(link.getresponse().read())
        link.close()
        return answer

    def completes(self, number):
        """Waits until the web has all of a log whose command has ended."""
        end = time.monotonic() + MOST_SECONDS
        while not self.asks(f"/api/v2/logs/{number}")["logs"][0]["complete"]:
            assert time.monotonic() < end, f"log {number} isn't complete"
            time.sleep(0.01)

    def log(self, number):
        """The lines of a log whose command has ended."""
        self.completes(number)
        return self.asks(f"/api/v2/logs/{number}/contents")["logchunks"][0]["content"].splitlines()

    def rest(self, seconds=MOST_SECONDS):
        """Ends the input, and waits for the master's end. Its status."""
        self.process.stdin.close()
        return self.process.wait(seconds)

    def __enter__(self):
        return self

    def __exit__(self, *_):
        for each in [self.process, *self.workers]:
            with contextlib.suppress(OSError):
                each.kill()
            each.wait()
        self.ends_workers()

    def ends_workers(self):
        """Ends the workers that programs have started. They would try for a minute, and log in at whatever
        master is given this port next."""
        for process in all_processes():
            words = told_of(process, "cmdline").split(b"\0")
            if words[:1] == [WORKER.encode()] and self.address.encode() in words:
                with contextlib.suppress(OSError):
                    os.kill(process, signal.SIGKILL)


def next_line(lines, seconds=MOST_SECONDS):
    try:
        line = lines.get(timeout=seconds)
    except queue.Empty:
        raise AssertionError(f"nothing was told for {seconds:.0f} seconds") from None
    assert line is not None, "the stream has ended"
    return line


def build(*steps, worker="w0"):
    """A build of these steps, each a name, a shell command and more keys."""
    text = f'[[build]]\nworker = "{worker}"\n'
    for name, command, *more in steps:
        text += f'[[build.step]]\nname = "{name}"\ncommand = ["sh", "-c", \'{command}\']\n' + "".join(f"{key}\n" for key in more)
    return text


ONE_WORKER = 'worker = [{ name = "w0", password = "p" }]\n'


def resumable(ticks):
    """One worker, whose session may be resumed within so many ticks."""
    return f'worker = [{{ name = "w0", password = "p", resume_ticks = {ticks} }}]\n'


def chosen(parts, names):
    """The parts of these names, or all. None where a name is that of no part, which is told."""
    known = [part.__name__ for part in parts]
    if not set(names) <= set(known):
        print(f"usage: {sys.argv[0]} [{' | '.join(known)}]", file=sys.stderr)
        return None
    return [part for part in parts if not names or part.__name__ in names]


def holds(part):
    """Whether a part holds, which is told."""
    begun = time.monotonic()
    try:
        part()
    except (AssertionError, OSError, subprocess.TimeoutExpired, wire.Closed, asyncio.TimeoutError) as fault:
        print(f"FAILED  {part.__name__}: {fault!r}", flush=True)
        return False
    shows = " ".join(part.__doc__.split())
    print(f"holds   {shows} ({time.monotonic() - begun:.0f} s)", flush=True)
    return True


def run(parts, names):
    """Runs the parts of these names, or all. The status is 1 where one doesn't hold, and 2 where a
    name is that of no part."""
    parts = chosen(parts, names)
    if parts is None:
        return 2
    return 0 if all([holds(part) for part in parts]) else 1


def run_beside(parts, names):
    """As `run`, for parts that mostly wait: they go on side by side."""
    parts = chosen(parts, names)
    if parts is None:
        return 2
    with ThreadPoolExecutor(len(parts)) as pool:
        return 0 if all(list(pool.map(holds, parts))) else 1
