"""Commands that start others, and the programs that run them, for `tests/gate/left_processes` and
`tests/gate/hindered_sweeps`. Each of their processes writes to a file, and a chain ends where that
can't be written to any more."""

import os
import subprocess
import tempfile
import time
from contextlib import contextmanager

import processes
from step_master import MOST_SECONDS, WORKER, Master, next_line

WRITES = "while :; do echo x >>{file}; sleep 0.02; done"
KINDS = {
    "make": "make -s -j2 -f {folder}/Makefile",
    "background": "({writes}) & {writes}",
    "setsid": "setsid sh -c '{writes}' & wait",
    "orphan": "(setsid sh -c '({writes}) & exit 0' &); sleep 1000",
    "pipeline": "({writes}) | ({writes}) | ({writes}) | ({writes})",
    "ignores": 'trap "" TERM HUP INT; {writes}',
    "crowd": "for i in $(seq 200); do (while :; do echo x >>{file}; sleep 0.5; done) & done; wait",
    "chain": "f() {{ sleep 0.05; (echo x >>{file} && f) & }}; f & sleep 1000",
    "forks": "setsid sh -c 'while :; do (sleep 0.05; echo x >>{file}) & sleep 0.01; done' & wait",
}
# How long a file is looked at that isn't to grow. Each process writes sooner than that.
STILL_SECONDS = 0.8
# How long what a killed worker left is waited for that is to write on, and how often a part is played where
# another worker of this user comes between.
RUN_ON_SECONDS, MOST_PLAYS = 10, 5


class Room:
    """A folder with the files that the commands write to, and their words."""

    def __init__(self, folder):
        self.folder = folder
        with open(os.path.join(folder, "Makefile"), "w", encoding="utf-8") as file:
            writes = WRITES.format(file=self.file("make"))
            file.write(f"all: a b\na b:\n\t@{writes}\n")

    def file(self, kind):
        return os.path.join(self.folder, kind)

    def script(self, kind):
        """The command of a kind, as a script of its own: so no quotes meet others."""
        file = self.file(kind)
        path = os.path.join(self.folder, kind + ".sh")
        with open(path, "w", encoding="utf-8") as script:
            script.write(KINDS[kind].format(file=file, folder=self.folder, writes=WRITES.format(file=file)) + "\n")
        return path

    def size(self, kind):
        try:
            return os.path.getsize(self.file(kind))
        except FileNotFoundError:
            return 0

    def is_written(self, kinds):
        until(lambda: all(self.size(kind) for kind in kinds), "a command writes nothing")

    def is_still(self, kinds):
        before = {kind: self.size(kind) for kind in kinds}
        time.sleep(STILL_SECONDS)
        grown = [kind for kind in kinds if self.size(kind) != before[kind]]
        assert not grown, f"what {grown} started writes on"

    def becomes_still(self, kinds):
        """Waits until no file of these kinds grows any more."""
        end, grown = time.monotonic() + MOST_SECONDS, kinds
        while grown:
            assert time.monotonic() < end, f"what {grown} started writes on"
            before = {kind: self.size(kind) for kind in kinds}
            time.sleep(STILL_SECONDS)
            grown = [kind for kind in kinds if self.size(kind) != before[kind]]


def until(holds, why):
    end = time.monotonic() + MOST_SECONDS
    while not holds():
        assert time.monotonic() < end, why
        time.sleep(0.01)


def run_on(room, kinds):
    """Whether all of these write on behind a killed worker. They don't where another worker of this user
    has started since: it has ended what was left."""
    before = {kind: room.size(kind) for kind in kinds}
    end = time.monotonic() + RUN_ON_SECONDS
    while not all(room.size(kind) > before[kind] for kind in kinds):
        if time.monotonic() > end:
            return False
        time.sleep(0.01)
    return True


def configuration(room, kinds, more=""):
    """A worker and a build for each kind."""
    workers = ", ".join(f'{{ name = "{kind}", password = "p" }}' for kind in kinds)
    text = f"worker = [{workers}]\n"
    for kind in kinds:
        text += f'[[build]]\nworker = "{kind}"\n[[build.step]]\nname = "{kind}"\ncommand = ["sh", "{room.script(kind)}"]\n{more}'
    return text


@contextmanager
def commands(kinds, more="", environment=()):
    """A master and a worker for each kind, whose commands run."""
    with tempfile.TemporaryDirectory() as folder:
        room = Room(folder)
        with Master(configuration(room, kinds, more)) as master:
            try:
                hired = {kind: hires(master, kind, environment) for kind in kinds}
                room.is_written(kinds)
                yield room, master, hired
            finally:
                processes.end_marked()


def hires(master, name, environment=()):
    worker = subprocess.Popen([WORKER, master.address, name, "p"], env={**processes.environment(), **dict(environment)})
    master.workers.append(worker)
    return worker


def are_ended(master, kinds, result, header="hinterrupted"):
    """Each build ends so, and its log's last line says why."""
    told = {next_line(master.reports) for _ in kinds}
    assert told == {f"build {number} {result}" for number in range(len(kinds))}, told
    for number in range(len(kinds)):
        if header:
            lines = master.log(number)
            assert lines[-1] == header and not any("cannot end" in line for line in lines), lines[-3:]
