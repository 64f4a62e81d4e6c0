#!/usr/bin/env python3
"""Runs both programs over the example in roots that have next to nothing.

    PROGRAMS=DIR ROOT=DIR EXAMPLE=FILE in_root / ./bare_root.py [NAME ..]

ROOT is one that make_root made, and is only copied. It needs root's rights, for chroot and mknod.
"""

import os
import re
import shutil
import stat
import subprocess
import tempfile

import drive

PROGRAMS, EXAMPLE = os.environ["PROGRAMS"], os.environ["EXAMPLE"]
NAMES = ("buildmaster", "buildworker")
# No other variable of this process's environment may help.
ENVIRONMENT = {"PATH": "/usr/bin:/usr/sbin"}


def libraries(program):
    return re.findall(r"(/\S+) \(0x", drive.run("ldd", program))


class Root:
    """A folder to change the root to, with both programs and the example."""

    def __init__(self, is_whole):
        self.made = tempfile.mkdtemp(prefix="root.")
        self.path = os.path.join(self.made, "root")
        if is_whole:
            drive.run("cp", "-a", os.environ["ROOT"], self.path)
        else:
            os.makedirs(os.path.join(self.path, "usr/bin"))
        for name in NAMES:
            self.add(os.path.join(PROGRAMS, name), f"/usr/bin/{name}", with_libraries=not is_whole)
        shutil.copy(EXAMPLE, self.path + "/build.toml")
        self.before = drive.Before()

    def __enter__(self):
        return self

    def __exit__(self, *_):
        shutil.rmtree(self.made)

    def add(self, program, to, with_libraries=True):
        shutil.copy(program, self.path + to)
        for file in libraries(program) if with_libraries else ():
            os.makedirs(os.path.dirname(self.path + file), exist_ok=True)
            shutil.copy(os.path.realpath(file), self.path + file)

    def add_null(self):
        os.mkdir(self.path + "/dev")
        os.mknod(self.path + "/dev/null", 0o666 | stat.S_IFCHR, os.makedev(1, 3))
        os.chmod(self.path + "/dev/null", 0o666)

    def master(self):
        return drive.Master(["chroot", self.path, "/usr/bin/buildmaster"], "/build.toml", env=ENVIRONMENT)


def runs_to_its_end(root):
    """Both builds succeed, each log is what its command prints here, and the status is 0."""
    with root.master() as master:
        results = master.results(2)
        drive.check(results == ["SUCCESS", "SUCCESS"], f"results {results}")
        compared = drive.compare_all(master, drive.steps_of(EXAMPLE))
        status = master.end()
    drive.check(status == 0, f"status {status}")
    print(f"   {compared}; status {status}")
    root.before.leaves_nothing("the end")


def ends_with(master, wanted):
    """The builds have these results, a log of a step that can't be started has headers alone,
    and the status is 1."""
    results = master.results(len(wanted))
    drive.check(results == wanted, f"results {results}, not {wanted}")
    number = 0
    while (log := master.log(number)) is not None:
        lines, is_complete = log
        drive.check(is_complete and lines and all(line[0] == "h" for line in lines), f"log {number}: {log}")
        number += 1
    status = master.end()
    drive.check(status == 1, f"status {status}")
    print(f"   results {results}, {number} logs with nothing but headers; status {status}")


def minbase():
    """what `debootstrap --variant=minbase` makes"""
    with Root(is_whole=True) as root:
        runs_to_its_end(root)


def libc():
    """the C library alone, without a shell and a null device: no latent worker can be started"""
    with Root(is_whole=False) as root:
        with root.master() as master:
            ends_with(master, ["RETRY", "RETRY"])
        root.before.leaves_nothing("the end")


def libc_worker():
    """the C library and echo, without a null device:
    a worker that connects by itself can't start a step"""
    with Root(is_whole=False) as root:
        root.add(shutil.which("echo"), "/usr/bin/echo")
        shutil.move(drive.configuration(None, [[["echo", "one"]]]), root.path + "/build.toml")
        with root.master() as master:
            words = ["chroot", root.path, "/usr/bin/buildworker", master.listen, "w0", "secret"]
            worker = subprocess.Popen(words, env=ENVIRONMENT)
            ends_with(master, ["EXCEPTION"])
            worker.wait(drive.MOST_SECONDS_TO_END)
        root.before.leaves_nothing("the end")


def libc_null():
    """the C library and a null device: a worker is started, and no step"""
    with Root(is_whole=False) as root:
        root.add_null()
        with root.master() as master:
            ends_with(master, ["EXCEPTION", "EXCEPTION"])
        root.before.leaves_nothing("the end")


def libc_sh():
    """the C library, a null device and what the steps start: sh, sleep, echo"""
    with Root(is_whole=False) as root:
        root.add_null()
        for name in ("sh", "sleep", "echo"):
            root.add(shutil.which(name), f"/usr/bin/{name}")
        runs_to_its_end(root)


if __name__ == "__main__":
    drive.main({function.__name__: function for function in (minbase, libc, libc_worker, libc_null, libc_sh)})
