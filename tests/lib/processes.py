"""Processes that a script of this folder starts, and what they leave behind."""

import os
import signal
import time
from contextlib import suppress

# What a script starts has this in its environment, and so has what that starts.
MARK = ("STARTED_BY", f"{os.getpid()}-{time.time()}")


def environment():
    return {**os.environ, MARK[0]: MARK[1]}


def told_of(pid, what):
    """A file of /proc; nothing where the process is gone."""
    try:
        with open(f"/proc/{pid}/{what}", "rb") as file:
            return file.read()
    except OSError:
        return b""


def all_processes():
    return [int(entry) for entry in os.listdir("/proc") if entry.isdigit()]


def marked():
    """All processes that were started here, directly or not, and run."""
    mark = "=".join(MARK).encode()
    return [pid for pid in all_processes() if mark in told_of(pid, "environ").split(b"\0")]


def end_marked():
    """Ends all processes that were started here. What they were."""
    left = {pid: name_of(pid) for pid in marked()}
    for pid in left:
        with suppress(ProcessLookupError):
            os.kill(pid, signal.SIGKILL)
    return left


def children_of(parent):
    """The processes that this one started."""
    return [pid for pid in all_processes() if told_of(pid, "stat").rpartition(b")")[2].split()[1:2] == [b"%d" % parent]]


def state_of(pid):
    """The letter of a process's state, as T of one that is stopped; nothing where it is gone."""
    return told_of(pid, "stat").rpartition(b")")[2][1:2].decode()


def is_running(pid):
    """Whether one of its threads is there. Where the first has ended others may still hold its sockets."""
    try:
        threads = os.listdir(f"/proc/{pid}/task")
    except OSError:
        return False
    return any(state_of(f"{pid}/task/{thread}") not in ("", "Z", "X") for thread in threads)


def name_of(pid):
    return told_of(pid, "cmdline").replace(b"\0", b" ").decode(errors="replace")[:100]


def held(pid):
    """How many threads and descriptors a process has; none where it is gone."""
    try:
        return len(os.listdir(f"/proc/{pid}/task")), len(os.listdir(f"/proc/{pid}/fd"))
    except FileNotFoundError:
        return 0, 0
