#!/usr/bin/env python3
"""The units under a running systemd: a master that takes lines and is stopped,
a worker that is killed and comes back.

    in_systemd ROOT ./by_service.py [NAME ..]        (all where none is named)

ROOT has the Debian package and python3 beside what in_systemd wants.
It writes to the root's folders.
"""

import contextlib
import json
import os
import subprocess
import time
import urllib.request

import drive

FOLDER = "/etc/bolgrudi"
LISTEN, WEB = "127.0.0.1:9989", "127.0.0.1:8010"
OTHER_LISTEN, OTHER_WEB = "127.0.0.1:9999", "127.0.0.1:8020"
MASTER, WORKER = "bolgrudi-master@main", "bolgrudi-worker@w0"
SHOWN = ["sh", "-c", "echo one; echo two >&2; exit 3"]
BELOW = ["sh", "-c", "echo begun; sleep 4322; echo not reached"]


def system(*words):
    return drive.run("systemctl", *words).strip()


def shown(unit, name):
    return system("show", f"--property={name}", "--value", unit)


def wait_until(what, is_so):
    end = time.monotonic() + drive.MOST_SECONDS
    while not is_so():
        drive.check(time.monotonic() < end, f"{what}: not within {drive.MOST_SECONDS} seconds")
        time.sleep(0.1)


def told(unit=MASTER):
    """What a master has told since it was started last."""
    run = shown(unit, "InvocationID")
    return drive.run("journalctl", "--output=cat", f"_SYSTEMD_INVOCATION_ID={run}").splitlines()


def log(build, unit=MASTER, web=WEB):
    """The lines of the log of a build's step."""
    (number,) = [line.split()[5].rstrip(":") for line in told(unit) if line.startswith(f"build {build} step started, log")]
    with urllib.request.urlopen(f"http://{web}/api/v2/logs/{number}/contents", timeout=10) as answer:
        return json.load(answer)["logchunks"][0]["content"].split("\n")[:-1]


def write(name, text):
    with open(f"{FOLDER}/{name}", "w") as file:
        file.write(text)
    os.chmod(f"{FOLDER}/{name}", 0o600)


def configure(commands, name="main", worker="w0", listen=LISTEN, web=WEB):
    """A master of one worker that connects by itself, with a build of one step for each command."""
    lines = [f'listen = "{listen}"', f'web = "{web}"', "[[worker]]", f'name = "{worker}"', 'password = "secret"', "slots = 4"]
    for command in commands:
        lines += ["[[build]]", f'worker = "{worker}"', "[[build.step]]", 'name = "step"', f"command = {json.dumps(command)}"]
    write(f"{name}.toml", "\n".join(lines) + "\n")
    write(f"{worker}.worker", f"MASTER={listen}\n")
    write(f"{worker}.password", "secret\n")


@contextlib.contextmanager
def units(*commands):
    """Both units, in which each build runs a step or has run it. They are stopped at the end,
    and nothing is to stay."""
    configure(commands)
    before = drive.Before()
    try:
        system("start", MASTER, WORKER)
        wait_until("the steps", lambda: sum("step started, log" in line for line in told()) == len(commands))
        time.sleep(0.5)
        yield
    finally:
        subprocess.run(["systemctl", "stop", "bolgrudi-*"], check=True)
        subprocess.run(["systemctl", "reset-failed"], check=True)
    before.leaves_nothing("a stop of all units")


def stop():
    """a build is cancelled by the pipe, all others by the stop of the master's unit,
    and lanes are settled"""
    with units(SHOWN, BELOW, BELOW):
        wait_until("the first build", lambda: "build 0 ended FAILURE" in told())
        drive.compare(log(0), SHOWN)
        drive.run("sh", "-c", "echo cancel 1 >/run/bolgrudi/main/input")
        wait_until("the cancel", lambda: "build 1 ended CANCELLED" in told())
        drive.check(log(1)[:2] == ["h" + " ".join(BELOW), "obegun"], f"log 1: {log(1)}")
        system("stop", MASTER)
        last = told()
        for line in ("build 0 FAILURE", "build 1 CANCELLED", "build 2 CANCELLED"):
            drive.check(line in last, f"no {line!r}: {last}")
        drive.check([line for line in last if line.startswith("lane w0 3 ")], f"no lane: {last}")
        drive.check(shown(MASTER, "ExecMainStatus") == "1", "the status isn't 1")
        drive.check(not os.path.exists("/run/bolgrudi/main"), "its pipe is left behind")
        print("   " + "; ".join(last[-4:]))


def worker_killed():
    """a worker that is killed takes its steps along, and is started again"""
    with units(BELOW):
        first = shown(WORKER, "MainPID")
        system("kill", "--kill-whom=main", "--signal=KILL", WORKER)
        wait_until("the end of the steps", lambda: not any("sleep 4322" in words for words in drive.processes().values()))
        wait_until("the new worker", lambda: shown(WORKER, "ActiveState") == "active" and shown(WORKER, "MainPID") != first)
        wait_until("its login", lambda: sum(line == "worker w0 logged in" for line in told()) == 2)
        print(f"   started anew {shown(WORKER, 'NRestarts')} times")


def master_again():
    """a worker comes back to a master that was started anew"""
    with units(SHOWN):
        wait_until("the result", lambda: "build 0 FAILURE" in told())
        system("stop", MASTER)
        system("start", MASTER)
        wait_until("the result of the second run", lambda: "build 0 FAILURE" in told())


def secrets():
    """neither unit shows the password, and each runs as a user of its own, without root's rights"""
    with units(BELOW):
        for unit in (MASTER, WORKER):
            drive.check("secret" not in system("cat", unit) + system("show", unit), f"{unit} shows the password")
            with open(f"/proc/{shown(unit, 'MainPID')}/status") as file:
                status = dict(line.rstrip("\n").split(":\t", 1) for line in file if ":\t" in line)
            drive.check(status["Uid"].split()[0] != "0", f"{unit} runs as root")
            drive.check(int(status["CapEff"], 16) == 0, f"{unit} has rights of root: {status['CapEff']}")
        users = [drive.run("ps", "-o", "user:32=", shown(unit, "MainPID")).strip() for unit in (MASTER, WORKER)]
        drive.check(users == ["bolgrudi-master-main", "bolgrudi-worker-w0"], f"users {users}")


def two_masters():
    """two masters beside each other, each with a worker: the stop of one leaves the other alone"""
    other = "bolgrudi-master@other"
    configure([SHOWN], "other", "w1", OTHER_LISTEN, OTHER_WEB)
    with units(BELOW):
        system("start", other, "bolgrudi-worker@w1")
        wait_until("the other's build", lambda: "build 0 FAILURE" in told(other))
        drive.compare(log(0, other, OTHER_WEB), SHOWN)
        drive.check(shown(MASTER, "UID") != shown(other, "UID"), "both have one user")
        system("stop", MASTER)
        drive.check("build 0 CANCELLED" in told(), f"{told()}")
        drive.compare(log(0, other, OTHER_WEB), SHOWN)


if __name__ == "__main__":
    drive.main({function.__name__: function for function in (stop, worker_killed, master_again, two_masters, secrets)})
