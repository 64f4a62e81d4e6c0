#!/usr/bin/env python3
"""A latent worker that is started by ssh on another machine: its builds,
and what each kind of end leaves behind.

    in_root ROOT ./by_ssh.py [WAY ..]        (plain, tty, tunnel, alone; all where none is named)

ROOT has the Debian package, openssh-server, openssh-client, iproute2 and python3. The other machine
is a network namespace with an sshd, keys made for the run and a user `builder`: 10.98.0.2; the
master is 10.98.0.1. It writes to the root's folders.
"""

import os
import shutil
import signal
import subprocess
import tempfile
import time

import drive

EXAMPLE = "/usr/share/doc/bolgrudi/examples/first-build.toml"
NEAR, FAR, PORT = "10.98.0.1", "10.98.0.2", 2222
# ssh, and sshd likewise, give up five seconds after the last sign of the other. A cable that is out
# for a second costs up to three until the last lost packet is sent again.
ALIVE = "{0}AliveInterval 1\n{0}AliveCountMax 4\n"
FILE = "/etc/bolgrudi/w0.password"
NUMBERS = [["sh", "-c", "i=0; while [ $i -lt 60 ]; do echo line $i; i=$((i + 1)); sleep 0.1; done"]]
# A silent step, and one that a shell has started.
SILENT = [["sleep", "4321"]]
BELOW = [["sh", "-c", "echo begun; sleep 4322; echo not reached"]]


class Way:
    """A way to start the worker: its words, and an address for the master to listen on."""

    def __init__(self, name, what, listen, *latent):
        self.name, self.what, self.listen, self.latent = name, what, listen, list(latent)

    def master(self, builds, **keys):
        return drive.Master(["buildmaster"], drive.configuration(self.latent, builds, listen=f"{self.listen}:0", **keys))


# The worker connects by itself to an address that it reaches.
PLAIN = Way("plain", "ssh", NEAR, "ssh", "far", "bolgrudi-worker", "{master}", "w0", FILE)
# With a terminal, which hangs up on what runs in it.
TTY = Way("tty", "ssh -tt", NEAR, "ssh", "-tt", "far", "bolgrudi-worker", "{master}", "w0", FILE)
# The worker connects through the ssh connection: the master listens on the loopback alone.
TUNNEL = Way("tunnel", "bolgrudi-ssh", "127.0.0.1", "bolgrudi-ssh", "{master}", "far", "bolgrudi-worker", "w0", FILE)
# That, and the worker with all its steps in a process namespace.
ALONE = Way(
    "alone",
    "bolgrudi-ssh and bolgrudi-alone",
    "127.0.0.1",
    *("bolgrudi-ssh", "{master}", "far", "bolgrudi-alone bolgrudi-worker", "w0", FILE),
)


class Machine:
    """Another machine: a network namespace, held by a process,
    with a cable to it and an sshd that takes our key."""

    def __init__(self):
        self.holder = subprocess.Popen(["unshare", "--net", "sleep", "infinity"])
        time.sleep(0.5)
        self.folder = tempfile.mkdtemp(prefix="ssh.")
        os.chmod(self.folder, 0o755)
        self.connect()
        self.make_keys()
        self.configure()
        self.start()

    def far(self, *words):
        return ["nsenter", "--net", f"--target={self.holder.pid}", *words]

    def connect(self):
        drive.run("ip", "link", "add", "near", "type", "veth", "peer", "name", "far", "netns", str(self.holder.pid))
        drive.run("ip", "address", "add", f"{NEAR}/30", "dev", "near")
        drive.run(*self.far("ip", "address", "add", f"{FAR}/30", "dev", "far"))
        drive.run(*self.far("ip", "link", "set", "lo", "up"))
        drive.run(*self.far("ip", "link", "set", "far", "up"))
        self.cable(True)

    def cable(self, is_in):
        drive.run("ip", "link", "set", "near", "up" if is_in else "down")

    def make_keys(self):
        if subprocess.run(["id", "builder"], capture_output=True).returncode:
            drive.run("useradd", "--create-home", "--shell", "/bin/sh", "--password", "*", "builder")
        for key in ("host", "user"):
            drive.run("ssh-keygen", "-q", "-t", "ed25519", "-N", "", "-f", f"{self.folder}/{key}")
        shutil.copy(f"{self.folder}/user.pub", f"{self.folder}/authorized")
        os.chmod(f"{self.folder}/authorized", 0o644)
        os.chmod(os.path.dirname(FILE), 0o755)
        with open(FILE, "w") as file:
            file.write("secret\n")
        shutil.chown(FILE, "builder", "builder")
        os.chmod(FILE, 0o600)

    def configure(self):
        with open(f"{self.folder}/host.pub") as file:
            kind, key = file.read().split()[:2]
        with open(f"{self.folder}/known", "w") as file:
            file.write(f"[{FAR}]:{PORT} {kind} {key}\n")
        with open(f"{self.folder}/sshd", "w") as file:
            file.write(
                f"Port {PORT}\nListenAddress {FAR}\nHostKey {self.folder}/host\nAuthorizedKeysFile {self.folder}/authorized\n"
                "PidFile none\nUsePAM no\nPasswordAuthentication no\nAllowUsers builder\nStrictModes no\n" + ALIVE.format("Client")
            )
        home = os.path.expanduser("~/.ssh")
        os.makedirs(home, mode=0o700, exist_ok=True)
        with open(f"{home}/config", "w") as file:
            file.write(
                f"Host far\nHostName {FAR}\nPort {PORT}\nUser builder\nIdentityFile {self.folder}/user\n"
                f"UserKnownHostsFile {self.folder}/known\nBatchMode yes\nLogLevel ERROR\n" + ALIVE.format("Server")
            )

    def start(self):
        os.makedirs("/run/sshd", exist_ok=True)
        with open(f"{self.folder}/log", "w") as log:
            self.server = subprocess.Popen(self.far("/usr/sbin/sshd", "-D", "-e", "-f", f"{self.folder}/sshd"), stderr=log)
        for _ in range(100):
            if subprocess.run(["ssh", "far", "true"], capture_output=True).returncode == 0:
                return
            time.sleep(0.1)
        raise drive.Fault("no ssh connection")

    def end(self):
        for process in (self.server, self.holder):
            process.terminate()
            process.wait()


def builds(way, before, machine):
    """two builds beside each other; the worker is told to shut down once it idles"""
    commands = drive.steps_of(EXAMPLE)
    with way.master([commands[:2], commands[2:]]) as master:
        results = master.results(2)
        master.wait_for("program of w0 ended")
        before.leaves_nothing("the end of the idle worker", but=[master.process.pid])
        # `lint` fails, which the configuration here doesn't pass over
        drive.check(results == ["SUCCESS", "FAILURE"], f"results {results}")
        print(f"   {drive.compare_all(master, commands)}; status {master.end()}")


def cancel(way, before, machine):
    """both builds are cancelled, and the worker is told to shut down once it idles"""
    with way.master([SILENT, BELOW]) as master:
        master.begin(2)
        master.say("cancel 0")
        master.say("cancel 1")
        results = master.results(2)
        drive.check(results == ["CANCELLED", "CANCELLED"], f"results {results}")
        before.leaves_nothing("cancel, and the end of the idle worker", but=[master.process.pid])
        # either build may have begun first
        logs = [master.whole_log(number)[:2] for number in range(2)]
        drive.check(["h" + " ".join(BELOW[0]), "obegun"] in logs, f"logs {logs}")
        master.end()


def client_killed(way, before, machine):
    """the ssh client is killed while a step runs; the build that waits runs on a new worker"""
    with way.master([BELOW, NUMBERS], slots=1, resume_ticks=200) as master:
        master.begin()
        (client,) = [number for number, words in before.others().items() if words.startswith("ssh ")]
        os.kill(client, signal.SIGKILL)
        results = master.results(2)
        drive.check(results == ["RETRY", "SUCCESS"], f"results {results}")
        before.leaves_nothing("a killed ssh, and the end of the idle worker", but=[master.process.pid])
        drive.compare(master.whole_log(1), NUMBERS[0])
        master.end()


def unplugged(way, before, machine):
    """the cable is out for a second while a step prints"""
    with way.master([NUMBERS]) as master:
        master.begin()
        machine.cable(False)
        time.sleep(1)
        machine.cable(True)
        results = master.results(1)
        drive.check(results == ["SUCCESS"], f"results {results}")
        before.leaves_nothing("a cable that was out for a second", but=[master.process.pid])
        print(f"   {drive.compare_all(master, NUMBERS)}; status {master.end()}")


def unplugged_for_good(way, before, machine):
    """the cable is out for good while a step runs"""
    with way.master([SILENT]) as master:
        master.begin()
        machine.cable(False)
        try:
            master.wait_for("build 0 ended RETRY")
            status = master.end()
            before.leaves_nothing("a cable that is out, and the master's end")
        finally:
            machine.cable(True)
        drive.check(status == 1, f"status {status}")


def input_ends(way, before, machine):
    """the master's input ends while its worker idles"""
    with way.master([[["echo", "done"]]], idle_ticks=100000) as master:
        master.results(1)
        status = master.end()
        drive.check(status == 0, f"status {status}")
        before.leaves_nothing("the master's end")


def master_killed(way, before, machine):
    """the master is killed while two steps run"""
    with way.master([SILENT, BELOW]) as master:
        master.begin(2)
        master.process.kill()
        master.process.wait()
        before.leaves_nothing("the master's kill", seconds=drive.MOST_SECONDS_OF_TRIES)


# What leaves nothing behind in each way. In the ways but the last a step may outlive its worker:
# docs/ELSEWHERE.md says when.
EVENTS = {
    PLAIN: (builds, unplugged, input_ends),
    TTY: (builds, unplugged, input_ends, master_killed),
    TUNNEL: (builds, unplugged, input_ends),
    ALONE: (builds, cancel, client_killed, unplugged, unplugged_for_good, input_ends, master_killed),
}


def trial(way):
    def every():
        machine = Machine()
        try:
            before = drive.Before()
            for event in EVENTS[way]:
                print(f"   {event.__doc__}", flush=True)
                event(way, before, machine)
        finally:
            machine.end()

    every.__doc__ = f"a worker that is started by {way.what}"
    return every


if __name__ == "__main__":
    drive.main({way.name: trial(way) for way in EVENTS})
