"""A master of two workers among which `tests/gate/bad_peers` puts bad ones,
and workers written in Python."""

import asyncio
import contextlib
import os
import tempfile

import wire

TOP = os.path.abspath(f"{__file__}/../../..")
PROGRAMS = os.environ.get("PROGRAMS", os.path.join(TOP, "dist"))
# What comes at once from a master that is well is waited for so many seconds: a bound for a hang.
# It is far below the 60 seconds after which a silent connection ends by itself. So it tells what
# doesn't come before that end.
SOON = 20

CONFIGURATION = """
listen = "127.0.0.1:0"
web = "127.0.0.1:0"
worker = [
    { name = "w0", password = "p0", resume_ticks = 2000 },
    { name = "w1", password = "p1", resume_ticks = 2000 },
]
"""


def build_of(worker, steps):
    """A build of steps with these names."""
    text = f'[[build]]\nworker = "{worker}"\n'
    return text + "".join(f'[[build.step]]\nname = "{name}"\ncommand = ["sh", "-c", "echo said"]\n' for name in steps)


class Fault(Exception):
    """What had to hold didn't."""


def demand(holds, why):
    if not holds:
        raise Fault(why)


async def within(seconds, coming, what):
    """What comes, within this time."""
    try:
        return await asyncio.wait_for(coming, seconds)
    except asyncio.TimeoutError:
        raise Fault(f"{what}: nothing within {seconds} s") from None


class Master:
    """A master with two workers, and a build for each worker that is named: of one step,
    or of so many as are named."""

    def __init__(self, builds, steps=()):
        self.builds = "".join(build_of(worker, names) for worker, names in zip(builds, steps or [["step"]] * len(builds)))

    async def __aenter__(self):
        self.file = tempfile.NamedTemporaryFile("w", suffix=".toml")
        self.file.write(CONFIGURATION + self.builds)
        self.file.flush()
        self.remarks = tempfile.TemporaryFile("w+")
        pipe = asyncio.subprocess.PIPE
        words = [os.path.join(PROGRAMS, "buildmaster"), "serve", self.file.name]
        self.process = await asyncio.create_subprocess_exec(*words, stdin=pipe, stdout=pipe, stderr=self.remarks)
        words = await self.line()
        demand(words[:1] == ["listening"], words)
        self.address = words[1]
        return self

    async def __aexit__(self, kind, fault, trace):
        if self.process.returncode is None:
            self.process.kill()
        await self.process.wait()
        if fault is not None:
            print("the last that the master told:", *self.told()[-20:], sep="\n    ", flush=True)

    def told(self):
        self.remarks.seek(0)
        return self.remarks.read().splitlines()

    async def line(self):
        return (await within(SOON, self.process.stdout.readline(), "a line of the master")).decode().split()

    def memory(self):
        """What it takes, in MiB."""
        with open(f"/proc/{self.process.pid}/status") as status:
            sizes = [int(line.split()[1]) for line in status if line.startswith("VmRSS:")]
        demand(sizes, "the master has ended")
        return sizes[0] // 1024


async def login(master, name, session=None):
    """A connection that says a login; the answer isn't read."""
    link = await within(SOON, wire.connected(master.address), "a handshake")
    asked = {"seq_number": 0, "op": "auth", "username": name, "password": "p" + name[1:2]}
    await link.send(wire.packed({**asked, "session": session} if session else asked))
    return link


async def answer(link, seconds=SOON, what="a login"):
    return wire.unpacked(await within(seconds, link.recv(), what))["result"]


async def joined(master, name, session=None, wanted=(True, "new")):
    link = await login(master, name, session)
    came = await answer(link)
    demand(came in wanted, f"the login of {name} was answered {came!r}")
    return link


async def works(link, is_slow=False):
    """Does what a worker is asked for, until the connection ends: each command says a line and ends well."""
    number = 0

    async def say(keys):
        data = wire.packed(keys)
        if not is_slow:
            return await link.send(data)
        for byte in wire.frame(wire.BINARY, data, True):
            await link.write(bytes([byte]))
            await asyncio.sleep(0.002)

    with contextlib.suppress(wire.Closed):
        while True:
            message = wire.unpacked(await link.recv())
            if message["op"] == "response":
                continue
            await say({"seq_number": message["seq_number"], "op": "response", "result": None})
            if message["op"] != "start_command":
                continue
            command = {"command_id": message["command_id"]}
            for keys in [{"op": "update", "args": [["stdout", "said\n"], ["rc", 0]]}, {"op": "complete", "args": None}]:
                await say({"seq_number": number, **command, **keys})
                number += 1
