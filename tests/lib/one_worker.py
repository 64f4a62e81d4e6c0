"""A master of one worker for `tests/gate/left_processes`, `tests/gate/held_pipes` and
`tests/gate/hindered_sweeps`: it takes logins and answers what it is told."""

import asyncio

import processes
import wire
from step_master import MOST_SECONDS, WORKER


class Listener:
    """Takes the logins of one worker, each of which begins a session."""

    def __init__(self):
        self.socket, self.logins, self.ends, self.said = None, 0, {}, {}
        self.known, self.anew, self.answers = asyncio.Event(), asyncio.Event(), {}
        self.ended = asyncio.Event()

    async def serve(self, socket):
        login = wire.unpacked(await socket.recv())
        await socket.send(wire.packed({"seq_number": login["seq_number"], "op": "response", "result": "new"}))
        self.socket, self.logins = socket, self.logins + 1
        (self.known if self.logins == 1 else self.anew).set()
        try:
            while True:
                await self.take(socket, wire.unpacked(await socket.recv()))
        except wire.Closed:
            pass

    async def take(self, socket, message):
        if message["op"] == "response":
            self.answers[message["seq_number"]] = message["result"]
            return
        command = int(message["command_id"])
        if message["op"] == "complete":
            assert command not in self.ends, "an end was told twice"
            self.ends[command] = message["args"]
            self.ended.set()
        else:
            assert command not in self.ends, "something was told behind the end"
            self.said.setdefault(command, []).extend(message["args"])
        await self.answer(socket, message["seq_number"])

    async def answer(self, socket, number):
        """Answers a request of this number."""
        await socket.send(wire.packed({"seq_number": number, "op": "response", "result": None}))


async def worker_under_python(listener=None, environment=()):
    """The socket of a worker that has logged in here, the server, the worker and who listens."""
    listener = listener or Listener()
    server, port = await wire.served(listener.serve)
    worker = await asyncio.create_subprocess_exec(WORKER, f"127.0.0.1:{port}", "w0", "p", env={**processes.environment(), **dict(environment)})
    await asyncio.wait_for(listener.known.wait(), MOST_SECONDS)
    return listener.socket, server, worker, listener


async def order(socket, number, **keys):
    """Sends a request of this number."""
    await socket.send(wire.packed({"seq_number": number, **keys}))
