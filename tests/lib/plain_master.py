"""A master of another hand, for `tests/gate/outside_master`: it has one worker, and answers all
that the worker says."""

import asyncio
import random
import time

import wire


class Master:
    """A master of one worker: what it was told is kept by the command's number."""

    def __init__(self, script, ends, cuts):
        self.script, self.wanted_ends, self.cuts = script, ends, cuts
        self.socket = None
        self.session = None
        # So many requests it leaves unanswered at first, until all of them have come.
        self.holds = 0
        self.heard = set()
        self.orders = 0
        self.unanswered = {}
        self.answers = {}
        self.exceptions = set()
        # What it answers a session that it has forgotten; None where it knows it.
        self.forgets = None
        # Whether it refuses each login, and when it did.
        self.refuses, self.refused = False, []
        self.logins = []
        self.said, self.codes, self.ends = {}, {}, {}
        self.done = asyncio.Event()

    async def order(self, **keys):
        number, self.orders = self.orders, self.orders + 1
        self.unanswered[number] = wire.packed({"seq_number": number, **keys})
        try:
            await self.socket.send(self.unanswered[number])
        except wire.Closed:
            pass  # the next login is sent it again

    async def start(self, command, words):
        await self.order(op="start_command", command_id=str(command), command_name="shell", args={"command": words})

    async def interrupt(self, command):
        await self.order(op="interrupt_command", command_id=str(command), why="stop")

    async def answer(self, number, result):
        await self.socket.send(wire.packed({"seq_number": number, "op": "response", "result": result}))

    async def serve(self, socket):
        login = wire.unpacked(await socket.recv())
        if self.refuses:
            self.refused.append(time.monotonic())
            return await socket.send(wire.packed({"seq_number": 0, "op": "response", "result": "bad login", "is_exception": True}))
        self.socket = socket
        assert (login["seq_number"], login["op"]) == (0, "auth"), login
        self.logins.append((login["username"], login["password"], login["session"]))
        resumes = login["session"] == self.session and self.forgets is None
        if not resumes:
            self.session = login.get("next_session", login["session"])
            self.forget()
        await self.answer(0, "resumed" if resumes else self.forgets or "new")
        if resumes:
            for order in list(self.unanswered.values()):
                await socket.send(order)
        else:
            asyncio.ensure_future(self.script(self))
        messages_left, held = random.randrange(1, 60), []
        while True:
            message = wire.unpacked(await socket.recv())
            messages_left -= 1
            self.take(message)
            if messages_left == 0 and self.cuts > 0:
                self.cuts -= 1
                return socket.abort()
            if message["op"] == "response":
                continue
            held.append(message["seq_number"])
            if len(held) >= self.holds:
                self.holds = 0
                for number in held:
                    await self.answer(number, None)
                held.clear()

    def forget(self):
        """A session begins: all numbers start afresh."""
        self.heard, self.orders, self.unanswered = set(), 0, {}
        self.said, self.codes, self.ends = {}, {}, {}

    def take(self, message):
        number = message["seq_number"]
        if message["op"] == "response":
            self.unanswered.pop(number, None)
            self.answers[number] = message["result"]
            if message.get("is_exception") is True:
                self.exceptions.add(number)
            return
        if number in self.heard:
            return
        self.heard.add(number)
        command = int(message["command_id"])
        if message["op"] == "complete":
            self.ends[command] = message["args"]
            if len(self.ends) == self.wanted_ends:
                self.done.set()
            return
        assert message["op"] == "update", message
        for name, value in message["args"]:
            if name == "rc":
                self.codes[command] = value
            else:
                self.said.setdefault(command, []).append((name, value))

    def text(self, command, name):
        return "".join(value for said, value in self.said.get(command, []) if said == name)
