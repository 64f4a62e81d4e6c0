"""A worker that does what a test says, for `tests/gate/builds` and `tests/gate/cut_steps`: it
speaks by tests/lib/wire.py, which shares nothing with the product."""

import asyncio
import os

import wire
from step_master import MOST_SECONDS

# For so long nothing is to come where a worker is asked for nothing. On a slow machine what comes
# later is missed, and fails nothing.
IDLE_SECONDS = 0.3


class Worker:
    """A worker that takes each step that it is told to start. It keeps the numbers of its requests,
    and those that have no answer yet."""

    def __init__(self, master, name="w0", password="p", session=True):
        self.master, self.name, self.password = master, name, password
        self.session = os.urandom(16).hex() if session else None
        self.started, self.link, self.number, self.unanswered = [], None, 0, {}

    async def answer_to_login(self):
        """Logs in. The bytes of the answer."""
        self.link = await wire.connected(self.master.address)
        login = {"seq_number": 0, "op": "auth", "username": self.name, "password": self.password}
        if self.session is not None:
            login["session"] = self.session
        await self.link.send(wire.packed(login))
        return await asyncio.wait_for(self.link.recv(), MOST_SECONDS)

    async def log_in(self, wanted=True):
        answer, due = await self.answer_to_login(), {"seq_number": 0, "op": "response", "result": wanted}
        assert answer == wire.packed(due), answer

    async def is_refused(self, text):
        """Its login is refused by this text, byte for byte, and the connection then ended."""
        due = {"seq_number": 0, "op": "response", "result": text, "is_exception": True}
        answer = await self.answer_to_login()
        assert answer == wire.packed(due), answer
        try:
            raise AssertionError(f"something came behind {text}: {await self.hears()}")
        except wire.Closed:
            self.link.abort()

    async def hears(self):
        return wire.unpacked(await asyncio.wait_for(self.link.recv(), MOST_SECONDS))

    async def order(self):
        """The next order, which is answered. Answers to what was said are taken on the way."""
        while (message := await self.hears())["op"] == "response":
            self.hears_answer(message)
        if message["op"] == "start_command":
            self.started.append(message["args"]["command"][-1])
        await self.answers(message)
        return message

    def hears_answer(self, message):
        assert "is_exception" not in message and message["result"] is None, message
        self.unanswered.pop(message["seq_number"])

    async def runs(self, command, word):
        """It is told to start the command of this number, whose last word is this."""
        message = await self.order()
        assert (message["op"], message["command_id"]) == ("start_command", str(command)), message
        assert self.started[-1] == word, message

    async def is_idle(self):
        """It is asked for nothing for a while."""
        await self.is_answered()
        try:
            came = await asyncio.wait_for(self.link.recv(), IDLE_SECONDS)
        except asyncio.TimeoutError:
            return
        raise AssertionError(f"asked for {wire.unpacked(came)}")

    async def answers(self, message):
        await self.link.send(wire.packed({"seq_number": message["seq_number"], "op": "response", "result": None}))

    def keeps(self, op, command, args):
        """A request that is said now or later. Answers its bytes."""
        number, self.number = self.number, self.number + 1
        data = wire.packed({"seq_number": number, "op": op, "command_id": str(command), "args": args})
        self.unanswered[number] = data
        return data

    async def says(self, op, command, args):
        await self.link.send(self.keeps(op, command, args))

    async def tells(self, command, item, text):
        await self.says("update", command, [[item, text]])

    async def exits(self, command, code=0):
        await self.says("update", command, [["rc", code]])
        await self.says("complete", command, None)

    async def breaks_off(self, command):
        await self.says("complete", command, "interrupted")

    async def says_again(self):
        """Sends again what has no answer, oldest first."""
        for data in list(self.unanswered.values()):
            await self.link.send(data)

    async def is_answered(self):
        """Waits until all that it said was answered."""
        while self.unanswered:
            message = await self.hears()
            assert message["op"] == "response", message
            self.hears_answer(message)
