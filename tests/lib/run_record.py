"""A relay that records what passes between a worker and the master, and the lane's events that such
a record tells, as lines of `buildmaster replay` with their answers.

What is read here is what docs/PROTOCOL.md says of messages and connections. It shares nothing with
the product.
"""

import asyncio
import collections
import itertools
import time

from wire import BINARY, masked, reset, unpacked

HEAD_END = b"\r\n\r\n"
# A line of a replay, what it has to be answered, the record's place that it stands for, and its kind.
# The answer is None where the record doesn't have it.
Step = collections.namedtuple("Step", "line wanted place kind")
ORDERS = {"start_command", "interrupt_command"}
MOST_OPEN = 4
NO_CUT = float("inf"), False


class Direction:
    """The messages that passed whole one way, each with its bytes."""

    def __init__(self):
        self.data, self.has_head, self.messages, self.part = b"", False, [], b""

    def feed(self, data):
        self.data += data
        if not self.has_head:
            _, end, rest = self.data.partition(HEAD_END)
            if not end:
                return
            self.has_head, self.data = True, rest
        while self.takes_frame():
            pass

    def takes_frame(self):
        """Takes a frame that is whole. Pings and close frames are no messages."""
        if len(self.data) < 2:
            return False
        size, at = self.data[1] & 0x7F, 2
        if size > 125:
            at = 4 if size == 126 else 10
            size = int.from_bytes(self.data[2:at], "big")
        key = self.data[at : at + 4] if self.data[1] & 0x80 else b""
        start = at + (4 if self.data[1] & 0x80 else 0)
        if len(self.data) < start + size:
            return False
        piece = self.data[start : start + size]
        kind, is_last = self.data[0] & 0x0F, self.data[0] & 0x80
        self.data = self.data[start + size :]
        if kind in (0, BINARY):
            self.part += masked(piece, key) if key else piece
            if is_last:
                self.messages.append((self.part, unpacked(self.part)))
                self.part = b""
        return True


class Link:
    """One connection: what the worker said, what it was sent, and after how many bytes it is cut.
    Behind the cut what the master still sends is heard to its end, or not at all."""

    def __init__(self, left, hears_on):
        self.said, self.sent, self.left, self.hears_on = Direction(), Direction(), left, hears_on
        self.is_cut = self.is_over = False

    def login(self):
        """The login and what it was answered, where both passed whole and it was taken."""
        if not self.said.messages or not self.sent.messages:
            return None
        answer = self.sent.messages[0][1]
        return None if answer.get("is_exception") else (self.said.messages[0][1], answer["result"])


class Relay:
    """It stands between a worker and the master, records their messages, and cuts each connection
    after the next of these numbers of bytes, counted over both directions.

    A cut resets the worker's end. The master's end is reset too, and what was taken last isn't known
    then. Or it is closed, and heard to its end: so the record has answers that the worker missed."""

    def __init__(self, address, cuts):
        self.address, self.cuts, self.links = address, cuts, []
        self.is_held, self.let_go, self.ends, self.made = False, asyncio.Event(), (), 0
        # the first connection of the worker's process that is there
        self.session = 0

    async def open(self):
        self.server = await asyncio.start_server(self.carry, "127.0.0.1", 0)
        return f"127.0.0.1:{self.server.sockets[0].getsockname()[1]}"

    async def carry(self, reader, writer):
        link = Link(*(self.cuts.pop(0) if self.cuts else NO_CUT))
        self.links.append(link)
        try:
            far_reader, far_writer = await asyncio.open_connection(*self.address.rsplit(":", 1))
            self.ends = ends = writer, far_writer
            await asyncio.gather(self.pass_up(reader, link, ends), self.pass_down(far_reader, link, ends), return_exceptions=True)
            far_writer.close()
        except OSError:
            # the master has ended
            pass
        finally:
            link.is_cut = link.is_over = True
            writer.close()

    async def pass_up(self, reader, link, ends):
        """Passes on what the worker says."""
        while data := await reader.read(65_536):
            if self.is_held and not link.is_cut:
                await self.let_go.wait()
            if link.is_cut:
                return
            await self.passes(data, link, link.said, ends, ends[1])
        if not link.is_cut:
            ends[1].close()

    async def pass_down(self, reader, link, ends):
        """Passes on what the master sends, and behind a cut hears it alone."""
        while data := await reader.read(65_536):
            if link.is_cut:
                link.sent.feed(data)
            else:
                await self.passes(data, link, link.sent, ends, ends[0])
        ends[0].close()

    async def passes(self, data, link, direction, ends, writer):
        # While its worker is about to be ended, nothing is cut.
        room = len(data) if self.is_held else min(len(data), link.left)
        link.left -= room
        direction.feed(data[:room])
        writer.write(data[:room])
        if link.left <= 0 and not self.is_held:
            link.is_cut = True
            self.made += 1
            if link.hears_on and direction is link.sent:
                direction.feed(data[room:])
            self.cut(link, ends)
        else:
            await writer.drain()

    @staticmethod
    def cut(link, ends):
        reset(ends[0])
        if link.hears_on:
            ends[1].write_eof()
        else:
            reset(ends[1])

    def cuts_no_more(self):
        self.cuts = []
        for link in self.links:
            link.left = float("inf")

    async def closes(self, most_seconds):
        """Waits for the end of each connection."""
        self.server.close()
        end = time.monotonic() + most_seconds
        while not all(link.is_over for link in self.links):
            assert time.monotonic() < end, "a connection doesn't end"
            await asyncio.sleep(0.002)

    def is_settled(self):
        """Whether the worker is logged in, and each request of its session that passed over any
        connection has an answer."""
        if not self.links or self.links[-1].is_cut or self.links[-1].login() is None:
            return False
        own = self.links[self.session :]
        asked = {message["seq_number"] for link in own for _, message in link.said.messages[1:] if message["op"] != "response"}
        answered = {message["seq_number"] for link in own for _, message in link.sent.messages[1:] if message["op"] == "response"}
        return asked <= answered

    async def settles(self, most_seconds):
        """Waits until nothing is under way that the lane may have taken or not."""
        end = time.monotonic() + most_seconds
        while not self.is_settled():
            assert time.monotonic() < end, f"after {len(self.links)} connections a request has no answer"
            await asyncio.sleep(0.002)

    async def end_session(self, worker, most_seconds):
        """Ends the worker once each request that passed is answered. So the record has whatever the
        lane took of a session that no worker goes on with."""
        await self.settles(most_seconds)
        self.is_held, self.let_go = True, asyncio.Event()
        await self.settles(most_seconds)
        self.session = len(self.links)
        worker.kill()
        self.links[-1].is_cut = True
        for end in self.ends:
            reset(end)
        self.is_held = False
        self.let_go.set()


class Retold:
    """The lane's events of one worker, in the order in which the master took them.

    The lane's actor is one thread, and writes an answer or an order before it takes the next event.
    So what the worker was sent over a connection has the order of its events.

    A request whose answer did not pass may have been taken or not. It is left out there: its worker
    sends it again, and the replay takes it then. The log is the same. Requests are taken in the
    order of their numbers either way, and of the orders that the replay so takes before them none
    has lines or ends a command. A stop that was taken came before the end of its command there
    too.

    Beside that each end has to say again what the definition has it say. A worker begins with its
    oldest request that wasn't answered, and passes none over. A master gives the orders again that
    had no response, oldest first, by the same bytes."""

    def __init__(self, name, links, commands):
        self.name, self.links, self.total = name, links, commands
        self.steps, self.text, self.commands, self.productive = [], None, 0, 0
        self.is_up, self.open, self.numbers, self.orders = False, set(), {}, {}
        # The session's requests that passed and that no answer showed to be taken, by their numbers.
        self.untold = {}
        # The session's orders whose response passed, and those of them whose response was noted.
        self.responses, self.noted = set(), set()
        self.counts = collections.Counter()
        for place, link in enumerate(links):
            self.tells_link(place, link)

    def tells(self, line, wanted, at, kind):
        self.steps.append(Step(line, [wanted] if wanted is not None else None, f"worker {self.name}, {at}", kind))

    def tells_link(self, place, link):
        login = link.login()
        if login is None:
            return
        asked, answer = login
        at = f"connection {place}, its login"
        # A `resumed` of a session that the record hasn't: the `new` that began it did not pass whole.
        text = asked["session"] if answer == "resumed" else asked.get("next_session", asked["session"])
        if answer == "new" or text != self.text:
            self.begins(place, at)
            self.text = text
        else:
            self.resumes(place, link, at)
        self.tells("up", "ok", at, "up")
        self.is_up = True
        self.tells_messages(place, link)

    def begins(self, place, at):
        if not self.is_up:
            return
        # An order of the session that is over, and that passed no connection, shows by the number
        # of the next command. Its own number is not known.
        later = [message for link in self.links[place:] for _, message in link.sent.messages if message["op"] == "start_command"]
        for _ in range(self.commands, int(later[0]["command_id"]) if later else self.total):
            self.starts(None, at)
        self.tells("cut", "ok", at, "cut")
        self.tells("down", "ok", at, "down")
        self.productive += bool(self.open)
        self.open, self.numbers, self.orders, self.untold = set(), {}, {}, {}
        self.responses, self.noted = set(), set()
        self.counts["given up"] += 1

    def resumes(self, place, link, at):
        """A new order right behind `resumed` may have been taken before the cut, and is told there.
        Where it was taken behind it the replay's answers are the same: nothing lies between."""
        behind = [message for _, message in link.sent.messages[1:]]
        first = list(itertools.takewhile(lambda message: message["op"] in ORDERS, behind))
        numbers, pending = [message["seq_number"] for message in first], self.orders.keys() - self.responses
        assert numbers == sorted(set(numbers)), f"worker {self.name}, {at}: the orders {numbers} come again"
        assert not self.noted & set(numbers), f"worker {self.name}, {at}: of the orders {numbers} some had a response"
        assert len(first) == len(behind) or pending <= set(numbers), f"worker {self.name}, {at}: of the orders {pending} only {numbers} come again"
        for data, message in link.sent.messages[1 : 1 + len(first)]:
            if message["seq_number"] not in self.orders:
                self.counts["late"] += 1
                self.orders_it(data, message, at)
                # It is met once more among the messages.
                self.counts["again"] -= 1
        self.tells("cut", "ok", at, "cut")

    def orders_it(self, data, message, at):
        number, command = message["seq_number"], int(message["command_id"])
        if number in self.orders:
            assert self.orders[number] == data, f"worker {self.name}, {at}: order {number} is repeated by other bytes"
            self.counts["again"] += 1
            return
        self.orders[number] = data
        self.counts["orders"] += 1
        if message["op"] == "start_command":
            self.starts(f"start {number} {command}", at)
        else:
            self.tells(f"stop {command}", f"interrupt {number} {command}", at, "stop")

    def starts(self, wanted, at):
        """A start. With four commands open the lane would have refused it. So it took the end of
        one before, whose answer did not pass, and each request up to that."""
        ends = [number for number, (_, message) in self.untold.items() if message["op"] == "complete"]
        if len(self.open) == MOST_OPEN and ends:
            for number in [number for number in self.untold if number <= min(ends)]:
                self.takes(*self.untold[number], None, at, "ahead")
                self.counts["ahead"] += 1
        self.tells("go", wanted, at, "go")
        self.open.add(self.commands)
        self.commands += 1
        self.productive += 1

    def tells_messages(self, place, link):
        said = collections.deque(link.said.messages[1:])
        numbers = [message["seq_number"] for _, message in said if message["op"] != "response"]
        is_next = not numbers or numbers[0] <= len(self.numbers) and numbers == list(range(numbers[0], numbers[0] + len(numbers)))
        assert is_next, f"worker {self.name}, connection {place}: {len(self.numbers)} requests were taken, and then it says {numbers}"
        for number, (data, message) in enumerate(link.sent.messages[1:], 1):
            at = f"connection {place}, message {number} of the master"
            if message["op"] in ORDERS:
                self.orders_it(data, message, at)
            elif message["op"] == "response":
                self.noted |= self.notes(said, at)
                assert said, f"worker {self.name}, {at}: an answer to no request"
                self.hears(*said.popleft(), message, at)
        self.notes(said, f"connection {place}, its end")
        self.responses |= {message["seq_number"] for _, message in link.said.messages[1:] if message["op"] == "response"}
        # The worker's requests are taken in the order of its stream, which is that of their numbers.
        for data, message in said:
            if message["op"] != "response" and message["seq_number"] not in self.numbers:
                self.untold[message["seq_number"]] = data, message

    def notes(self, said, at):
        """A response isn't answered. It stands before the worker's next request that is, and so
        behind its order. The orders of those that are told."""
        noted = set()
        while said and said[0][1]["op"] == "response":
            data, message = said.popleft()
            self.tells("in " + data.hex(), "noted", at, "response")
            self.counts["responses"] += 1
            noted.add(message["seq_number"])
        return noted

    def hears(self, data, message, answer, at):
        """A request with its answer."""
        number = message["seq_number"]
        verdict = f"exception {answer['result']}" if answer.get("is_exception") else "nil"
        assert number == answer["seq_number"], f"worker {self.name}, {at}: request {number} has the answer of {answer['seq_number']}"
        wanted = f"answer {number} {verdict}"
        self.counts["requests"] += 1
        if number not in self.numbers:
            return self.takes(data, message, wanted, at, message["op"])
        assert self.numbers[number] == data, f"worker {self.name}, {at}: request {number} is repeated by other bytes"
        self.tells("in " + data.hex(), wanted, at, "repeat")
        self.counts["repeats"] += 1

    def takes(self, data, message, wanted, at, kind):
        """The lane takes a request that is no repeat."""
        number, command = message["seq_number"], int(message["command_id"])
        self.tells("in " + data.hex(), wanted, at, kind)
        self.numbers[number] = data
        self.untold.pop(number, None)
        self.productive += command in self.open
        if message["op"] == "complete":
            self.open.discard(command)
