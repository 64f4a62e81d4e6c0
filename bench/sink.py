"""A master of bench/worker that answers each request,
and the little of WebSocket and MessagePack that it needs.

It looks at the head of each update alone, so that its own work isn't what is timed. One more run,
untimed, compares each byte.
"""

import base64
import hashlib
import socket
import subprocess
import sys
import time

from systems import spent, spent_by_threads

ROOM = 8 << 20


def text(data):
    """A str of MessagePack."""
    count = len(data)
    if count < 32:
        return bytes([0xA0 + count]) + data
    return b"\xda" + count.to_bytes(2, "big") + data


def number(value):
    """A whole number of MessagePack."""
    return bytes([value]) if value < 128 else b"\xcf" + value.to_bytes(8, "big")


def frame(message):
    """A binary message of a server, which masks nothing (RFC 6455)."""
    assert len(message) < 65_536
    count = bytes([len(message)]) if len(message) < 126 else b"\x7e" + len(message).to_bytes(2, "big")
    return b"\x82" + count + message


def answer(seq, result):
    return frame(b"\x83" + text(b"seq_number") + number(seq) + text(b"op") + text(b"response") + text(b"result") + result)


def unmasked(data, mask):
    """A part of a message that begins at a multiple of four, without its mask."""
    key = (mask * (len(data) // 4 + 1))[: len(data)]
    return (int.from_bytes(data, "big") ^ int.from_bytes(key, "big")).to_bytes(len(data), "big")


def number_at(data, at):
    """The number at a place of MessagePack, and the place behind it."""
    first = data[at]
    if first < 0x80:
        return first, at + 1
    size = {0xCC: 1, 0xCD: 2, 0xCE: 4, 0xCF: 8}[first]
    return int.from_bytes(data[at + 1 : at + 1 + size], "big"), at + 1 + size


def text_at(data, at):
    """Where the text that begins there has its bytes, and how many."""
    first = data[at]
    if first & 0xE0 == 0xA0:
        return at + 1, first & 0x1F
    size = {0xD9: 1, 0xDA: 2, 0xDB: 4}[first]
    return at + 1 + size, int.from_bytes(data[at + 1 : at + 1 + size], "big")


class Update:
    """A request of the worker, as far as its head tells."""

    def __init__(self, head):
        self.seq, at = number_at(head, 12)
        at += 3
        begin, count = text_at(head, at)
        self.op = head[begin : begin + count]
        self.item, self.begin, self.count = None, 0, 0
        if self.op == b"update":
            begin, count = text_at(head, head.index(b"\xa4args", begin) + 7)
            self.item = head[begin : begin + count]
            if self.item != b"rc":
                self.begin, self.count = text_at(head, begin + count)


class Sink:
    """A master that answers each request and keeps how much was said."""

    def __init__(self, program):
        listener = socket.create_server(("127.0.0.1", 0))
        address = "127.0.0.1:%d" % listener.getsockname()[1]
        self.worker = subprocess.Popen([program, address, "w0", "secret"])
        listener.settimeout(10)
        self.socket, _ = listener.accept()
        listener.close()
        self.socket.setsockopt(socket.IPPROTO_TCP, socket.TCP_NODELAY, 1)
        self.socket.settimeout(60)
        self.room = memoryview(bytearray(ROOM))
        self.begin = self.end = 0
        self.orders = 0
        self.open_socket()
        (login,) = self.messages(1)
        assert login[0].op == b"auth", login[0].op
        self.socket.sendall(answer(0, text(b"new")))

    def open_socket(self):
        """Agrees to speak WebSocket."""
        while b"\r\n\r\n" not in bytes(self.room[: self.end]):
            self.fill()
        head = bytes(self.room[: self.end])
        (key,) = [line[18:].strip() for line in head.split(b"\r\n") if line.lower().startswith(b"sec-websocket-key:")]
        accept = base64.b64encode(hashlib.sha1(key + b"258EAFA5-E914-47DA-95CA-C5AB0DC85B11").digest())
        self.begin = head.index(b"\r\n\r\n") + 4
        self.socket.sendall(
            b"HTTP/1.1 101 Switching Protocols\r\nUpgrade: websocket\r\nConnection: Upgrade\r\n"
            b"Sec-WebSocket-Accept: " + accept + b"\r\n\r\n"
        )

    def fill(self):
        if ROOM - self.end < ROOM // 2:
            rest = bytes(self.room[self.begin : self.end])
            self.room[: len(rest)] = rest
            self.begin, self.end = 0, len(rest)
        count = self.socket.recv_into(self.room[self.end :])
        if count == 0:
            sys.exit("the worker has ended its connection")
        self.end += count

    def next_frame(self):
        """The place of the next whole message's bytes and of their end, and its mask; or None,
        where it isn't there yet."""
        room, begin = self.room, self.begin
        if self.end - begin < 14:
            return None
        count, at = room[begin + 1] & 0x7F, begin + 2
        if count == 126:
            count, at = int.from_bytes(room[at : at + 2], "big"), at + 2
        elif count == 127:
            count, at = int.from_bytes(room[at : at + 8], "big"), at + 8
        if self.end < at + 4 + count:
            return None
        self.begin = at + 4 + count
        return at + 4, self.begin, bytes(room[at : at + 4])

    def messages(self, least):
        """At least so many messages: of each what its head tells, and its place.
        Places hold until more is read."""
        found = []
        while len(found) < least:
            place = self.next_frame()
            if place is None:
                self.fill()
                continue
            begin, end, mask = place
            found.append((Update(unmasked(self.room[begin : min(end, begin + 128)], mask)), place))
        while (place := self.next_frame()) is not None:
            begin, end, mask = place
            found.append((Update(unmasked(self.room[begin : min(end, begin + 128)], mask)), place))
        return found

    def start(self, words):
        command = b"%d" % self.orders
        seq, self.orders = self.orders, self.orders + 1
        listed = b"\xdc" + len(words).to_bytes(2, "big") + b"".join(text(word.encode()) for word in words)
        self.socket.sendall(frame(
            b"\x85" + text(b"seq_number") + number(seq) + text(b"op") + text(b"start_command")
            + text(b"command_id") + text(command) + text(b"command_name") + text(b"shell")
            + text(b"args") + b"\x81" + text(b"command") + listed
        ))

    def run(self, words, take=None, pause=0):
        """The seconds until a command has ended, and how many bytes of standard output it said.
        `take` is given each text. The first update of standard output isn't answered before a
        pause, nor what follows."""
        begun = time.perf_counter()
        self.start(words)
        said, ended = 0, False
        while not ended:
            answers = []
            for update, (begin, end, mask) in self.messages(1):
                if update.op == b"response":
                    continue
                ended = ended or update.op == b"complete"
                answers.append(answer(update.seq, b"\xc0"))
                if update.item != b"stdout":
                    continue
                said += update.count
                if take:
                    take(unmasked(self.room[begin:end], mask)[update.begin :])
            if pause and said:
                time.sleep(pause)
                pause = 0
            self.socket.sendall(b"".join(answers))
        return time.perf_counter() - begun, said

    def peak(self):
        """The worker's peak of memory in bytes, so far."""
        with open(f"/proc/{self.worker.pid}/status", encoding="ascii") as file:
            (line,) = [line for line in file if line.startswith("VmHWM:")]
        return int(line.split()[1]) * 1024

    def spent(self):
        """The worker's seconds of processor time, so far."""
        return spent(self.worker)

    def spent_by_threads(self):
        """The same of its threads that run, to the nanosecond."""
        return spent_by_threads(self.worker)

    def rest(self, seconds):
        """Says nothing for so long but answers to pings, as a master without work does."""
        end = time.monotonic() + seconds
        while (left := end - time.monotonic()) > 0:
            self.socket.settimeout(left)
            try:
                self.fill()
            except TimeoutError:
                break
            self.answer_pings()
        self.socket.settimeout(60)

    def answer_pings(self):
        room = self.room
        while self.end - self.begin >= 6 + (count := room[self.begin + 1] & 0x7F):
            assert room[self.begin] == 0x89, room[self.begin]
            at = self.begin + 6
            data = unmasked(bytes(room[at : at + count]), bytes(room[at - 4 : at]))
            self.begin = at + count
            self.socket.sendall(bytes([0x8A, count]) + data)

    def leave(self):
        """Ends the worker by a close frame."""
        self.socket.sendall(b"\x88\x02\x03\xe8")
        status = self.worker.wait(10)
        self.socket.close()
        if status != 0:
            sys.exit(f"the worker ended with status {status}")
