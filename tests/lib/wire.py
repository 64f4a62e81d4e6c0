"""The wire between a master and a worker, in Python's own library alone:
MessagePack and WebSockets.

It is written from the MessagePack specification and RFC 6455, and shares nothing with the product.
So a script which speaks by it is a peer of another hand.
"""

import asyncio
import base64
import contextlib
import hashlib
import os
import socket
import struct

# MessagePack


def packed(value):
    """A value as MessagePack, each in its shortest form."""
    if value is None:
        return b"\xc0"
    if isinstance(value, bool):
        return b"\xc3" if value else b"\xc2"
    if isinstance(value, int):
        return packed_number(value)
    if isinstance(value, str):
        data = value.encode()
        return head(len(data), 0xA0, 32, [(0xD9, ">B"), (0xDA, ">H"), (0xDB, ">I")]) + data
    if isinstance(value, bytes):
        return head(len(value), None, 0, [(0xC4, ">B"), (0xC5, ">H"), (0xC6, ">I")]) + value
    if isinstance(value, (list, tuple)):
        return head(len(value), 0x90, 16, [(0xDC, ">H"), (0xDD, ">I")]) + b"".join(map(packed, value))
    if isinstance(value, dict):
        pairs = (packed(key) + packed(each) for key, each in value.items())
        return head(len(value), 0x80, 16, [(0xDE, ">H"), (0xDF, ">I")]) + b"".join(pairs)
    raise TypeError(type(value))


def packed_number(number):
    if 0 <= number < 128:
        return bytes([number])
    if -32 <= number < 0:
        return struct.pack(">b", number)
    first, forms = (0xCC, "BHIQ") if number >= 0 else (0xD0, "bhiq")
    for place, form in enumerate(forms):
        with contextlib.suppress(struct.error):
            return bytes([first + place]) + struct.pack(">" + form, number)
    raise OverflowError(number)


def head(count, short, most, forms):
    """The head of a text, a list and the like: the shortest form that takes this count."""
    if count < most:
        return bytes([short | count])
    for first, form in forms:
        with contextlib.suppress(struct.error):
            return bytes([first]) + struct.pack(form, count)
    raise OverflowError(count)


class Unpacker:
    """Reads values from the front of some bytes."""

    def __init__(self, data):
        self.data, self.at = data, 0

    def take(self, count):
        if self.at + count > len(self.data):
            raise ValueError("the value is cut short")
        self.at += count
        return self.data[self.at - count : self.at]

    def number(self, form):
        return struct.unpack(">" + form, self.take(struct.calcsize(form)))[0]

    def value(self):
        first = self.number("B")
        if first < 0x80:
            return first
        if first < 0x90:
            return self.map(first & 0x0F)
        if first < 0xA0:
            return self.list(first & 0x0F)
        if first < 0xC0:
            return self.take(first & 0x1F).decode()
        if first >= 0xE0:
            return first - 0x100
        return self.long(first)

    def long(self, first):
        constants = {0xC0: None, 0xC2: False, 0xC3: True}
        if first in constants:
            return constants[first]
        numbers = {0xCA: "f", 0xCB: "d", 0xCC: "B", 0xCD: "H", 0xCE: "I", 0xCF: "Q", 0xD0: "b", 0xD1: "h", 0xD2: "i", 0xD3: "q"}
        if first in numbers:
            return self.number(numbers[first])
        lengths = {0xC4: "B", 0xC5: "H", 0xC6: "I", 0xD9: "B", 0xDA: "H", 0xDB: "I"}
        if first in lengths:
            data = self.take(self.number(lengths[first]))
            return data if first < 0xC7 else data.decode()
        if first in (0xDC, 0xDD):
            return self.list(self.number("H" if first == 0xDC else "I"))
        if first in (0xDE, 0xDF):
            return self.map(self.number("H" if first == 0xDE else "I"))
        raise ValueError(f"{first:02x} begins no value of this protocol")

    def list(self, count):
        return [self.value() for _ in range(count)]

    def map(self, count):
        return {self.value(): self.value() for _ in range(count)}


def unpacked(data):
    """The one value that the bytes are."""
    unpacker = Unpacker(data)
    value = unpacker.value()
    if unpacker.at != len(data):
        raise ValueError("bytes behind the value")
    return value


# Connections


def reset(writer):
    """Ends a connection without a farewell: what is on its way is dropped."""
    end = writer.get_extra_info("socket")
    if end is not None and end.fileno() >= 0:
        end.setsockopt(socket.SOL_SOCKET, socket.SO_LINGER, struct.pack("ii", 1, 0))
    writer.transport.abort()


# WebSockets

TEXT, BINARY, CLOSE, PING, PONG = 1, 2, 8, 9, 10
MAGIC = b"258EAFA5-E914-47DA-95CA-C5AB0DC85B11"
NORMAL = 1000


class Closed(Exception):
    """The connection has ended; `code` is that of a close frame, None where there was none."""

    def __init__(self, code=None):
        super().__init__(f"closed, {code}")
        self.code = code


def request_head(host, key=bytes(16)):
    """The head by which a client asks for a WebSocket."""
    lines = [
        "GET / HTTP/1.1",
        f"Host: {host}",
        "Connection: Upgrade",
        "Upgrade: websocket",
        "Sec-WebSocket-Version: 13",
        f"Sec-WebSocket-Key: {base64.b64encode(key).decode()}",
    ]
    return "\r\n".join(lines).encode() + b"\r\n\r\n"


def accept_of(key):
    """The word by which a server shows that it has seen a client's key."""
    return base64.b64encode(hashlib.sha1(key + MAGIC).digest())


def frame(kind, data, is_masked, is_last=True):
    """One frame of a message."""
    mask = 0x80 if is_masked else 0
    if len(data) < 126:
        lengths = struct.pack(">B", mask | len(data))
    elif len(data) < 65_536:
        lengths = struct.pack(">BH", mask | 126, len(data))
    else:
        lengths = struct.pack(">BQ", mask | 127, len(data))
    key = os.urandom(4) if is_masked else b""
    return bytes([(0x80 if is_last else 0) | kind]) + lengths + key + (masked(data, key) if is_masked else data)


def masked(data, key):
    """The bytes under a mask key; the same again takes the mask off."""
    keys = (key * (len(data) // 4 + 1))[: len(data)]
    return (int.from_bytes(data, "big") ^ int.from_bytes(keys, "big")).to_bytes(len(data), "big")


class Socket:
    """One end of a WebSocket after its handshake. Pings are answered while it is read."""

    def __init__(self, reader, writer, is_client):
        self.reader, self.writer, self.is_client = reader, writer, is_client
        self.is_open, self.pongs, self.messages = True, 0, None

    async def send(self, data, kind=None):
        """Sends a message: bytes as a binary one, a str as a text."""
        kind = kind or (TEXT if isinstance(data, str) else BINARY)
        await self.write(frame(kind, data.encode() if isinstance(data, str) else data, self.is_client))

    async def send_pieces(self, pieces):
        """Sends a binary message of these frames, with a ping after each."""
        for place, piece in enumerate(pieces):
            last = place == len(pieces) - 1
            await self.write(frame(0 if place else BINARY, piece, self.is_client, last))
            await self.send(b"piece", PING)

    async def write(self, data):
        if not self.is_open:
            raise Closed()
        try:
            self.writer.write(data)
            await self.writer.drain()
        except OSError as fault:
            self.is_open = False
            raise Closed() from fault

    async def recv(self):
        """The next message: bytes or a str."""
        kind, data = None, b""
        while True:
            one, piece, is_last = await self.read_frame()
            if one == CLOSE:
                await self.hear_close(piece)
            elif one == PING:
                await self.send(piece, PONG)
            elif one == PONG:
                self.pongs += 1
            else:
                kind, data = one or kind, data + piece
                if is_last:
                    return data if kind == BINARY else data.decode()

    async def read_frame(self):
        try:
            first, second = await self.reader.readexactly(2)
            length = second & 0x7F
            if length > 125:
                form = ">H" if length == 126 else ">Q"
                (length,) = struct.unpack(form, await self.reader.readexactly(struct.calcsize(form)))
            key = await self.reader.readexactly(4) if second & 0x80 else b""
            data = await self.reader.readexactly(length)
        except (OSError, asyncio.IncompleteReadError) as fault:
            self.is_open = False
            raise Closed() from fault
        return first & 0x0F, masked(data, key) if key else data, bool(first & 0x80)

    async def hear_close(self, data):
        """A close frame is answered by one, and the connection has ended."""
        code = struct.unpack(">H", data[:2])[0] if len(data) > 1 else None
        with contextlib.suppress(Closed):
            await self.send(data[:2], CLOSE)
        self.is_open = False
        self.writer.close()
        raise Closed(code)

    async def close(self, code=NORMAL):
        """Says a close frame; whoever reads goes on to the answer."""
        with contextlib.suppress(Closed):
            await self.send(struct.pack(">H", code), CLOSE)

    def abort(self):
        """Ends the connection without a farewell."""
        self.is_open = False
        self.writer.transport.abort()


async def connected(address, seconds=30):
    """A client's WebSocket to HOST:PORT."""
    host, port = address.rsplit(":", 1)
    reader, writer = await asyncio.open_connection(host, int(port))
    key = os.urandom(16)
    writer.write(request_head(address, key))
    try:
        answer = await asyncio.wait_for(reader.readuntil(b"\r\n\r\n"), seconds)
    except (OSError, asyncio.IncompleteReadError) as fault:
        raise Closed() from fault
    if not answer.startswith(b"HTTP/1.1 101 ") or accept_of(base64.b64encode(key)) not in answer:
        raise ValueError(f"no handshake: {answer[:200]!r}")
    return Socket(reader, writer, is_client=True)


async def accepted(reader, writer):
    """A server's WebSocket over a connection that came."""
    try:
        request = await reader.readuntil(b"\r\n\r\n")
    except (OSError, asyncio.IncompleteReadError) as fault:
        raise Closed() from fault
    fields = [line.partition(b":") for line in request.split(b"\r\n")[1:]]
    (key,) = [value.strip() for name, _, value in fields if name.lower() == b"sec-websocket-key"]
    head_lines = [b"HTTP/1.1 101 Switching Protocols", b"Upgrade: websocket", b"Connection: Upgrade", b"Sec-WebSocket-Accept: " + accept_of(key)]
    writer.write(b"\r\n".join(head_lines) + b"\r\n\r\n")
    return Socket(reader, writer, is_client=False)


async def served(handler):
    """A listener on the loopback that hands each WebSocket to the handler; answers the listener and its port."""

    async def take(reader, writer):
        try:
            await handler(await accepted(reader, writer))
        except Closed:
            pass
        finally:
            writer.close()

    listener = await asyncio.start_server(take, "127.0.0.1", 0, limit=2**20)
    return listener, listener.sockets[0].getsockname()[1]
