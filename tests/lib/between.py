"""What lies between a worker and its master in a script of this folder:
it may be down for a while."""

import asyncio
import contextlib
import socket


def kept_port():
    """A port of the loopback that the system gives to nobody else while this value is kept. A
    listener may come there, go and come back. While there is none, connects are refused."""
    keeper = socket.socket()
    keeper.setsockopt(socket.SOL_SOCKET, socket.SO_REUSEADDR, 1)
    keeper.bind(("127.0.0.1", 0))
    return keeper


class Way:
    """What lies between the worker and its master: while it is down, connects are refused."""

    def __init__(self, far):
        self.far, self.ends, self.listener, self.keeper = far, [], None, kept_port()
        self.port = self.keeper.getsockname()[1]

    async def open(self):
        self.listener = await asyncio.start_server(self.carry, "127.0.0.1", self.port)

    def close(self):
        self.listener.close()
        for writer in self.ends:
            writer.transport.abort()
        self.ends = []

    async def carry(self, reader, writer):
        far_reader, far_writer = await asyncio.open_connection("127.0.0.1", self.far)
        self.ends += [writer, far_writer]
        await asyncio.gather(self.pass_on(reader, far_writer), self.pass_on(far_reader, writer))

    @staticmethod
    async def pass_on(reader, writer):
        with contextlib.suppress(OSError):
            while data := await reader.read(65_536):
                writer.write(data)
                await writer.drain()
        writer.close()
