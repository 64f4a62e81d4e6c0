"""Readers of a chunk server, over connections that stay open, in Python's own library alone.

    readers.py HOST:PORT PATH COUNT     so many readers that ask for one path again and again,
                                        until this process is ended

They look at the head and the end of an answer alone, so that their own work isn't what is timed.
"""

import re
import socket
import sys
import threading
import time

ROOM = 1 << 18
# The end of a body that is sent piece by piece. JSON has no such ends of lines in its texts.
LAST_PIECE = b"\r\n0\r\n\r\n"
PATIENCE = 300


class Reader:
    """A connection on which one answer is asked for after the other."""

    def __init__(self, address):
        host, port = address.rsplit(":", 1)
        self.address = address
        self.end = socket.create_connection((host, int(port)), PATIENCE)
        self.room = memoryview(bytearray(ROOM))

    def ask(self, path):
        """Reads a whole answer. How many bytes its body took on the way."""
        self.end.sendall(f"GET {path} HTTP/1.1\r\nhost: {self.address}\r\n\r\n".encode())
        head, begun = self.head()
        length = re.search(rb"\r\ncontent-length: *(\d+)", head, re.IGNORECASE)
        return self.sized(begun, int(length[1])) if length else self.in_pieces(begun)

    def head(self):
        """The head of an answer, and what came behind it."""
        came = b""
        while b"\r\n\r\n" not in came:
            came += bytes(self.room[: self.more()])
        head, _, begun = came.partition(b"\r\n\r\n")
        if not head.startswith(b"HTTP/1.1 200 "):
            raise ValueError(head)
        return head, begun

    def sized(self, begun, length):
        count = len(begun)
        while count < length:
            count += self.more()
        return count

    def in_pieces(self, begun):
        count, last = len(begun), begun[-len(LAST_PIECE) :]
        while last != LAST_PIECE:
            more = self.more()
            count += more
            last = (last + bytes(self.room[max(0, more - len(LAST_PIECE)) : more]))[-len(LAST_PIECE) :]
        return count

    def more(self):
        count = self.end.recv_into(self.room)
        if count == 0:
            raise ConnectionError("the server has ended its connection")
        return count


def read_on(address, path):
    reader = Reader(address)
    while True:
        reader.ask(path)


def main(address, path, count):
    threads = [threading.Thread(target=read_on, args=(address, path), daemon=True) for _ in range(int(count))]
    for thread in threads:
        thread.start()
    # A reader that has ended would make the others' load look like that of all.
    while all(thread.is_alive() for thread in threads):
        time.sleep(0.05)
    return 1


if __name__ == "__main__":
    sys.exit(main(*sys.argv[1:]))
