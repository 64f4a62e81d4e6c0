"""Standard streams whose writes wait, although somebody else has set them not to (O_NONBLOCK)."""

import io
import os
import select


class Waiting(io.RawIOBase):
    """A descriptor that takes all that is written."""

    def __init__(self, number):
        self.number = number

    def fileno(self):
        return self.number

    def isatty(self):
        return os.isatty(self.number)

    def writable(self):
        return True

    def write(self, part):
        while True:
            try:
                return os.write(self.number, part)
            except BlockingIOError:
                select.select([], [self.number], [])


def waiting(stream):
    """The stream as text, whatever its language: what it can't show is told by its number. One that was
    closed before takes all, and shows nothing."""
    if stream is None:
        return open(os.devnull, "w", encoding="utf-8")
    raw = io.BufferedWriter(Waiting(stream.fileno()))
    return io.TextIOWrapper(raw, encoding="utf-8", errors="backslashreplace", line_buffering=stream.isatty())
