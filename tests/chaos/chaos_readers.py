"""The readers of `tests/chaos/chaos`: those that compare every chunk,
and beside them those that read slowly, or not at all."""

import asyncio
import contextlib
import http.client
import json
import random
import re
import socket
import threading
import time

from chaos_parts import CHANCE, FIGURES, fault
from wire import reset

MOST_AT_ONCE = 4_000
# A reader that takes nothing for 30 seconds is cut.
# More than so many bytes of an answer lie in no buffers.
SECONDS_WITHOUT_READING = 45
MOST_BUFFERED = 8_000_000


class Reader(threading.Thread):
    """Polls the web until it is told to stop."""

    def __init__(self, web, builds, shelf, seed):
        super().__init__(daemon=True)
        self.web, self.builds, self.shelf = web, builds, shelf
        self.chance, self.link, self.is_over = random.Random(seed), None, False

    def get(self, path):
        """The answer, parsed; None where there is no such log."""
        for _ in range(20):
            try:
                self.link = self.link or http.client.HTTPConnection(*self.web, timeout=30)
                self.link.request("GET", path)
                answer = self.link.getresponse()
                body = answer.read()
            except (OSError, http.client.HTTPException):
                FIGURES["readers' connections lost"] += 1
                self.link = None
                time.sleep(0.1)
                continue
            if answer.status == 404 and json.loads(body) == {"error": "no such log"}:
                return None
            if answer.status == 200:
                return json.loads(body)
            if answer.status != 503:
                raise AssertionError(f"{path}: {answer.status} {body[:200]}")
        raise AssertionError(f"{path}: no answer")

    def look(self, log):
        known, has_ended = self.shelf.count(log)
        state = self.get(f"/api/v2/logs/{log}")
        if state is None:
            assert known == 0 and not has_ended, f"log {log} is gone"
            return
        state = state["logs"][0]
        assert state["num_lines"] >= known, f"log {log} shrank from {known} lines to {state['num_lines']}"
        assert state["complete"] or not has_ended, f"log {log} goes on after its end"
        if self.chance.random() < 0.7:
            offset, limit = max(0, known - self.chance.randrange(30)), MOST_AT_ONCE
        else:
            offset, limit = self.chance.randrange(known + 1), self.chance.randrange(500)
        self.read(log, offset, limit, min(limit, known - offset))
        if state["complete"]:
            self.shelf.end(log, state["num_lines"])

    def read(self, log, offset, limit, least):
        chunk = self.get(f"/api/v2/logs/{log}/contents?offset={offset}&limit={limit}")["logchunks"][0]
        assert (chunk["firstline"], chunk["logid"]) == (offset, log), f"log {log}: another chunk than from {offset} on"
        lines = chunk["content"].split("\n")
        assert lines.pop() == "", f"log {log}: a chunk ends within a line"
        assert least <= len(lines) <= limit, f"log {log}: {len(lines)} lines from {offset} on, {least} were seen before"
        self.shelf.add(log, offset, lines)
        FIGURES["looks"] += 1

    def run(self):
        while not self.is_over:
            logs = self.builds.logs()
            going = [log for log in logs if not self.shelf.count(log)[1]]
            for log in going + self.chance.sample(logs, min(3, len(logs))):
                begun = time.monotonic()
                try:
                    self.look(log)
                except Exception as error:
                    fault(f"reader: {error!r}")
                    time.sleep(1)
                # It rests as long as it looked: on a busy machine nothing else of this script would go on.
                time.sleep(min(time.monotonic() - begun, 1))
            time.sleep(0.02)
        if self.link is not None:
            self.link.close()


class BadReaders:
    """Readers that say half a request, read slowly, or stop in the midst of an answer."""

    def __init__(self, web, builds, shelf):
        self.web, self.builds, self.shelf = web, builds, shelf

    async def opened(self):
        """A connection with small buffers on this side."""
        end = socket.socket()
        try:
            end.setsockopt(socket.SOL_SOCKET, socket.SO_RCVBUF, 4_096)
            end.setblocking(False)
            await asyncio.get_running_loop().sock_connect(end, self.web)
            return await asyncio.open_connection(sock=end, limit=4_096)
        except BaseException:
            end.close()
            raise

    def longest(self):
        """The log of which most lines were seen, and how many."""
        return max(((log, self.shelf.count(log)[0]) for log in self.builds.logs()), key=lambda each: each[1], default=(0, 0))

    async def dawdle(self):
        """Says half a request, or reads a long answer slowly, and goes away."""
        reader, writer = await self.opened()
        FIGURES["slow readers"] += 1
        try:
            log = CHANCE.choice(self.builds.logs() or [0])
            request = b"GET /api/v2/logs/%d/contents HTTP/1.1\r\nHost: x\r\n\r\n" % log
            writer.write(request[: CHANCE.choice([0, 10, len(request), len(request)])])
            for _ in range(CHANCE.randrange(40)):
                await asyncio.sleep(0.1)
                if CHANCE.random() < 0.5:
                    await asyncio.wait_for(reader.read(100), 5)
        except (OSError, asyncio.TimeoutError):
            pass
        finally:
            reset(writer)

    async def stop(self):
        """Asks for the longest log, reads the beginning of the answer, and then nothing for longer than the server waits:
        what lies in no buffer by then never comes."""
        log, lines = self.longest()
        reader, writer = await self.opened()
        try:
            writer.write(b"GET /api/v2/logs/%d/contents HTTP/1.0\r\n\r\n" % log)
            head = await asyncio.wait_for(reader.read(CHANCE.randrange(1, 4_000)), 30)
            if lines > 1_000 and head:
                FIGURES["readers that stopped in mid-answer"] += 1
            await asyncio.sleep(SECONDS_WITHOUT_READING)
            came = head
            with contextlib.suppress(OSError):
                while more := await asyncio.wait_for(reader.read(65_536), 30):
                    came += more
            if len(came) > MOST_BUFFERED:
                fault(f"a reader that stopped for {SECONDS_WITHOUT_READING} s was still served: {len(came)} bytes of log {log}")
            elif not re.search(rb'"meta":\{\}\}$', came):
                FIGURES["readers that were cut"] += 1
        except (OSError, asyncio.TimeoutError):
            FIGURES["readers that were cut"] += 1
        finally:
            reset(writer)
