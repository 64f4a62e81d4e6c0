"""Logs of a build master, as its chunk server answers them. Of Python's own library alone."""

import http.client
import json
import time
import unicodedata
import urllib.parse

# Lines of one request: a long log comes in pieces.
MOST_LINES = 10_000
# Seconds that an answer may take.
PATIENCE = 60
# Seconds between two looks at a log that doesn't grow: they double from the first to the second.
FIRST_PAUSE, LAST_PAUSE = 0.05, 1.0
# What an answer has of one log, by the name of the list whose first object it is.
MEMBERS = {"logs": {"complete": bool, "num_lines": int}, "logchunks": {"content": str}}

# What is told of another server, mostly the door for workers.
NO_SERVER = "no chunk server answers there, as the second address of `listening` does"


class Gone(Exception):
    """The server can't be reached, or doesn't speak as a chunk server does."""


class Server:
    """A chunk server, over one connection that is opened anew where it was closed. Once it has
    ended its address may be another one's: `is_there` says whether it hasn't."""

    def __init__(self, web, is_there=lambda: True):
        """Raises a ValueError where that is no address."""
        parts = urllib.parse.urlsplit(web if "://" in web else f"http://{web}")
        if parts.scheme != "http" or not parts.hostname or not parts.port:
            raise ValueError(web)
        # As it is looked up: a name that can't be written so raises a ValueError too.
        parts.hostname.encode("idna")
        try:
            self.connection = http.client.HTTPConnection(parts.hostname, parts.port, timeout=PATIENCE)
        except http.client.InvalidURL as fault:
            raise ValueError(web) from fault
        self.has_answered = False
        self.is_there = is_there

    def ask(self, path, kind, **query):
        """What the answer has of the log, as MEMBERS says of that kind; None where there is no such
        log yet, or the server has no memory just now."""
        target = f"/api/v2/logs/{path}?{urllib.parse.urlencode(query)}"
        try:
            status, body = self.answer(target)
        except (OSError, http.client.HTTPException) as fault:
            is_other = isinstance(fault, http.client.HTTPException) and not self.has_answered
            why = getattr(fault, "strerror", None) or str(fault) or type(fault).__name__
            raise Gone(f"{NO_SERVER} ({why})" if is_other else why) from fault
        self.has_answered = True
        if status == 503:
            return None
        said = spoken(body)
        if status == 404 and said.get("error") == "no such log":
            return None
        found = first_of(said, kind)
        if status == 200 and found:
            return found
        raise Gone(f"{NO_SERVER} (status {status} for {plain(target)})")

    def answer(self, target):
        """Asks once more where the connection was closed since the last answer,
        as an idle one is."""
        try:
            return self.answer_once(target)
        except (http.client.RemoteDisconnected, ConnectionResetError, BrokenPipeError):
            return self.answer_once(target)

    def answer_once(self, target):
        try:
            if self.connection.sock is None:
                self.connection.connect()
                # Who is there behind the connection's begin was there at it, and had the address.
                if not self.is_there():
                    raise Gone("it has ended")
            self.connection.request("GET", target)
            answer = self.connection.getresponse()
            return answer.status, answer.read()
        except BaseException:
            self.connection.close()
            raise

    def state(self, log, name="stdio"):
        """Whether the log's command has ended, and how many lines the log has; None where there
        is no such log yet."""
        found = self.ask(log, "logs", name=name)
        return None if found is None else (found["complete"], found["num_lines"])

    def lines(self, log, offset, name="stdio"):
        """The log's next lines with their letters, at most MOST_LINES of them."""
        found = self.ask(f"{log}/contents", "logchunks", name=name, offset=offset, limit=MOST_LINES)
        return found["content"].split("\n")[:-1] if found else []


def spoken(body):
    """What an answer says; nothing where it isn't a chunk server's."""
    try:
        said = json.loads(body)
    except (ValueError, RecursionError):
        return {}
    return said if isinstance(said, dict) else {}


def first_of(said, kind):
    """The first object of a list that an answer has; None where it isn't a chunk server's."""
    objects = said.get(kind)
    first = objects[0] if isinstance(objects, list) and objects else None
    is_whole = isinstance(first, dict) and all(type(first.get(name)) is its for name, its in MEMBERS[kind].items())
    return first if is_whole else None


def pieces(server, log, name, absent):
    """The log's lines, piece by piece as they come, to the end of its command. `absent` is called
    once where there is no such log for more than a second. A master that was started again has
    another log under that number: its last line is asked for again, and has to be the same."""
    shown, last, pause, is_told, is_over = 0, [], FIRST_PAUSE, False, False
    while True:
        found = server.lines(log, shown - len(last), name)
        if found and found[: len(last)] != last:
            raise Gone(f"log {log} is another one now")
        lines = found[len(last) :]
        shown += len(lines)
        if lines:
            last = lines[-1:]
            yield lines
            pause = FIRST_PAUSE
            if len(found) < MOST_LINES:
                time.sleep(pause)
            continue
        # Only where nothing came it is asked whether the log has ended: no line waits for that.
        state = server.state(log, name)
        if state and state[1] < shown:
            raise Gone(f"log {log} is another one now")
        if state and state[0] and shown >= state[1]:
            return
        if state is None and name != "stdio" and not is_over:
            # It is asked for once more behind the end of its command: then it comes no more.
            is_over = has_ended(server, log)
            if is_over:
                continue
        if is_over:
            return
        if state is None and not is_told and pause == LAST_PAUSE:
            is_told = True
            absent()
        if state is None or shown >= state[1]:
            pause = min(LAST_PAUSE, 2 * pause)
            time.sleep(pause)


def has_ended(server, log):
    """Whether the log's command has ended: then it gets no other log."""
    state = server.state(log)
    return state is not None and state[0]


def plain(text):
    """A text as a terminal may show it: a control character is its number, but for tabs."""
    return "".join(sign if sign == "\t" or unicodedata.category(sign) != "Cc" else f"\\x{ord(sign):02x}" for sign in text)
