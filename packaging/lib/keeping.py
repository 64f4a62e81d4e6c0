"""Reads the logs of a run while they grow, keeps them as files, and prints the ends of those that
failed. One thread asks for all of them in turn."""

import os
import re
import threading
import time

from chunks import MOST_LINES, Gone, Server, plain

# How many lines of a failed step are printed.
LAST_LINES = 40
# Seconds between two looks at logs that don't grow.
PAUSE = 0.1
# Seconds for which the log of a step that has ended may give nothing before it is whole.
LAST_SECONDS = 20
# Seconds after which a server that doesn't answer is gone.
MOST_ABSENT = 3
# The most bytes of a name in the name of a file.
MOST_NAME = 100


def address(web):
    """Where a server is reached from here that listens at this address: one that listens on all
    addresses is reached by the loopback."""
    host, _, port = web.rpartition(":")
    return f"{({'0.0.0.0': '127.0.0.1', '[::]': '[::1]'}).get(host, host)}:{port}"


def counted(count):
    return f"{count} log" if count == 1 else f"{count} logs"


def stem(remark):
    """The name of a log's files: the step's place and name, without signs that a path could read."""
    name = re.sub(r"[^A-Za-z0-9._+-]", "_", remark["step"])[:MOST_NAME]
    return os.path.join(f"build-{remark['build']}", f"{remark['place']}-{name}")


class Log:
    """A step's log, as far as it was read."""

    def __init__(self, remark):
        self.id, self.build, self.place, self.step = remark["log"], remark["build"], remark["place"], remark["step"]
        self.stem = stem(remark)
        # When its step ended, or lines came after that.
        self.shown, self.last, self.ended, self.is_failed, self.is_whole = 0, [], None, False, False
        self.files = None


class Keeper:
    """Reads each log to its end, while the server is there that has it."""

    def __init__(self, web, asked, board, is_there):
        self.folder, self.follows, self.board = asked.keep, asked.follow, board
        self.server = Server(address(web), is_there)
        self.logs, self.open = [], []
        self.has_failed, self.is_gone, self.is_closing = False, False, False
        self.absent_since = None
        self.changed = threading.Condition()
        self.thread = threading.Thread(target=self.read_all, daemon=True)
        self.thread.start()

    def begin(self, remark):
        with self.changed:
            log = Log(remark)
            self.logs.append(log)
            self.open.append(log)
            self.changed.notify()

    def end(self, remark, is_failed):
        with self.changed:
            for log in self.open:
                if log.id == remark["log"]:
                    log.ended, log.is_failed = time.monotonic(), is_failed
            self.changed.notify()

    def close(self):
        """Waits until each log was read to its end."""
        with self.changed:
            self.is_closing = True
            for log in self.open:
                log.ended = log.ended or time.monotonic()
            self.changed.notify()
        self.thread.join()

    def read_all(self):
        """Reads logs that are open, in turn, until all are read and none comes any more."""
        while True:
            with self.changed:
                logs = list(self.open)
                if not logs:
                    if self.is_closing:
                        return
                    self.changed.wait()
                    continue
            # Without --keep and --follow nobody reads before the end.
            has_grown = [self.step(log) for log in logs if log.ended or self.folder or self.follows]
            if self.is_gone:
                return
            if not any(has_grown):
                with self.changed:
                    self.changed.wait(PAUSE)

    def step(self, log):
        """Reads what is there of a log; answers whether there was more."""
        try:
            state = self.server.state(log.id)
            if state and not self.folder and not self.follows:
                # Of a log that nobody keeps the end alone is wanted.
                log.shown = max(log.shown, state[1] - LAST_LINES)
            lines = self.server.lines(log.id, log.shown) if state else []
        except Gone:
            self.absent_since = self.absent_since or time.monotonic()
            self.is_gone = time.monotonic() > self.absent_since + MOST_ABSENT
            return False
        self.absent_since = None
        log.shown += len(lines)
        log.last = (log.last + lines)[-LAST_LINES:]
        self.keep(log, lines)
        if self.follows:
            for line in lines:
                self.board.say(f"{log.build}.{log.place} | {plain(line[1:])}")
        if lines and log.ended:
            log.ended = time.monotonic()
        log.is_whole = bool(state and state[0] and log.shown >= state[1])
        is_late = log.ended is not None and time.monotonic() > log.ended + LAST_SECONDS
        if log.ended is not None and (log.is_whole or is_late):
            self.finish(log)
        return len(lines) == MOST_LINES

    def finish(self, log):
        """The log is over: its files are closed, and its end is printed where the step failed."""
        self.shut(log)
        if log.is_failed and not self.follows:
            head = f"build {log.build}, step {log.place} ({plain(log.step)}), the last lines of its log:"
            self.board.say("\n".join([head] + [f"    {plain(line[1:])}" for line in log.last]))
        with self.changed:
            self.open.remove(log)

    def keep(self, log, lines):
        """Writes lines to the log's files, where logs are kept."""
        if not self.folder or log.files == ():
            return
        try:
            if log.files is None:
                path = os.path.join(self.folder, log.stem)
                os.makedirs(os.path.dirname(path), exist_ok=True)
                log.files = (open(f"{path}.log", "w", encoding="utf-8"), open(f"{path}.raw", "w", encoding="utf-8"))
            log.files[0].write("".join(f"{line[1:]}\n" for line in lines))
            log.files[1].write("".join(f"{line}\n" for line in lines))
            for file in log.files:
                file.flush()
        except OSError as fault:
            self.fail(log, fault)

    def shut(self, log):
        try:
            for file in log.files or ():
                file.close()
        except OSError as fault:
            self.fail(log, fault)

    def fail(self, log, fault):
        """A log can't be kept: that is told, once."""
        self.has_failed = True
        for file in log.files or ():
            try:
                file.close()
            except OSError:
                pass
        log.files = ()
        self.board.tell(f"can't keep {plain(os.path.join(self.folder, log.stem))}.log: {fault.strerror}", True)

    def report(self, is_lost):
        """What was kept, and what isn't whole."""
        partly = [log for log in self.logs if not log.is_whole]
        for log in self.open:
            self.shut(log)
        if partly and self.folder:
            self.has_failed = True
        lines = []
        if self.folder:
            kept = [log for log in self.logs if log.files]
            lines.append(f"kept {counted(len(kept))} in {plain(self.folder)}" + (f", {len(partly)} of them not to their ends" if partly else ""))
        elif is_lost:
            lines.append(f"{counted(len(partly))} not read to the end")
        return lines
