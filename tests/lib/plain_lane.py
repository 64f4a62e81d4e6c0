"""A lane in plain lists: what `buildmaster replay` has to answer, written here from what the protocol
says. It shares nothing with the product."""

import os
import subprocess
import sys

import wire

TOP = os.path.abspath(f"{__file__}/../../..")
PROGRAM = os.path.join(os.environ.get("PROGRAMS", os.path.join(TOP, "dist")), "buildmaster")
MOST_SECONDS = 60
MOST_OPEN = 4
LETTERS = {"stdout": "o", "stderr": "e", "header": "h"}
NO_COMMAND = "exception no such command"


class Lane:
    """What is known of a lane after some steps, and how many items its viewers see."""

    def __init__(self, capacity):
        self.capacity, self.link, self.shown = capacity, "down", 0
        # The orders of the session, and its requests with their first verdicts.
        self.orders, self.verdicts = 0, {}
        # The commands, each with the number of its start, and what is known of it.
        self.commands = []
        # What went through the queue: pairs of a log's key and its lines, or of None.
        self.items = []

    def is_open(self, k):
        return k < len(self.commands) and self.commands[k]["state"] == "open"

    def open(self):
        return [k for k in range(len(self.commands)) if self.is_open(k)]

    def is_full(self):
        return len(self.items) - self.shown >= self.capacity

    def end(self, k, is_lost=False, has_fault=False):
        command = self.commands[k]
        if is_lost:
            command["state"] = "RETRY"
        elif command["is_stopped"]:
            command["state"] = "CANCELLED"
        elif has_fault or command["code"] is None:
            command["state"] = "EXCEPTION"
        else:
            command["state"] = "FAILURE" if command["code"] else "SUCCESS"

    def up(self):
        if self.link == "up":
            return ["refused already up"]
        if self.link == "down":
            self.orders, self.verdicts = 0, {}
        self.link = "up"
        return ["ok"]

    def cut(self):
        if self.link != "up":
            return ["refused not up"]
        self.link = "cut"
        return ["ok"]

    def down(self):
        if self.link == "down":
            return ["refused not up"]
        if self.open() and self.is_full():
            return ["busy"]
        self.link = "down"
        if self.open():
            self.items.append((None, []))
        for k in self.open():
            self.end(k, is_lost=True)
        return ["ok"]

    def go(self):
        if self.link != "up":
            return ["refused not up"]
        if len(self.open()) == MOST_OPEN:
            return ["refused too many open"]
        if self.is_full():
            return ["busy"]
        k, order = len(self.commands), self.orders
        self.orders += 1
        self.commands.append({"order": order, "state": "open", "is_stopped": False, "code": None})
        self.items.append(((k, "stdio"), []))
        return [f"start {order} {k}"]

    def stop(self, k):
        if self.link != "up":
            return ["refused not up"]
        if not self.is_open(k):
            return ["refused no such command"]
        order, self.orders = self.orders, self.orders + 1
        self.commands[k]["is_stopped"] = True
        return [f"interrupt {order} {k}"]

    def request(self, number, verdict, take=None):
        """A request with this verdict, if it isn't a repeat. `take` is what comes of it then,
        where that goes through the queue."""
        if self.link != "up":
            return ["refused not up"]
        if number not in self.verdicts:
            if take is not None:
                if self.is_full():
                    return ["busy"]
                take()
            self.verdicts[number] = verdict
        return [f"answer {number} {self.verdicts[number]}"]

    def update(self, number, k, fields):
        def take():
            logs = {}
            for name, value in fields:
                if name == "rc":
                    self.commands[k]["code"] = value
                elif name == "log":
                    logs.setdefault(value[0], []).extend(lines_of("o", value[1]))
                else:
                    logs.setdefault("stdio", []).extend(lines_of(LETTERS[name], value))
            self.items.append((k, logs))

        return self.request(number, *(("nil", take) if self.is_open(k) else (NO_COMMAND,)))

    def complete(self, number, k, fault):
        def take():
            self.end(k, has_fault=fault is not None)
            self.items.append((None, []))

        return self.request(number, *(("nil", take) if self.is_open(k) else (NO_COMMAND,)))

    def response(self, order, is_fault):
        """The worker's answer to an order."""
        if self.link != "up":
            return ["refused not up"]
        started = [k for k in self.open() if self.commands[k]["order"] == order]
        if is_fault and started:
            if self.is_full():
                return ["busy"]
            self.end(started[0], has_fault=True)
            self.items.append((None, []))
        return ["noted"]

    def drain(self):
        if self.shown == len(self.items):
            return ["empty"]
        self.shown += 1
        return ["took"]

    def lines(self, k, name, items):
        """The lines of a log after these items; None where it isn't there."""
        found = None
        for key, what in items:
            if key == (k, name):
                found = []
            elif key == k and name in what:
                found = (found or []) + what[name]
        return found

    def look(self, k, offset, limit, name):
        found = self.lines(k, name, self.items[: self.shown])
        if found is None:
            return ["no log"]
        part = found[offset : offset + limit]
        return [f"chunk {offset} {len(part)}", *part]

    def log(self, k, name):
        found = self.lines(k, name, self.items)
        if found is None:
            return ["no log"]
        return [f"log {k} {len(found)} {self.commands[k]['state']}", *found]


def lines_of(letter, text):
    lines = text.split("\n")
    return [letter + line for line in (lines[:-1] if lines[-1] == "" else lines)]


def in_line(**keys):
    return "in " + wire.packed(keys).hex()


def kind_of(answer):
    """An answer's first line without its numbers."""
    return " ".join(word for word in answer.split() if not word.isdigit())


def replayed(capacity, script, wanted):
    """Plays a script, and stops where its answers aren't those that are wanted. Gives their lines."""
    text = "\n".join(script) + "\n"
    came = subprocess.run([PROGRAM, "replay", str(capacity)], input=text.encode(), capture_output=True, timeout=MOST_SECONDS)
    printed = came.stdout.decode().split("\n")[:-1]
    if (came.returncode, came.stderr, printed) != (0, b"", wanted):
        place = next((at for at, (one, other) in enumerate(zip(printed, wanted)) if one != other), min(len(printed), len(wanted)))
        differs = f"line {place + 1} is {printed[place : place + 1]}, wanted {wanted[place : place + 1]}"
        sys.exit(f"{text}\nFAILED: status {came.returncode}, {came.stderr!r}; {differs}")
    return printed


def floors_are_met(met, floors):
    """Stops where something was met too seldom to show anything."""
    rare = {kind: met[kind] for kind, floor in floors.items() if met[kind] < floor}
    if rare:
        sys.exit(f"FAILED: too seldom met: {rare} of {dict(met)}")
