"""Drives a build master from a trial: starts it, follows what it tells, gives it lines,
and looks at what is left of it.

    import drive
    with drive.Master(["buildmaster"], drive.configuration(latent, builds)) as master:
        master.wait_for("build 0 ended SUCCESS")
        status = master.end()

It needs nothing but Python's own library.
"""

import json
import os
import queue
import re
import subprocess
import sys
import tempfile
import threading
import time
import tomllib
import urllib.error
import urllib.request

# Bounds for a hang, and no part of what is tested.
MOST_SECONDS = 60
MOST_SECONDS_TO_END = 30
# A worker whose master is gone tries to connect for a minute, and its commands go on meanwhile.
MOST_SECONDS_OF_TRIES = 150


class Fault(Exception):
    """Something that a trial waited for did not come, or came otherwise."""


def check(condition, text):
    if not condition:
        raise Fault(text)


def run(*words, **keys):
    """Runs a program to its end, and answers what it printed; a fault where its status isn't 0."""
    done = subprocess.run(words, stdout=subprocess.PIPE, stderr=subprocess.STDOUT, text=True, **keys)
    check(done.returncode == 0, f"{' '.join(words)}: status {done.returncode}: {done.stdout.strip()}")
    return done.stdout


class Master:
    """A running `buildmaster serve`. What it prints and tells is kept,
    and shown where TELL is set."""

    def __init__(self, words, config, env=None, is_serve=True):
        """`words` is the program and what stands before `serve FILE`.
        Without `is_serve` they are all the words there are."""
        words = [*words, "serve", config] if is_serve else words
        self.begun, self.told, self._fresh = time.monotonic(), [], queue.Queue()
        pipe = subprocess.PIPE
        self.process = subprocess.Popen(words, stdin=pipe, stdout=pipe, stderr=pipe, text=True, env=env)
        streams = (self.process.stdout, self.process.stderr)
        self._open = len(streams)
        self._threads = [threading.Thread(target=self._read, args=(stream,), daemon=True) for stream in streams]
        for thread in self._threads:
            thread.start()
        self.listen, self.web = self.wait_for("listening ").split()[1:3]

    def __enter__(self):
        return self

    def __exit__(self, *_):
        if self.process.poll() is None:
            self.process.kill()
            self.process.wait()

    def _read(self, stream):
        for line in stream:
            line = line.rstrip("\n")
            self.told.append(line)
            if "TELL" in os.environ:
                sys.stdout.write(f"    {time.monotonic() - self.begun:6.2f} {line}\n")
                sys.stdout.flush()
            self._fresh.put(line)
        self._fresh.put(None)

    def wait_for(self, text, seconds=MOST_SECONDS):
        """The next line that contains `text`; lines before it are passed over."""
        end = time.monotonic() + seconds
        while self._open:
            try:
                line = self._fresh.get(timeout=max(0.001, end - time.monotonic()))
            except queue.Empty:
                raise Fault(f"no line with {text!r} within {seconds} seconds, after {self.told[-5:]}") from None
            if line is None:
                self._open -= 1
            elif text in line:
                return line
        raise Fault(f"the master ended without a line with {text!r}, after {self.told[-5:]}")

    def begin(self, builds=1):
        """Waits until so many builds run a step, and their commands have begun."""
        for _ in range(builds):
            self.wait_for("step started, log")
        time.sleep(0.5)

    def results(self, count, seconds=MOST_SECONDS):
        """The results of so many builds: it prints them in order, once every build has ended."""
        end = time.monotonic() + seconds
        while time.monotonic() < end:
            printed = (re.fullmatch(r"build (\d+) ([A-Z]+)", line) for line in list(self.told))
            found = {int(match[1]): match[2] for match in printed if match}
            if len(found) == count:
                return [found[number] for number in range(count)]
            time.sleep(0.02)
        raise Fault(f"no results of {count} builds within {seconds} seconds, after {self.told[-5:]}")

    def say(self, line):
        """One line on its standard input, as `cancel 0`."""
        self.process.stdin.write(line + "\n")
        self.process.stdin.flush()

    def end(self):
        """Ends its input and waits for its end; answers the exit status."""
        self.process.stdin.close()
        return self.wait()

    def wait(self):
        try:
            status = self.process.wait(MOST_SECONDS_TO_END)
        except subprocess.TimeoutExpired:
            raise Fault(f"the master did not end within {MOST_SECONDS_TO_END} seconds") from None
        for thread in self._threads:
            thread.join(2)
        return status

    def _get(self, path):
        try:
            with urllib.request.urlopen(f"http://{self.web}/api/v2/logs/{path}", timeout=10) as answer:
                return json.load(answer)
        except urllib.error.HTTPError as error:
            if error.code == 404:
                return None
            raise

    def log(self, number):
        """The lines of a log, each with its letter, and whether it is complete.
        None where it isn't there."""
        state = self._get(number)
        if state is None:
            return None
        text = self._get(f"{number}/contents")["logchunks"][0]["content"]
        return text.split("\n")[:-1], state["logs"][0]["complete"]

    def whole_log(self, number):
        end = time.monotonic() + MOST_SECONDS
        while time.monotonic() < end:
            found = self.log(number)
            if found is not None and found[1]:
                return found[0]
            time.sleep(0.05)
        raise Fault(f"log {number} was not complete within {MOST_SECONDS} seconds")


def reference(command):
    """What the log of a step with these words has to be: its header, its output, its errors,
    its last line."""
    key = tuple(command)
    if key not in _references:
        done = subprocess.run(command, stdin=subprocess.DEVNULL, capture_output=True, text=True)
        _references[key] = (
            "h" + " ".join(command),
            ["o" + line for line in done.stdout.split("\n")[:-1]],
            ["e" + line for line in done.stderr.split("\n")[:-1]],
            f"hprogram finished with exit code {done.returncode}",
        )
    return _references[key]


_references = {}


def compare(lines, command):
    """Faults where a log isn't, line by line, what the command prints here.
    Between the two pipes no order is kept."""
    first, out, err, last = reference(command)
    parts = (
        ("first line", [lines[0]], [first]),
        ("standard output", [line for line in lines if line[0] == "o"], out),
        ("standard error", [line for line in lines if line[0] == "e"], err),
        ("last line", [lines[-1]], [last]),
        ("number of lines", len(lines), 2 + len(out) + len(err)),
    )
    for what, got, wanted in parts:
        check(got == wanted, f"{what} of the log of {command}: {got!r}, not {wanted!r}")
    return len(lines)


def compare_all(master, commands):
    """Compares a master's first logs, line by line, with what these commands print here,
    each to be there once.

    Builds run beside each other, so it is the first line of a log that says whose it is.
    Answers what was compared.
    """
    wanted = {reference(command)[0]: command for command in commands}
    lines = 0
    for number in range(len(commands)):
        log = master.whole_log(number)
        check(log and log[0] in wanted, f"log {number} is of none of the commands: {log}")
        lines += compare(log, wanted.pop(log[0]))
    check(master.log(len(commands)) is None, "there are more logs than commands")
    return f"{lines} lines of {len(commands)} logs are as they should be"


def configuration(latent, builds, idle_ticks=100, resume_ticks=500, slots=2, listen="127.0.0.1:0"):
    """Writes a configuration of one worker, w0, whose password is `secret`;
    answers the file's path.

    `builds` are lists of steps, each a list of words;
    `latent` is None where the worker connects by itself.
    """
    quoted = json.dumps  # a JSON text, or list of texts, of printable characters is one of TOML too
    lines = [f"listen = {quoted(listen)}", 'web = "127.0.0.1:0"']
    lines += ["[[worker]]", 'name = "w0"', 'password = "secret"', f"slots = {slots}"]
    if latent is not None:
        lines += [f"latent = {quoted(latent)}", f"idle_ticks = {idle_ticks}"]
    lines.append(f"resume_ticks = {resume_ticks}")
    for steps in builds:
        lines += ["[[build]]", 'worker = "w0"']
        for number, words in enumerate(steps):
            lines += ["[[build.step]]", f'name = "step {number}"', f"command = {quoted(words)}"]
    file, path = tempfile.mkstemp(suffix=".toml")
    with os.fdopen(file, "w") as text:
        text.write("\n".join(lines) + "\n")
    return path


def steps_of(config):
    """The commands of a configuration's steps, in order."""
    with open(config, "rb") as file:
        return [step["command"] for build in tomllib.load(file)["build"] for step in build.get("step", [])]


def processes():
    """Each process of this namespace but this one, and what has ended: its id,
    and its command line."""
    found = {}
    for entry in filter(str.isdigit, os.listdir("/proc")):
        try:
            with open(f"/proc/{entry}/cmdline", "rb") as file:
                words = file.read().replace(b"\0", b" ").decode(errors="replace").strip()
        except (FileNotFoundError, ProcessLookupError):
            continue
        # one that has ended, and is waited for by nobody yet, has no words
        if words and int(entry) != os.getpid():
            found[int(entry)] = words
    return found


class Before:
    """The processes that are there before a trial:
    each other one that is there after it was left behind by it."""

    def __init__(self):
        self.processes = processes()

    def others(self):
        return {number: words for number, words in processes().items() if number not in self.processes}

    def leaves_nothing(self, what, but=(), seconds=MOST_SECONDS_TO_END, jobs=list):
        """Faults where some process, or one of `jobs()`, is there for so long.
        `but` are processes that are to be there."""
        begun = time.monotonic()
        rest = True
        while rest and time.monotonic() - begun < seconds:
            time.sleep(0.05)
            rest = [words for number, words in self.others().items() if number not in but] + jobs()
        for number in set(self.others()) - set(but) if rest else ():
            subprocess.run(["kill", "-KILL", str(number)], stderr=subprocess.DEVNULL)
        check(not rest, f"{what}: left behind: {rest}")
        print(f"   {what}: nothing is left behind, {time.monotonic() - begun:.1f} s later", flush=True)


def main(trials):
    """Runs the trials, or those that the command line names.
    The last line is `N passed, M failed`."""
    names = sys.argv[1:] or list(trials)
    failed = 0
    for name in names:
        print(f"-- {name}: {' '.join((trials[name].__doc__ or '').split())}", flush=True)
        try:
            trials[name]()
        except Fault as fault:
            failed += 1
            print(f"   FAILED: {fault}", flush=True)
    print(f"{len(names) - failed} passed, {failed} failed")
    sys.exit(1 if failed else 0)
