"""A master whose chunk server scripts of this folder ask: both programs,
over commands that print what the scripts know."""

import http.client
import json
import os
import re
import shutil
import subprocess
import sys
import tempfile
import time

TOP = os.path.abspath(f"{__file__}/../../..")
PROGRAMS = os.path.abspath(os.environ.get("PROGRAMS", os.path.join(TOP, "dist")))
MOST_SECONDS = 120


def state_of(log, name, count, complete):
    """What is answered of a log."""
    value = {"complete": complete, "logid": log, "name": name, "num_lines": count, "type": "s"}
    return {"logs": [value], "meta": {}}


def chunk_of(log, first, content):
    """What is answered of a log's lines."""
    return {"logchunks": [{"content": content, "firstline": first, "logid": log}], "meta": {}}


def parsed(body):
    """The value of a JSON text in UTF-8. A key that stands twice is an error,
    as a number that JSON doesn't have is."""

    def once(pairs):
        keys = [key for key, _ in pairs]
        assert len(keys) == len(set(keys)), keys
        return dict(pairs)

    return json.loads(body.decode(), object_pairs_hook=once, parse_constant=lambda word: sys.exit(word))


class Master:
    """A master with a build for each command, each for a worker of its own, which run until the
    `with` ends. Where it isn't staffed a script has to log in as these workers."""

    def __init__(self, commands, is_staffed=True):
        self.commands, self.is_staffed = commands, is_staffed
        self.folder, self.master, self.workers = tempfile.mkdtemp(prefix="web-"), None, []

    def __enter__(self):
        try:
            self.begin()
        except BaseException:
            self.__exit__()
            raise
        return self

    def __exit__(self, *_):
        for process in [*self.workers, self.master]:
            if process is not None and process.poll() is None:
                process.kill()
                process.wait()
        shutil.rmtree(self.folder, ignore_errors=True)

    def begin(self):
        text = 'listen = "127.0.0.1:0"\nweb = "127.0.0.1:0"\n'
        for place, command in enumerate(self.commands):
            text += f'[[worker]]\nname = "w{place}"\npassword = "p"\n'
            text += f'[[build]]\nworker = "w{place}"\n'
            text += f'[[build.step]]\nname = "s"\ncommand = {json.dumps(command)}\n'
        with open(f"{self.folder}/config.toml", "w", encoding="utf-8") as file:
            file.write(text)
        with open(f"{self.folder}/told", "w", encoding="utf-8") as told:
            words = [f"{PROGRAMS}/buildmaster", "serve", "config.toml"]
            pipe = subprocess.PIPE
            self.master = subprocess.Popen(words, cwd=self.folder, stdin=pipe, stdout=pipe, stderr=told, text=True)
        _, self.listen, self.web = self.master.stdout.readline().split()
        for place in range(len(self.commands) if self.is_staffed else 0):
            words = [f"{PROGRAMS}/buildworker", self.listen, f"w{place}", "p"]
            null = subprocess.DEVNULL
            self.workers.append(subprocess.Popen(words, cwd=self.folder, stdin=null, stdout=null, stderr=null))

    def log(self, place):
        """The id of the log of a command, once it runs."""
        end = time.monotonic() + MOST_SECONDS
        while time.monotonic() < end:
            with open(f"{self.folder}/told", encoding="utf-8", errors="replace") as file:
                told = file.read()
            logs = {int(log) for log in re.findall(r"^build \d+ \S+ started, log (\d+): ", told, re.M)}
            mine = sorted(log for log in logs if log % len(self.commands) == place)
            if mine:
                return mine[0]
            time.sleep(0.01)
        raise TimeoutError(told)

    def whole(self, log):
        """Waits until the command of a log has ended; answers how many lines the log has."""
        end = time.monotonic() + MOST_SECONDS
        while time.monotonic() < end:
            status, value = self.get(f"/api/v2/logs/{log}")
            if status == 200 and value["logs"][0]["complete"]:
                return value["logs"][0]["num_lines"]
            time.sleep(0.05)
        raise TimeoutError(f"log {log} doesn't end")

    def descriptors(self):
        """How many descriptors the master has open."""
        return len(os.listdir(f"/proc/{self.master.pid}/fd"))

    def get(self, target):
        """Status and value of an answer, over a connection of its own."""
        connection = http.client.HTTPConnection(self.web, timeout=20)
        try:
            connection.request("GET", target)
            answer = connection.getresponse()
            return answer.status, parsed(answer.read())
        finally:
            connection.close()

    def memory(self):
        """How many MB the master holds now."""
        with open(f"/proc/{self.master.pid}/status", encoding="ascii", errors="replace") as file:
            return int(re.search(r"VmRSS:\s+(\d+) kB", file.read())[1]) / 1000

    def peak(self):
        """The most MB that it held so far."""
        with open(f"/proc/{self.master.pid}/status", encoding="ascii", errors="replace") as file:
            return int(re.search(r"VmHWM:\s+(\d+) kB", file.read())[1]) / 1000
