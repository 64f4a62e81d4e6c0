"""The two systems that `bench/live` compares: ours, and Debian's buildbot where it is installed.

Each runs builds on workers of its own on this machine. A build is a worker's number and a list of
commands, each of them a text for the shell. What is asked of both is the same, and so is what is
asked of their web.
"""

import http.client
import importlib.machinery
import importlib.util
import json
import os
import re
import resource
import shutil
import signal
import socket
import subprocess
import sys
import tempfile
import time

HERE = os.path.dirname(os.path.abspath(__file__))
PROGRAMS = os.path.abspath(os.environ.get("PROGRAMS", os.path.join(HERE, "..", "dist")))
PATIENCE = 300
NULL = subprocess.DEVNULL


def loaded(name):
    """A script of this folder, as a module."""
    loader = importlib.machinery.SourceFileLoader(name, f"{HERE}/{name}")
    module = importlib.util.module_from_spec(importlib.util.spec_from_loader(name, loader))
    loader.exec_module(module)
    return module


class Web:
    """A chunk server's answers, over one connection."""

    def __init__(self, address):
        self.address = address
        self.connection = http.client.HTTPConnection(address, timeout=PATIENCE)

    def get(self, path):
        """The answer's value; None where it isn't there yet."""
        try:
            self.connection.request("GET", path)
            answer = self.connection.getresponse()
            body = answer.read()
        except (http.client.HTTPException, ConnectionError):
            self.connection.close()
            return None
        return json.loads(body) if answer.status == 200 else None

    def state(self, log):
        """Whether the command has ended, and how many lines its log has."""
        value = self.get(f"/api/v2/logs/{log}")
        return (value["logs"][0]["complete"], value["logs"][0]["num_lines"]) if value else (False, 0)

    def lines(self, log, offset):
        value = self.get(f"/api/v2/logs/{log}/contents?offset={offset}&limit=100000")
        return value["logchunks"][0]["content"].split("\n")[:-1] if value else []

    def ended(self, log, pause=0.001):
        """Waits until the command has ended; answers the moment and the log's lines."""
        end = time.monotonic() + PATIENCE
        while time.monotonic() < end:
            complete, count = self.state(log)
            if complete:
                return time.monotonic(), count
            time.sleep(pause)
        raise TimeoutError(f"log {log} doesn't end")


def spent(process):
    """Seconds of processor time that a process took so far."""
    with open(f"/proc/{process.pid}/stat", encoding="ascii", errors="replace") as file:
        fields = file.read().rpartition(")")[2].split()
    return (int(fields[11]) + int(fields[12])) / os.sysconf("SC_CLK_TCK")


def spent_by_threads(process):
    """Seconds of processor time that a process's threads that run took so far, to the nanosecond."""
    threads = os.listdir(f"/proc/{process.pid}/task")
    paths = [f"/proc/{process.pid}/task/{thread}/schedstat" for thread in threads]
    return sum(int(open(path, encoding="ascii").read().split()[0]) for path in paths) / 1e9


def peak(process):
    """The most memory that a process had so far, in MB."""
    with open(f"/proc/{process.pid}/status", encoding="ascii", errors="replace") as file:
        return int(re.search(r"VmHWM:\s+(\d+) kB", file.read())[1]) / 1000


def free_port():
    with socket.create_server(("127.0.0.1", 0)) as listener:
        return listener.getsockname()[1]


class System:
    """A master and its workers in a folder of their own, from `with` on."""

    def __init__(self, workers, builds):
        self.count, self.builds = workers, builds
        self.folder, self.master, self.workers = None, None, []

    def __enter__(self):
        self.folder = tempfile.mkdtemp(prefix="bench-", dir="/dev/shm" if os.path.isdir("/dev/shm") else None)
        try:
            self.begin()
        except BaseException:
            self.__exit__()
            raise
        return self

    def __exit__(self, *_):
        for process in [*self.workers, self.master]:
            if process is not None and process.poll() is None:
                process.kill()
                process.wait()
        shutil.rmtree(self.folder, ignore_errors=True)

    def run(self, words, **how):
        return subprocess.Popen(words, cwd=self.folder, **{"stdin": NULL, "stdout": NULL, "stderr": NULL, **how})


class Ours(System):
    """buildmaster and buildworker."""

    name, programs = "ours", PROGRAMS

    @classmethod
    def of(cls, name, folder):
        """The same of another folder's programs."""
        return type(name, (cls,), {"name": name, "programs": os.path.abspath(folder)})

    @classmethod
    def is_here(cls):
        return all(os.access(f"{cls.programs}/{name}", os.X_OK) for name in ("buildmaster", "buildworker"))

    def begin(self):
        text = 'listen = "127.0.0.1:0"\nweb = "127.0.0.1:0"\n'
        for worker in range(self.count):
            text += f'[[worker]]\nname = "w{worker}"\npassword = "p"\n'
        for worker, commands in self.builds:
            text += f'[[build]]\nworker = "w{worker}"\n'
            for command in commands:
                text += f'[[build.step]]\nname = "s"\ncommand = {json.dumps(["sh", "-c", command])}\n'
        with open(f"{self.folder}/config.toml", "w", encoding="utf-8") as file:
            file.write(text)
        pipe = subprocess.PIPE
        self.told = open(f"{self.folder}/told", "w+", encoding="utf-8")
        words = [f"{self.programs}/buildmaster", "serve", "config.toml"]
        self.master = self.run(words, stdin=pipe, stdout=pipe, stderr=self.told, text=True)
        _, listen, web = self.master.stdout.readline().split()
        self.web = Web(web)
        for worker in range(self.count):
            self.workers.append(self.run([f"{self.programs}/buildworker", listen, f"w{worker}", "p"]))
        self.wait_for(self.count, r"^worker \S+ logged in$")

    def remarks(self, form):
        with open(f"{self.folder}/told", encoding="utf-8", errors="replace") as file:
            return re.findall(form, file.read(), re.M)

    def wait_for(self, count, form):
        end = time.monotonic() + PATIENCE
        while len(self.remarks(form)) < count:
            if time.monotonic() > end or self.master.poll() is not None:
                raise TimeoutError(form)
            time.sleep(0.002)

    def logs(self):
        """The first log of each build, once all have started."""
        self.wait_for(len(self.builds), r"^build (\d+) started on")
        form = r"^build (\d+) step started, log (\d+): "
        while len({build for build, _ in self.remarks(form)}) < len(self.builds):
            time.sleep(0.002)
        first = {}
        for build, log in self.remarks(form):
            first.setdefault(int(build), int(log))
        return [first[build] for build in range(len(self.builds))]

    def end_builds(self):
        """Waits until every build has ended."""
        for _ in self.builds:
            if " SUCCESS" not in self.master.stdout.readline():
                raise ValueError("a build failed")

    def stop(self):
        """Ends the master; answers how long it took."""
        begun = time.monotonic()
        self.master.stdin.close()
        self.master.wait(PATIENCE)
        return time.monotonic() - begun


STOCK_MASTER = """
import json
from twisted.web import static
from buildbot.plugins import schedulers, steps, util, worker
from buildbot.worker.protocols import msgpack
from buildbot.worker.protocols.manager.msgpack import BuildbotWebSocketServerProtocol
from buildbot.www.service import WWWService

# What a worker prints is flushed after 0.1 s in place of 5,
# and its messages aren't written into the master's own log.
BuildbotWebSocketServerProtocol.debug = False
SETTINGS = {"newline_re": "\\r\\n", "max_line_length": 4096, "buffer_timeout": 0.1, "buffer_size": 65536}


def set_worker_settings(connection):
    return connection.protocol.get_message_result({"op": "set_worker_settings", "args": SETTINGS})


msgpack.Connection._set_worker_settings = set_worker_settings


class NoPages:
    # Debian has no package of buildbot's web pages, without which it serves no API either.
    static_dir, version, description, ui = ".", "0", "none", False
    resource = static.File(".")

    def setMaster(self, master):
        pass

    def setConfiguration(self, config):
        pass


class Apps(dict):
    names = ["base"]


def setup_site(service, config, rest=WWWService.setupSite):
    service.apps = Apps(base=NoPages())
    return rest(service, config)


WWWService.setupSite = setup_site

setup = json.load(open("setup.json"))
builders = []
for number, (place, commands) in enumerate(setup["builds"]):
    factory = util.BuildFactory([steps.ShellCommand(command=["sh", "-c", command], name=f"s{at}") for at, command in enumerate(commands)])
    builders.append(util.BuilderConfig(name=f"b{number}", workernames=[f"w{place}"], factory=factory))
# Without a builder it takes no configuration.
builders.append(util.BuilderConfig(name="none", workernames=["w0"], factory=util.BuildFactory()))
c = BuildmasterConfig = {
    "workers": [worker.Worker(f"w{place}", "p", max_builds=4) for place in range(setup["workers"])],
    "protocols": {"msgpack_experimental_v7": {"port": setup["listen"]}},
    "schedulers": [schedulers.ForceScheduler(name="force", builderNames=[each.name for each in builders])],
    "builders": builders,
    "www": {"port": f"tcp:{setup['web']}:interface=127.0.0.1"},
    "db": {"db_url": f"sqlite:///{setup['folder']}/state.sqlite"},
    "buildbotNetUsageData": None,
    "title": "t", "titleURL": "http://localhost/", "buildbotURL": "http://localhost/",
}
"""

STOCK_WORKER = """
from twisted.application import service
from buildbot_worker.bot import Worker
from buildbot_worker.msgpack import BuildbotWebSocketClientProtocol

BuildbotWebSocketClientProtocol.debug = False
application = service.Application("worker")
Worker("127.0.0.1", {port}, "{name}", "p", "{folder}", 600, protocol="msgpack_experimental_v7").setServiceParent(application)
"""


class Stock(System):
    """Debian's buildbot and buildbot-worker over MessagePack, with a database in memory."""

    name = "buildbot"

    @staticmethod
    def is_here():
        return all(shutil.which(name) for name in ("buildbot", "buildbot-worker", "twistd3"))

    def begin(self):
        self.listen, web = free_port(), free_port()
        self.web = Web(f"127.0.0.1:{web}")
        setup = {"workers": self.count, "builds": self.builds, "listen": self.listen, "web": web, "folder": self.folder}
        for name, text in {"setup.json": json.dumps(setup), "master.cfg": STOCK_MASTER}.items():
            with open(f"{self.folder}/{name}", "w", encoding="utf-8") as file:
                file.write(text)
        subprocess.run(["buildbot", "create-master", "-q", "."], cwd=self.folder, check=True, stdout=NULL, stderr=NULL)
        subprocess.run(["buildbot", "upgrade-master", "-q", "."], cwd=self.folder, check=True, stdout=NULL, stderr=NULL)
        self.begun = time.monotonic()
        self.master = self.run(["twistd3", "-n", "-y", "buildbot.tac", "--pidfile", "master.pid"])
        self.wait_until(lambda: self.web.get("/api/v2/workers"))
        for worker in range(self.count):
            self.start_worker(worker)
        self.wait_until(lambda: self.attached() == self.count)
        for number in range(len(self.builds)):
            self.force(number)

    def start_worker(self, worker):
        folder = f"{self.folder}/w{worker}"
        os.makedirs(f"{folder}/info")
        with open(f"{folder}/worker.tac", "w", encoding="utf-8") as file:
            file.write(STOCK_WORKER.format(port=self.listen, name=f"w{worker}", folder=folder))
        words = ["twistd3", "-n", "-y", "worker.tac", "--pidfile", "worker.pid"]
        self.workers.append(subprocess.Popen(words, cwd=folder, stdin=NULL, stdout=NULL, stderr=NULL))

    def wait_until(self, holds):
        end = time.monotonic() + PATIENCE
        while not holds():
            if time.monotonic() > end or self.master.poll() is not None:
                raise TimeoutError("buildbot")
            time.sleep(0.02)

    def attached(self):
        workers = self.web.get("/api/v2/workers")["workers"]
        return sum(bool(each["connected_to"]) for each in workers)

    def force(self, number):
        body = json.dumps({"jsonrpc": "2.0", "method": "force", "id": 1, "params": {"builderNames": [f"b{number}"], "reason": "r"}})
        self.web.connection.request("POST", "/api/v2/forceschedulers/force", body, {"Content-Type": "application/json"})
        answer = self.web.connection.getresponse()
        said = answer.read()
        if answer.status != 200:
            raise ValueError(said)

    def logs(self):
        """The first log of each build, once all have one."""
        found = {}

        def are_there():
            for build in self.web.get("/api/v2/builds")["builds"]:
                steps = self.web.get(f"/api/v2/builds/{build['buildid']}/steps")["steps"]
                first = min((each["stepid"] for each in steps if each["name"] == "s0"), default=None)
                logs = self.web.get(f"/api/v2/steps/{first}/logs")["logs"] if first else []
                builder = self.web.get(f"/api/v2/builders/{build['builderid']}")["builders"][0]["name"]
                if logs:
                    found[int(builder[1:])] = logs[0]["logid"]
            return len(found) == len(self.builds)

        self.wait_until(are_there)
        return [found[number] for number in range(len(self.builds))]

    def end_builds(self):
        def are_over():
            builds = self.web.get("/api/v2/builds")["builds"]
            return len(builds) == len(self.builds) and all(each["complete"] for each in builds)

        self.wait_until(are_over)

    def stop(self):
        begun = time.monotonic()
        self.master.send_signal(signal.SIGTERM)
        self.master.wait(PATIENCE)
        return time.monotonic() - begun
