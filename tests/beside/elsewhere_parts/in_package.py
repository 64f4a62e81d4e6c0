#!/usr/bin/env python3
"""Makes the packages, installs each in a fresh root, runs the example from it, looks at its units,
and removes it.

    PROGRAMS=DIR ROOT=DIR in_root / ./in_package.py [NAME ..]

ROOT is one that make_root made, and is only copied. It needs root's rights, for chroot,
and systemd-analyze.
"""

import glob
import os
import re
import shutil
import signal
import subprocess
import tempfile

import drive

PACKAGE = os.path.abspath(f"{__file__}/../../../../package")
UNITS = ("bolgrudi-master@main.service", "bolgrudi-worker@w0.service")
# What systemd-analyze may say at the most, of 10.
MOST_EXPOSED = 2.0
ENVIRONMENT = {"PATH": "/usr/sbin:/usr/bin", "LC_ALL": "C"}
EXAMPLE = "/usr/share/doc/bolgrudi/examples/first-build.toml"
# Steps that outlast the trial, and then end by themselves:
# what stays of one that was cancelled is systemd's to end (KillMode).
LONG = [["sleep", "15"]]
BELOW = [["sh", "-c", "echo begun; sleep 16; echo not reached"]]


class Packages:
    """Both packages, made into a temporary folder, and a root beside them where one is wanted."""

    def __init__(self, with_root=True):
        self.made = tempfile.mkdtemp(prefix="package.")
        drive.run(PACKAGE, self.made)
        (self.debian,), (self.tar,) = glob.glob(f"{self.made}/*.deb"), glob.glob(f"{self.made}/*.tar.gz")
        self.root = f"{self.made}/root"
        if with_root:
            drive.run("cp", "-a", os.environ["ROOT"], self.root)

    def __enter__(self):
        return self

    def __exit__(self, *_):
        shutil.rmtree(self.made)

    def inside(self, *words):
        return drive.run("chroot", self.root, *words, env=ENVIRONMENT)

    def install(self):
        shutil.copy(self.debian, f"{self.root}/srv/package.deb")
        self.inside("dpkg", "--install", "/srv/package.deb")

    def runs_the_example(self):
        before = drive.Before()
        with drive.Master(["chroot", self.root, "/usr/bin/buildmaster"], EXAMPLE, ENVIRONMENT) as master:
            results = master.results(2)
            drive.check(results == ["SUCCESS", "SUCCESS"], f"results {results}")
            compared = drive.compare_all(master, drive.steps_of(self.root + EXAMPLE))
            status = master.end()
        drive.check(status == 0, f"status {status}")
        print(f"   {compared}; status {status}")
        before.leaves_nothing("the end")


def files(root):
    return {os.path.join(at, name) for at, folders, names in os.walk(root) for name in [*names, *folders]}


def same():
    """the same tree gives the same bytes"""
    with Packages(with_root=False) as first, Packages(with_root=False) as second:
        for one, other in ((first.debian, second.debian), (first.tar, second.tar)):
            with open(one, "rb") as one_file, open(other, "rb") as other_file:
                drive.check(one_file.read() == other_file.read(), f"{one} and {other} differ")
        print("   " + drive.run("dpkg-deb", "--field", first.debian, "Version", "Depends").replace("\n", " "))


def debian():
    """the Debian package, installed in a fresh root, runs the example,
    and once purged has left no file"""
    with Packages() as packages:
        before = files(packages.root)
        packages.install()
        packages.inside("dpkg", "--verify", "bolgrudi")
        packages.runs_the_example()
        packages.inside("dpkg", "--purge", "bolgrudi")
        os.remove(f"{packages.root}/srv/package.deb")
        added = sorted(name for name in files(packages.root) - before if "/var/lib/dpkg" not in name and "/var/log" not in name)
        drive.check(not added, f"left behind: {added}")


def tar():
    """the tar.gz, unpacked over /usr of a fresh root, runs the example"""
    with Packages() as packages:
        drive.run("tar", "-xzf", packages.tar, "--strip-components=1", "-C", f"{packages.root}/usr")
        packages.runs_the_example()


def copy_system_units(folder):
    """The targets, slices and sockets that units refer to without saying so."""
    for kind in ("target", "slice", "socket"):
        for file in glob.glob(f"/usr/lib/systemd/system/*.{kind}"):
            if not os.path.exists(f"{folder}/{os.path.basename(file)}"):
                shutil.copy(file, folder)


def units():
    """the units are well-formed, and by systemd's own measure little exposed"""
    with Packages() as packages:
        packages.install()
        folder = f"{packages.root}/usr/lib/systemd/system"
        copy_system_units(folder)
        for unit in UNITS:
            name, _, instance = unit.partition("@")
            shutil.copy(f"{folder}/{name}@.{instance.split('.')[1]}", f"{folder}/{unit}")
            drive.run("systemd-analyze", "verify", f"--root={packages.root}", "--man=no", "--recursive-errors=no", unit)
            told = drive.run("systemd-analyze", "security", "--offline=true", "--no-pager", f"--root={packages.root}", unit)
            line = told.strip().splitlines()[-1]
            print("   " + line)
            drive.check(float(line.split(": ")[1].split()[0]) <= MOST_EXPOSED, f"above {MOST_EXPOSED}")


def service():
    """the master's service cancels a build by its pipe; on SIGTERM all other builds,
    and it settles the lanes"""
    with Packages() as packages:
        packages.install()
        latent = ["buildworker", "{master}", "w0", "secret"]
        config = drive.configuration(latent, [LONG, BELOW, LONG])
        shutil.move(config, f"{packages.root}/etc/bolgrudi/main.toml")
        before = drive.Before()
        words = ["chroot", packages.root, "/usr/lib/bolgrudi/master-service", "/etc/bolgrudi/main.toml", "/run"]
        with drive.Master(words, None, ENVIRONMENT, is_serve=False) as master:
            master.begin(2)
            drive.run("sh", "-c", f"echo cancel 0 >{packages.root}/run/input")
            master.wait_for("build 0 ended CANCELLED")
            master.wait_for("build 2 step started")
            (script,) = [number for number, words in before.others().items() if "sh /usr/lib/bolgrudi" in words]
            os.kill(script, signal.SIGTERM)
            status = master.wait()
        told = [line for line in master.told if "told to shut down" in line or line.startswith("lane ")]
        drive.check(status == 1 and len(told) == 2 and told[1].startswith("lane w0 3 "), f"status {status}, {master.told}")
        print("   " + "; ".join([*told, f"status {status}"]))
        before.leaves_nothing("SIGTERM")
        drive.check(not os.path.exists(f"{packages.root}/run/input"), "its pipe is left behind")


def worker_file():
    """bolgrudi-worker logs in by a password of a file"""
    with Packages() as packages:
        packages.install()
        with open(f"{packages.root}/etc/bolgrudi/w0.password", "w") as file:
            file.write("secret\n")
        latent = ["bolgrudi-worker", "{master}", "w0", "/etc/bolgrudi/w0.password"]
        shutil.move(drive.configuration(latent, [[["echo", "one"]]]), f"{packages.root}/build.toml")
        before = drive.Before()
        with drive.Master(["chroot", packages.root, "/usr/bin/buildmaster"], "/build.toml", ENVIRONMENT) as master:
            results = master.results(1)
            drive.check(results == ["SUCCESS"], f"results {results}")
            print(f"   {drive.compare_all(master, [['echo', 'one']])}; status {master.end()}")
        before.leaves_nothing("the end")


def usages():
    """each command tells its usage where its words are wrong"""
    commands = ("bolgrudi-worker", "bolgrudi-alone", "bolgrudi-ssh", "bolgrudi-tidy", "buildworker", "buildmaster")
    wrong = [(name, [], 2) for name in (*commands, "/usr/lib/bolgrudi/master-service")]
    wrong.append(("bolgrudi-worker", ["127.0.0.1:1", "w0", "/no/such/file"], 1))
    with Packages() as packages:
        packages.install()
        for name, words, status in wrong:
            done = subprocess.run(["chroot", packages.root, name, *words], stderr=subprocess.PIPE, text=True, env=ENVIRONMENT)
            drive.check(done.returncode == status and done.stderr, f"{name} {words}: status {done.returncode}: {done.stderr}")
            print("   " + done.stderr.strip())


def examples():
    """the master takes each configuration of the examples,
    but for addresses that are no machine's here"""
    with Packages() as packages:
        packages.install()
        folder = f"{packages.root}{os.path.dirname(EXAMPLE)}"
        for name in sorted(name for name in os.listdir(folder) if name.endswith(".toml")):
            with open(f"{folder}/{name}") as file:
                text = re.sub(r'^(listen|web) = ".*"$', r'\1 = "127.0.0.1:0"', file.read(), flags=re.MULTILINE)
            # no worker's program is there to be started
            text = re.sub(r"^latent = \[", 'latent = ["nothing", ', text, flags=re.MULTILINE)
            with open(f"{packages.root}/build.toml", "w") as file:
                file.write(text)
            words = ["chroot", packages.root, "buildmaster", "serve", "/build.toml"]
            done = subprocess.run(words, stdin=subprocess.DEVNULL, capture_output=True, text=True, env=ENVIRONMENT)
            is_taken = done.returncode == 1 and re.search(r"^program of \S+ not started", done.stderr, re.MULTILINE)
            drive.check(is_taken, f"{name}: {done.stderr}")
            print(f"   {name} is taken")


if __name__ == "__main__":
    drive.main({function.__name__: function for function in (same, debian, tar, units, service, worker_file, usages, examples)})
