"""The line that stands above measured figures: of which commit, machine and day they are."""

import os
import platform
import re
import subprocess
import time

ROOT = os.path.abspath(f"{__file__}/../../..")


def said(*words):
    """What a command says of this tree, or nothing where it can't be run."""
    try:
        return subprocess.run(words, cwd=ROOT, capture_output=True, text=True).stdout.strip()
    except OSError:
        return ""


def processors():
    """How many there are, and their name without what each name has."""
    with open("/proc/cpuinfo", encoding="ascii", errors="replace") as file:
        model = re.search(r"model name\s*: (.*)", file.read())
    name = re.sub(r"\((?:R|TM)\)|\b(?:CPU|Processor)\b", " ", model[1] if model else platform.machine())
    return f"{os.cpu_count()} x {' '.join(name.split())}"


def head(*more):
    """The line: commit, machine and day, and what else is given."""
    commit = said("git", "rev-parse", "--short", "HEAD") or "none"
    return ", ".join([f"Commit {commit}", processors(), time.strftime("%Y-%m-%d"), *more]) + "."
