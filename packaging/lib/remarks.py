"""What a build master tells on standard error of builds and their steps, as docs/RUNNING.md has
its lines and its objects. Of Python's own library alone."""

import json
import re

# A pattern of lines, and the kind of remark that they are; its groups are the fields.
LINES = [
    (r"build (?P<build>[0-9]+) started on (?P<worker>.*)", "build_started"),
    (r"build (?P<build>[0-9]+) ended (?P<result>[A-Z]+)", "build_ended"),
    (r"build (?P<build>[0-9]+) to be cancelled", "build_cancelled"),
    (r"build (?P<build>[0-9]+) step started, log (?P<log>[0-9]+): (?P<step>.*)", "step_started"),
    (r"build (?P<build>[0-9]+) step ended (?P<result>[A-Z]+), log (?P<log>[0-9]+): (?P<step>.*)", "step_ended"),
    (r"build (?P<build>[0-9]+) step not started, (?P<cause>[^:]*): (?P<step>.*)", "step_not_started"),
    (r"(?P<workers>[0-9]+) workers?, (?P<builds>[0-9]+) builds?, (?P<steps>[0-9]+) steps?", "configuration_read"),
    (r"(?P<count>[0-9]+) remarks not told", "remarks_not_told"),
    # A build that ends by one of these tells that itself.
    (r"worker .* (logged in|resumed|told to shut down|shut down|cut, .*)", "worker"),
    (r"program of .* (started|ended)", "program"),
]
LINES = [(re.compile(pattern), kind) for pattern, kind in LINES]
NUMBERS = ("build", "log", "workers", "builds", "steps", "count")
# No number of a master has more digits. What has belongs to no remark.
MOST_DIGITS = 20
# The members of an object that are read.
FIELDS = {kind: tuple(pattern.groupindex) for pattern, kind in LINES}
# Objects of a healthy run that have no part in a build.
WORKERS = ("worker_logged_in", "worker_resumed", "worker_told_to_shut_down", "worker_shut_down", "worker_cut", "program_started", "program_ended")


def read_remark(line):
    """A remark's kind and fields, where a run is made of such; None for other lines."""
    remark = read_object(line) if line.startswith("{") else read_text(line)
    if remark and remark["remark"] == "step_not_started":
        remark["result"] = "CANCELLED" if remark["cause"] == "cancelled" else "RETRY"
    return remark


def read_text(line):
    for pattern, kind in LINES:
        if found := pattern.fullmatch(line):
            fields = found.groupdict()
            numbers = {name: value for name, value in fields.items() if name in NUMBERS}
            if any(len(value) > MOST_DIGITS for value in numbers.values()):
                return None
            return {"remark": kind, **fields, **{name: int(value) for name, value in numbers.items()}}
    return None


def read_object(line):
    """The object of a configuration with `remarks = "json"`."""
    try:
        remark = json.loads(line)
    except (ValueError, RecursionError):
        return None
    kind = remark.get("remark") if isinstance(remark, dict) else None
    if not isinstance(kind, str) or kind not in FIELDS and kind not in WORKERS:
        return None
    has_all = all(is_read(name, remark.get(name)) for name in FIELDS.get(kind, ()))
    return remark if has_all and is_read("place", remark.get("place", 0)) else None


def is_read(name, value):
    """Whether a member of an object has the kind that its name says."""
    if name in NUMBERS or name == "place":
        return type(value) is int and 0 <= value < 10**MOST_DIGITS
    return isinstance(value, str)
