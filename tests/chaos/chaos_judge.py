"""Compares what `tests/chaos/chaos` found with what has to be: each line of each log, results,
sessions, and least numbers."""

import asyncio
import collections
import time

import numbered_lines
from chaos_builds import PAUSED, WORKERS
from chaos_limits import compare_limits, compare_refused
from chaos_parts import FIGURES, IS_LONG, LINES, fault

LETTERS = {numbered_lines.OUTPUT: "o", numbered_lines.ERRORS: "e"}
# A bound for a hang, of a short command beside a noisy one and of a step whose build was cancelled.
# How long the slowest of each took is a figure. A silent command would take more than an hour.
HANG_SECONDS = 120
# So long troubles that are due are waited for once all builds are over.
SECONDS_FOR_THE_OWED = 60
# How often each thing has to happen at least, in a run of 30,000 lines and in one of 500,000.
LEAST = {
    "cuts": (8, 80),
    "dark connections": (1, 10),
    "workers back from a dark connection": (1, 5),
    "dark connections that were noticed": (0, 1),
    "resumptions": (6, 60),
    "looks": (1_000, 20_000),
    "connection refused, too many connections": (1, 1),
    "crowds that were refused": (1, 1),
    "times that connects were closed": (1, 2),
    "times that connects were reset": (1, 2),
    "times that connects were left without an answer": (1, 2),
    "workers back from connects that were turned away": (2, 6),
    "connections that were dark twice in a row": (1, 3),
    "pauses over steps with limits": (1, 4),
    "steps that reached their timeout_ticks": (1, 6),
    "steps that reached their silent_ticks": (1, 6),
    "steps over by a limit while their worker was paused": (0, 4),
    "slots that paused commands kept": (0, 3),
    "builds that waited for a paused command": (0, 3),
    "paused workers that came by another connection": (0, 2),
    "workers back from a pause in which its connection is cut": (0, 1),
    "workers back from a pause in which its connection goes dark": (0, 1),
    "full doors": (1, 2),
    "workers back from a full door": (1, 2),
    "outages": (1, 6),
    "outages in mid-line": (0, 3),
    "kills": (1, 8),
    "stops": (5, 40),
    "second logins": (2, 12),
    "workers that trickle": (2, 10),
    "logins of 1 MiB": (2, 20),
    "cancels": (1, 6),
    "cancels between steps": (1, 8),
    "cancels of silent commands": (4, 16),
    "times that standard error was blocked": (1, 4),
    "slow readers": (5, 60),
    "readers that stopped in mid-answer": (1, 20),
    "readers that were cut": (0, 8),
    "short commands beside a noisy one": (4, 20),
}

# What comes as well once all builds are over, by words of its name.
COMES_LATER = ("connects", "door", "crowds", "dark", "logins", "trickle", "kills", "stops", "blocked", "readers that stopped")
OWED = [name for name in LEAST if any(word in name for word in COMES_LATER)]


def judged(found, printed, is_whole):
    """How many lines are lost, doubled, moved or were never printed. A pipe's lines in a log had to
    be those that were printed, or a beginning of them."""
    if found == (printed if is_whole else printed[: len(found)]):
        return {}
    had, all_due = collections.Counter(found), collections.Counter(printed)
    places = {line: place for place, line in enumerate(printed) if all_due[line] == 1}
    known = [places[line] for line in found if line in places]
    due = collections.Counter(printed if is_whole else printed[: max(known, default=-1) + 1])
    strange = sum(line not in all_due for line in found)
    return {
        "lines lost": sum((due - had).values()),
        "lines doubled": sum((had - all_due).values()) - strange,
        "lines moved": sum(one > next_one for one, next_one in zip(known, known[1:])),
        "lines never printed": strange,
    }


# How steps and builds may end, and how those of the worker that is paused may.
ALLOWED = {False: ("SUCCESS", "RETRY", "CANCELLED"), True: ("SUCCESS", "EXCEPTION")}
# The last line of a command that was interrupted.
STOPPED = "hinterrupted"


def ends(lines):
    """How these lines begin and end, for a person."""
    return [f"{line[:60]} .. {line[-60:]}" for line in lines]


def compare(step, lines):
    """Compares a log with what its command printed."""
    last = "hprogram finished with exit code 0"
    said = {letter: [] for letter in LETTERS.values()}
    for pipe, line in step.printed():
        said[LETTERS[pipe]].extend(numbered_lines.shown(line))
    headers = [place for place, line in enumerate(lines) if line[:1] == "h"]
    has_ended, is_stopped = lines[-1:] == [last], lines[-1:] == [STOPPED]
    is_framed = lines[:1] in ([], ["h" + " ".join(step.words())]) and headers in ([], [0], [0, len(lines) - 1])
    if not is_framed or (step.result == "SUCCESS" and not has_ended) or (len(headers) == 2 and not (has_ended or is_stopped)):
        fault(f"log {step.log}, {step.result}: its header lines are {[lines[place][:100] for place in headers]}")
    for letter, printed in said.items():
        found = [line[1:] for line in lines if line[:1] == letter]
        due = printed[len(found) - 1 : len(found)]
        if is_stopped and found and any(numbered_lines.may_begin(found[-1], line) for line in due):
            # The process was killed within this line.
            found.pop()
        wrong = judged(found, printed, has_ended or step.result == "SUCCESS")
        FIGURES.update(wrong)
        if wrong:
            place = next((at for at, pair in enumerate(zip(found, printed)) if pair[0] != pair[1]), len(found))
            fault(
                f"log {step.log}, {step.result}, pipe {letter}: {len(found)} of {len(printed)} lines, {wrong}; line {place} is"
                f" {ends(found[place : place + 1])} for {ends(printed[place : place + 1])}"
            )
    FIGURES["lines compared"] += len(lines)
    FIGURES[f"logs that ended {step.result}"] += 1


def compare_all(builds, shelf, watched):
    for step in builds.steps.values():
        if step.log is None:
            if step.result is not None:
                fault(f"{step.name} ended before it started")
            continue
        if step.result not in ALLOWED[step.worker is PAUSED] or step.is_endless and step.result == "SUCCESS":
            fault(f"log {step.log} ended {step.result}")
        compare(step, shelf.lines.get(step.log, []))
    for number, steps in enumerate(builds.builds):
        compare_build(builds, number, steps)
    for worker in WORKERS:
        compare_sessions(worker, builds)
    compare_cancels(builds)
    compare_shorts(builds)
    compare_limits(builds, watched)
    compare_refused(builds)


def compare_build(builds, number, steps):
    results = [step.result for step in steps if step.log is not None]
    result, is_cancelled = builds.results[number], number in builds.cancelled
    if result == "SUCCESS" and (results != ["SUCCESS"] * len(steps)):
        fault(f"build {number} ended SUCCESS after {results}")
    if result == "CANCELLED" and not is_cancelled or result not in ALLOWED[steps[0].worker is PAUSED]:
        fault(f"build {number} ended {result}")
    if result == "EXCEPTION" and results[-1:] != ["EXCEPTION"]:
        fault(f"build {number} ended EXCEPTION after {results}")
    if number not in builds.halved or not is_cancelled or results[:1] != ["SUCCESS"]:
        return
    # It was cancelled as its first step ended: the next one wasn't started, or was interrupted.
    FIGURES["steps that a cancel between steps " + ("interrupted" if len(results) > 1 else "kept from a start")] += 1


def keep_slowest(what, took):
    """Keeps the slowest of a kind as a figure."""
    name = f"milliseconds of the slowest {what}"
    FIGURES[name] = max(FIGURES[name], int(1_000 * took))


def compare_cancels(builds):
    """No step goes on after the cancel of its build, where nothing came between."""
    for step in builds.steps.values():
        if step.build not in builds.cancels or step.over is None:
            continue
        told, between = builds.cancels[step.build]
        if step.between != between:
            continue
        took = step.over - told
        keep_slowest("cancel", took)
        if took > HANG_SECONDS:
            fault(f"log {step.log} ended {step.result} {took:.1f} s after the cancel of build {step.build}")


def compare_shorts(builds):
    """The end of a short command doesn't wait for a noisy one: those that run at once make room for
    the next ones, so that many begin beside it (LEAST)."""
    (noisy,) = builds.of_kind("noisy")
    if noisy.over is None or noisy.began is None:
        return
    for step in builds.of_kind("short"):
        if step.over is None or not noisy.began <= step.began <= noisy.over:
            continue
        FIGURES["short commands beside a noisy one"] += 1
        took = step.over - step.began
        keep_slowest("short command", took)
        if took > HANG_SECONDS:
            fault(f"the end of {step.name} was told after {took:.1f} s beside a noisy command of {noisy.over - noisy.began:.1f} s")


def compare_sessions(worker, builds):
    """Sessions are given up only where there is a reason, and only what ran on one ends RETRY."""
    retries = sum(step.worker is worker and step.result == "RETRY" for step in builds.steps.values())
    lost = worker.told["lost"]
    FIGURES["resumptions"] += worker.told["resumed"]
    FIGURES["sessions given up"] += lost
    if retries > lost * worker.slots:
        fault(f"{worker.name}: {retries} commands ended RETRY, and only {lost} sessions of {worker.slots} slots were given up")
    if worker.is_faithful and lost > worker.ends + worker.taken_over:
        fault(f"{worker.name}: {lost} sessions given up, and its process ended {worker.ends} times")
    if worker.is_faithful and worker.ends > worker.taken_over:
        fault(f"{worker.name} gave up connecting, and nobody took its place")
    if worker.is_faithful and lost == 0 and not 0 <= worker.told["cut"] - worker.told["resumed"] <= 1:
        fault(f"{worker.name}: {worker.told['cut']} cuts and {worker.told['resumed']} resumptions")
    given_up = [number for number, steps in enumerate(builds.builds) if steps[0].worker is worker and builds.results[number] == "RETRY"]
    if lost == 0 and given_up and not worker.is_latent:
        fault(f"{worker.name}: builds {given_up} ended RETRY, and no session was given up")


def missing(names):
    """Which of these have happened less often than they have to."""
    if LINES < 30_000:
        return []
    return [name for name in names if FIGURES[name] < LEAST[name][IS_LONG]]


async def await_owed():
    """Waits for the troubles that are due, and need no build; not for ever."""
    end = time.monotonic() + SECONDS_FOR_THE_OWED
    while missing(OWED) and time.monotonic() < end:
        await asyncio.sleep(0.1)


def demand_least():
    """A run in which little happened shows little."""
    for name in missing(LEAST):
        fault(f"{FIGURES[name]} {name}, {LEAST[name][IS_LONG]} are due")
