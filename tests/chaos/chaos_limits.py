"""Judges the steps of `tests/chaos/chaos` that have limits, whose worker is paused, and who was
refused at the master's door."""

from chaos_builds import PAUSED, WORKERS
from chaos_parts import FIGURES, fault
from chaos_pauses import SECONDS_TO_END
from chaos_steps import SECONDS_OF_A_TICK
from chaos_strangers import SLACK, TOO_MANY
from times import EARLY_SECONDS, SHARE, TIMES

SILENCE = "silent_ticks"


def overlap(stretches, begun, ended):
    """How many seconds of that time lie in these stretches."""
    return sum(max(0, min(end, ended) - max(start, begun)) for start, end in stretches)


class Clock:
    """Which seconds may pass for those that are promised: as tests/lib/times.py has it, beside the time
    for which the master itself was stopped, and that for which its remarks were not heard."""

    def __init__(self, builds, watched):
        self.stops, self.lags, self.stretch = builds.stops, builds.lags, watched.stretch
        self.late = TIMES * watched.latest

    def is_early(self, promised, begun, ended):
        late = self.late + self.lags.within(begun, ended)
        return ended - begun < promised - EARLY_SECONDS - late - overlap(self.stops, begun - 1, ended)

    def is_late(self, promised, begun, ended):
        late = self.late + self.lags.within(begun, ended)
        return ended - begun > promised * (1 + SHARE) * self.stretch + late + overlap(self.stops, begun, ended + 1)

    def may_be_silent(self, promised, told):
        """Whether the lines of a worker that printed may not have come for so long before this was told."""
        begun = told - promised - self.late
        return overlap(PAUSED.stops, begun, told) > 0 or self.lags.within(begun, told) > promised / 2


def compare_limits(builds, watched):
    """The steps of the worker that is paused: each ends as its limits have it, and its session goes on."""
    clock = Clock(builds, watched)
    for step in builds.of_worker(PAUSED):
        compare_end(step)
        if step.result is not None and step.is_told_at_once():
            compare_times(step, clock)
    if PAUSED.told["lost"] or PAUSED.ends:
        fault(f"{PAUSED.name}, whose process goes on, lost {PAUSED.told['lost']} sessions and ended {PAUSED.ends} times")


def compare_end(step):
    """A step that was stopped ends EXCEPTION, and any other SUCCESS. One whose command goes on without an end has to be
    stopped."""
    due = "EXCEPTION" if step.stopped or step.is_endless else "SUCCESS"
    if step.result != due:
        fault(f"log {step.log}, {step.name}, ended {step.result}, {due} was due")
    if step.stopped and step.stopped[0] not in step.limits:
        fault(f"log {step.log}, {step.name}, reached {step.stopped[0]} of its limits {step.limits}")


def compare_times(step, clock):
    """A limit is told in time, and the step is over in time: so long after the limit at most, whatever its worker does."""
    if step.stopped is None:
        promised = step.limits.get("timeout_ticks", 0) * SECONDS_OF_A_TICK
        if promised and clock.is_late(promised, step.began, step.over):
            fault(f"log {step.log}, {step.name}, took {step.over - step.began:.1f} s, and was not stopped")
        return
    (limit, told), took = step.stopped, step.over - step.stopped[1]
    promised = step.limits.get(limit, 0) * SECONDS_OF_A_TICK
    if clock.is_early(promised, step.began, told):
        fault(f"log {step.log}, {step.name}, was stopped by {limit} after {told - step.began:.2f} s")
    if limit == SILENCE and not step.is_endless and not clock.may_be_silent(promised, told):
        fault(f"log {step.log}, {step.name}, was stopped for silence, and its worker was not paused")
    if limit != SILENCE and clock.is_late(promised, step.began, told):
        fault(f"log {step.log}, {step.name}, was stopped only after {told - step.began:.1f} s")
    if clock.is_late(SECONDS_TO_END, told, step.over):
        fault(f"log {step.log}, {step.name}, was over only {took:.1f} s after its limit")
    if overlap(PAUSED.stops, told, step.over):
        FIGURES["steps over by a limit while their worker was paused"] += 1


def compare_refused(builds):
    """No connection is refused twice. One is too many only while strangers hold the places, or soon after that."""
    made = FIGURES["connects of strangers"] + sum(worker.way.count for worker in WORKERS)
    told = len(builds.refusals) + FIGURES["more connections refused"]
    if told > made:
        fault(f"{told} connections were refused, and {made} were made")
    for what, when in builds.refusals:
        if what == TOO_MANY and not any(begun <= when <= ended + SLACK for begun, ended in builds.doors):
            fault(f"{what}, while nobody holds the places")
