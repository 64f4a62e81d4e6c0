#!/usr/bin/env python3
"""A latent worker that is a Slurm job, started by srun: its builds,
and what each kind of end leaves behind.

    in_root ROOT ./slurm_here builder ./by_slurm.py [NAME ..]        (all where none is named)

ROOT has the Debian package, slurm-wlm, munge, iproute2 and python3. The worker runs in a process
namespace (bolgrudi-alone), and its job is cancelled by what outlives srun (bolgrudi-tidy), so that
nothing stays whatever ends it.
"""

import os
import signal
import subprocess
import tempfile
import time

import drive

EXAMPLE = "/usr/share/doc/bolgrudi/examples/first-build.toml"
SILENT = [["sleep", "4321"]]
BELOW = [["sh", "-c", "echo begun; sleep 4322; echo not reached"]]
SHORT = [["echo", "done"]]
# These don't hear SIGTERM, which scancel sends to each process by itself:
# what ends them is the end of their worker.
DEAF = [["sh", "-c", "trap '' TERM; exec sleep 4321"]]
DEAF_BELOW = [["sh", "-c", "trap '' TERM; echo begun; sleep 4322; echo not reached"]]
PROCESSORS = 4


def latent():
    file, path = tempfile.mkstemp(suffix=".password")
    with os.fdopen(file, "w") as text:
        text.write("secret\n")
    tidy = ["bolgrudi-tidy", "{master}", "scancel --quiet --me --name=w0-{id}"]
    job = ["srun", "--quiet", "--job-name=w0-{id}", "-n1", "-c1"]
    return [*tidy, *job, "bolgrudi-alone", "bolgrudi-worker", "{address}", "w0", path]


def master_of(builds, **keys):
    return drive.Master(["buildmaster"], drive.configuration(latent(), builds, **keys))


def jobs():
    """The jobs, each as `id state name`."""
    told = subprocess.run(["squeue", "--noheader", "--format=%i %T %j"], stdout=subprocess.PIPE, text=True, check=True)
    return told.stdout.splitlines()


def job_of_worker():
    end = time.monotonic() + drive.MOST_SECONDS
    while time.monotonic() < end:
        found = [line.split()[0] for line in jobs() if " w0-" in line]
        if found:
            return found[0]
        time.sleep(0.1)
    raise drive.Fault("no job of the worker")


def leaves_nothing(what, master=None, seconds=drive.MOST_SECONDS_TO_END):
    BEFORE.leaves_nothing(what, but=[master.process.pid] if master else [], seconds=seconds, jobs=jobs)


def builds():
    """two builds beside each other; the worker is told to shut down once it idles"""
    commands = drive.steps_of(EXAMPLE)
    with master_of([commands[:2], commands[2:]]) as master:
        results = master.results(2)
        master.wait_for("program of w0 ended")
        leaves_nothing("the end of the idle worker", master)
        # `lint` fails, which the configuration here doesn't pass over
        drive.check(results == ["SUCCESS", "FAILURE"], f"results {results}")
        print(f"   {drive.compare_all(master, commands)}; status {master.end()}")


def cancel():
    """both builds are cancelled, and the worker is told to shut down once it idles"""
    with master_of([SILENT, BELOW]) as master:
        master.begin(2)
        master.say("cancel 0")
        master.say("cancel 1")
        results = master.results(2)
        drive.check(results == ["CANCELLED", "CANCELLED"], f"results {results}")
        leaves_nothing("cancel, and the end of the idle worker", master)
        master.end()


def scancel():
    """the job is cancelled by scancel while two builds run and a third waits,
    which runs in a new job"""
    with master_of([DEAF, DEAF_BELOW, SHORT], resume_ticks=200) as master:
        master.begin(2)
        subprocess.run(["scancel", job_of_worker()], check=True)
        results = master.results(3)
        logs = [master.whole_log(number)[1:] for number in range(3)]
        leaves_nothing("scancel, and the end of the idle worker", master)
        drive.check(results == ["RETRY", "RETRY", "SUCCESS"], f"results {results}")
        # what was said before stays, and nothing is added
        drive.check(sorted(logs[:2]) == [[], ["obegun"]], f"logs {logs}")
        drive.check(logs[2] == ["odone", "hprogram finished with exit code 0"], f"logs {logs}")
        master.end()


def srun_killed():
    """srun is killed while a step runs; the build that waits runs in a new job"""
    with master_of([DEAF, SHORT], slots=1, resume_ticks=200) as master:
        master.begin()
        for number, words in BEFORE.others().items():
            if words.startswith("srun "):
                os.kill(number, signal.SIGKILL)
        results = master.results(2)
        leaves_nothing("a killed srun, and the end of the idle worker", master)
        drive.check(results == ["RETRY", "SUCCESS"], f"results {results}")
        master.end()


def input_ends():
    """the master's input ends while its worker idles"""
    with master_of([SHORT], idle_ticks=100000) as master:
        master.results(1)
        status = master.end()
        drive.check(status == 0, f"status {status}")
        leaves_nothing("the master's end")


def master_killed():
    """the master is killed while two steps run"""
    with master_of([SILENT, BELOW]) as master:
        master.begin(2)
        master.process.kill()
        master.process.wait()
        leaves_nothing("the master's kill", seconds=drive.MOST_SECONDS_OF_TRIES)


def occupy(seconds):
    """A job that has all processors."""
    other = subprocess.Popen(["srun", "--quiet", "--job-name=other", "-n1", f"-c{PROCESSORS}", "sleep", str(seconds)])
    end = time.monotonic() + drive.MOST_SECONDS
    while not any("RUNNING other" in line for line in jobs()):
        drive.check(time.monotonic() < end, "the other job doesn't run")
        time.sleep(0.1)
    return other


def cancel_queued():
    """the job waits in the queue, its build is cancelled, and then the processors are free"""
    other = occupy(8)
    with master_of([SHORT]) as master:
        job_of_worker()
        master.say("cancel 0")
        results = master.results(1)
        drive.check(results == ["CANCELLED"], f"results {results}")
        other.wait()
        leaves_nothing("a job that nobody wants any more", master)
        master.end()


def scancel_queued():
    """the job waits in the queue, and is cancelled by scancel: the builds that wait for it end"""
    other = occupy(8)
    with master_of([SHORT, SHORT]) as master:
        subprocess.run(["scancel", job_of_worker()], check=True)
        results = master.results(2)
        drive.check(results == ["RETRY", "RETRY"], f"results {results}")
        other.wait()
        leaves_nothing("scancel of a job in the queue", master)
        master.end()


def end_queued():
    """the job waits in the queue, its build is cancelled, and the master ends"""
    other = occupy(15)
    with master_of([SHORT]) as master:
        job_of_worker()
        master.say("cancel 0")
        master.results(1)
        master.end()
        drive.check(not [line for line in jobs() if "RUNNING w0" in line], "the job runs")
    other.wait()
    leaves_nothing("the master's end while its job was queued")


EVENTS = (builds, cancel, scancel, srun_killed, input_ends, master_killed, cancel_queued, scancel_queued, end_queued)
BEFORE = drive.Before()

if __name__ == "__main__":
    drive.main({event.__name__: event for event in EVENTS})
