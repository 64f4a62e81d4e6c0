"""What is shown of a run: a line for each build that moves on a terminal, and else a line for each
thing that happens."""

import os
import shutil
import sys
import threading

from chunks import plain

# The most lines of builds that a terminal shows at once.
MOST_SHOWN = 12
# The most names of failing steps in a row of the table.
MOST_FAILING = 3
CLEAR = "\033[J"
UP = "\033[{}A"


class Board:
    """Standard output and standard error. Lines may come from several threads. Where nobody takes
    them any more the run goes on, for the sake of its logs."""

    def __init__(self, is_quiet):
        self.is_quiet = is_quiet
        self.is_terminal = sys.stdout.isatty() and not is_quiet
        self.is_unheard = False
        self.drawn = 0
        self.rows = []
        self.lock = threading.RLock()

    def put(self, text, stream):
        """Writes text. A stream that takes none is told nothing from then on."""
        try:
            stream.write(text)
            stream.flush()
        except OSError:
            self.is_unheard = True
            os.dup2(os.open(os.devnull, os.O_WRONLY), stream.fileno())

    def say(self, text):
        """Prints text."""
        with self.lock:
            self.wipe()
            self.put(f"{text}\n", sys.stdout)
            self.draw()

    def tell(self, text, is_fault):
        """Prints a line of what happens: a fault on standard error, and else what the lines of
        builds don't show already."""
        with self.lock:
            if is_fault:
                self.wipe()
                self.put(f"{text}\n", sys.stderr)
                self.draw()
            elif not self.is_quiet and not self.is_terminal:
                self.put(f"{text}\n", sys.stdout)

    def show(self, builds):
        """Shows a line for each build that runs."""
        if not self.is_terminal:
            return
        builds = list(builds.values())
        running = [build for build in builds if "began" in build and "result" not in build]
        over = sum("result" in build for build in builds)
        # What is wider or higher than the terminal could not be drawn anew: below the builds are two
        # lines, and that of the cursor.
        columns, lines = shutil.get_terminal_size()
        most = max(1, min(MOST_SHOWN, lines - 3))
        rows = [f"build {build['number']} on {plain(build['worker'])}: {plain(build.get('step', ''))}" for build in running[:most]]
        if len(running) > most:
            rows.append(f"and {len(running) - most} more")
        with self.lock:
            self.wipe()
            self.rows = [row[:columns] for row in rows + [f"{over} of {len(builds)} builds over"]]
            self.draw()

    def wipe(self):
        if self.drawn:
            self.put("\r" + UP.format(self.drawn) + CLEAR, sys.stdout)
            self.drawn = 0

    def draw(self):
        if self.is_terminal and self.rows:
            self.put("".join(f"{row}\n" for row in self.rows), sys.stdout)
            self.drawn = len(self.rows)

    def end(self):
        with self.lock:
            self.wipe()
            self.rows = []


def failing(build):
    """The steps of a build that failed. Which of them decided its result isn't told."""
    names = build.get("failing", ["-"])
    more = len(names) - MOST_FAILING
    return plain(", ".join(names[:MOST_FAILING])) + (f" and {more} more" if more > 0 else "")


def summary(builds):
    """A table of the builds: build, worker, result, seconds, the steps that failed."""
    rows = [("build", "worker", "result", "seconds", "failing step")]
    for number in sorted(builds):
        build = builds[number]
        seconds = f"{build['ended'] - build['began']:.1f}" if "began" in build and "ended" in build else "-"
        rows.append((str(number), plain(build.get("worker", "-")), build.get("result", "not over"), seconds, failing(build)))
    widths = [max(len(row[column]) for row in rows) for column in range(5)]
    return ["  ".join(cell.ljust(width) for cell, width in zip(row, widths)).rstrip() for row in rows]
