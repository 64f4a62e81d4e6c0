"""Times that a document promises, with room for a busy machine.

How much room there is goes by what the machine does meanwhile. A thread beside the part sleeps for
a tick again and again, and notes how late it wakes: at most, and on average. What is promised may
be late by a share of itself, as many times as long as those sleeps were, and by some times the
latest of them. So on an idle machine a time that is half as long again fails, and on a busy one
none that is right does: a master counts its ticks by such sleeps.
"""

import threading
import time

# A tick of a master.
STEP_SECONDS = 0.01
# So much of itself a time may be late.
SHARE = 0.5
# So many times the latest that a sleep beside it woke: what is timed goes through some threads.
TIMES = 6
# A clock of the system and one of a program may differ by so much, and a remark is read late.
EARLY_SECONDS = 0.1


class Watched:
    """Measures how late a machine is while a part runs."""

    def __enter__(self):
        self.latest, self.stretch, self.is_over, self.begun = 0.0, 1.0, False, None
        self.thread = threading.Thread(target=self.watch, daemon=True)
        self.thread.start()
        return self

    def watch(self):
        start, steps = time.monotonic(), 0
        while not self.is_over:
            begun = time.monotonic()
            time.sleep(STEP_SECONDS)
            steps += 1
            self.latest = max(self.latest, time.monotonic() - begun - STEP_SECONDS)
            self.stretch = max(1.0, (time.monotonic() - start) / (steps * STEP_SECONDS))

    def begins(self):
        """What is timed begins now. It may have begun a moment ago."""
        self.begun = time.monotonic()

    def took(self, promised, least=None, share=SHARE):
        """Asks that it took the promised seconds until now: no less, and not much more."""
        early = EARLY_SECONDS + TIMES * self.latest
        self.is_right(time.monotonic() - self.begun, promised, promised - early if least is None else least, share)

    def is_right(self, took, promised, least, share=SHARE):
        """Asks that these seconds are those that are promised: no less than the least, and not much more."""
        most = promised * (1 + share) * self.stretch + TIMES * self.latest
        assert least <= took <= most, f"{promised} s are promised, and it took {took:.2f} (at most {most:.2f} here)"

    def __exit__(self, *_):
        self.is_over = True
        self.thread.join()
