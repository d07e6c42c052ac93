"""How many checks run side by side."""

import contextlib
import os
import re
import threading
import time

from source import text_of

# A check takes up to this much memory, that of the crate with the most edits.
NEED = 7_000_000_000


class Turns:
    """How many checks run side by side: beside an `rt ci` that writes to a file, one until there is that file's `.done`, where
    memory is left for it."""

    def __init__(self, beside):
        self.beside, self.most, self.running, self.changed = beside, 0, 0, threading.Condition()

    def is_beside(self):
        return self.beside and not os.path.exists(f"{self.beside}.done")

    def wait_for(self, name):
        """Waits until `rt ci` has said that a crate is proved."""
        proved = re.compile(rf"^rt: {name} (?:proved|is kept)", re.M)
        while self.is_beside() and not (os.path.exists(self.beside) and proved.search(text_of(self.beside))):
            time.sleep(1)

    def is_free(self):
        if self.is_beside():
            return not self.running and available() >= NEED
        self.most = self.most or lanes()
        return self.running < self.most

    @contextlib.contextmanager
    def one(self):
        """The turn of a check."""
        with self.changed:
            while not self.is_free():
                self.changed.wait(1)
            self.running += 1
        try:
            yield
        finally:
            with self.changed:
                self.running -= 1
                self.changed.notify()


def lanes():
    """How many checks run side by side: one a processor, and as many as memory holds."""
    if os.environ.get("RT_JOBS", "").isdigit():
        return max(1, int(os.environ["RT_JOBS"]))
    return max(1, min(len(os.sched_getaffinity(0)), available() // NEED))


def available():
    """How much memory is free, or can be."""
    return 1024 * int(re.search(r"MemAvailable:\s+(\d+)", text_of("/proc/meminfo"))[1])
