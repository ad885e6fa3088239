"""For the tests in Python: counts the checks that pass and fail, prints the failures, and prints the last line, `NAME: N passed, M failed`."""
import threading


class Counting:
    """The checks of a test; threads may share it. `name` begins each line; of the failures at most `most` are printed."""

    def __init__(self, name="", most=40):
        self.front, self.most, self.passed, self.failed, self.lock = f"{name}: " if name else "", most, 0, 0, threading.Lock()

    def check(self, good, what, seen=""):
        """Counts a check. If it failed, prints what was checked and what was seen. Returns whether it passed."""
        with self.lock:
            if good:
                self.passed += 1
                return True
            self.failed += 1
            if self.failed <= self.most:
                print(f"{self.front}FAILED: {what}" + (f": {seen}" if seen != "" else ""), flush=True)
            return False

    def same(self, what, got, want):
        """Checks that two values are equal."""
        return self.check(got == want, what, f"got {got!r}, want {want!r}" if got != want else "")

    def add(self, passed, failed):
        """Adds the counts of other checks, whose failures were printed elsewhere."""
        with self.lock:
            self.passed, self.failed = self.passed + passed, self.failed + failed

    def end(self):
        """Prints the last line. Returns the status: 0, or 1 if a check failed."""
        print(f"{self.front}{self.passed} passed, {self.failed} failed", flush=True)
        return int(self.failed > 0)
