"""What the checks of .ci/ that are written in Python share: they count what they tried, what failed, and what they skipped and why."""
import os
import sys


class Check:
    """One check: its counts, and what it says of them at its end."""

    def __init__(self, name):
        self.name = name
        self.passed = self.failed = self.skipped = 0

    def passes(self, count=1):
        """So many trials were good."""
        self.passed += count

    def wrong(self, *words):
        """A trial wasn't good; the words say how."""
        self.failed += 1
        print(f"{self.name}: {' '.join(map(str, words))}", flush=True)

    def tries(self, holds, *words):
        """A trial, which is good where something holds."""
        if holds:
            self.passed += 1
        else:
            self.wrong(*words)
        return holds

    def skips(self, why):
        """A trial can't be made here."""
        self.skipped += 1
        print(f"{self.name}: skipped: {why}", flush=True)

    def ends(self):
        """Says the counts and ends: with 1 where a trial failed, where nothing was tried though nothing was skipped, or where
        something was skipped and SCCS_CHECKS=all asks for everything."""
        if not (self.passed or self.failed or self.skipped):
            self.wrong("nothing was tried")
        if self.skipped and os.environ.get("SCCS_CHECKS") == "all":
            self.wrong("something was skipped, and everything is to be tried")
        print(f"{self.name}: {self.passed} passed, {self.failed} failed, {self.skipped} skipped", flush=True)
        counts = os.environ.get("SCCS_COUNTS")
        if counts:
            with open(counts, "a", encoding="ascii") as it:
                it.write(f"{self.passed} {self.failed} {self.skipped}\n")
        sys.exit(1 if self.failed else 0)
