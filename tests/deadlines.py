"""A deadline for each test. After it the test fails, and shows where it waited, so that nothing waits for ever.

A test, or its class, has `deadline = SECONDS` where it may take longer than most. They are far above what a quiet machine takes.
"""

import signal
import unittest
from types import FrameType
from typing import Any, Optional

SECONDS = 300
# For the cleanup after a test that was ended, and for what a class prepares before its first test.
BESIDE_SECONDS = 300


class Overdue(AssertionError):
    """A test went on for too long."""


def seconds_of(test: Any) -> int:
    """The deadline of a test."""
    method = getattr(test, getattr(test, "_testMethodName", ""), None)
    return int(getattr(method, "deadline", getattr(test, "deadline", SECONDS)))


class Result(unittest.TextTestResult):
    """What became of the tests, each of which has its deadline."""

    running = ""

    def startTestRun(self) -> None:
        """Begins the time of what stands before the first test."""
        super().startTestRun()
        self.arm(f"what stands before the first test had {BESIDE_SECONDS} seconds", BESIDE_SECONDS)

    def startTest(self, test: unittest.TestCase) -> None:
        """Begins a test's time."""
        super().startTest(test)
        self.arm(f"{test.id()} had {seconds_of(test)} seconds", seconds_of(test))

    def stopTest(self, test: unittest.TestCase) -> None:
        """Ends it; what a class does between its tests has a time, too."""
        super().stopTest(test)
        self.arm(f"what stands behind {test.id()} had {BESIDE_SECONDS} seconds", BESIDE_SECONDS)

    def stopTestRun(self) -> None:
        """Ends all times."""
        super().stopTestRun()
        signal.setitimer(signal.ITIMER_REAL, 0)

    def arm(self, running: str, seconds: int) -> None:
        """From now on this many seconds are left."""
        self.running = running
        signal.signal(signal.SIGALRM, self.end)
        signal.setitimer(signal.ITIMER_REAL, seconds)

    def end(self, _signal: int, _frame: Optional[FrameType]) -> None:
        """Breaks off what runs, wherever it waits. The cleanup after it has a time limit again."""
        signal.setitimer(signal.ITIMER_REAL, BESIDE_SECONDS)
        raise Overdue(f"{self.running}, and they are over. It was broken off where the lines above say.")
