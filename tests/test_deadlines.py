"""The deadlines of tests and of modules, by tests that wait for ever."""

import os
import re
import shutil
import signal
import socket
import subprocess
import sys
import tempfile
import threading
import time
import unittest
from pathlib import Path
from typing import Any, Callable, List, Type
from unittest import mock

import deadlines
from deadlines import SECONDS, Result, seconds_of


def long(seconds: int) -> Callable[[Any], Any]:
    """Gives a test a deadline."""
    def given(test: Any) -> Any:
        test.deadline = seconds
        return test

    return given


def waits_of(case: Any) -> List[Callable[[], object]]:
    """What waits for ever, each in another way."""
    one, other = socket.socketpair()
    process = subprocess.Popen(["sleep", "1000"])
    thread = threading.Thread(target=process.wait, daemon=True)
    thread.start()
    case.addCleanup(process.kill)
    case.addCleanup(one.close)
    case.addCleanup(other.close)
    return [lambda: one.recv(1), process.wait, thread.join, lambda: time.sleep(1000), threading.Event().wait]


def result_of(case: Type[unittest.TestCase]) -> unittest.TestResult:
    """What becomes of the tests of a class."""
    with open("/dev/null", "w", encoding="ascii") as nowhere:
        suite = unittest.defaultTestLoader.loadTestsFromTestCase(case)
        return unittest.TextTestRunner(nowhere, verbosity=0, resultclass=Result).run(suite)


class Deadlines(unittest.TestCase):
    """Each is broken off in its time, and the next test is made."""

    def test_waits(self) -> None:
        for number in range(5):
            class Waits(unittest.TestCase):
                """A test that waits, and one after it."""

                @long(1)
                def test_a(self) -> None:
                    waits_of(self)[number]()

                def test_b(self) -> None:
                    pass

            with self.subTest(number):
                began, result = time.monotonic(), result_of(Waits)
                self.assertEqual((result.testsRun, len(result.failures), len(result.errors)), (2, 1, 0))
                self.assertIn("test_a had 1 seconds, and they are over", result.failures[0][1])
                self.assertIn("waits_of(self)[number]()", result.failures[0][1])
                self.assertLess(time.monotonic() - began, 60)

    def test_what_the_first_class_prepares(self) -> None:
        class Prepares(unittest.TestCase):
            """Waits before its first test."""

            @classmethod
            def setUpClass(cls) -> None:
                threading.Event().wait()

            def test_a(self) -> None:
                pass

        with mock.patch.object(deadlines, "BESIDE_SECONDS", 1):
            result = result_of(Prepares)
        self.assertEqual((result.testsRun, len(result.errors)), (0, 1))
        self.assertIn("what stands before the first test had 1 seconds, and they are over", result.errors[0][1])

    def test_of_each(self) -> None:
        """A method's own deadline goes before its class's, and that before the usual one."""
        @long(7)
        class Case(unittest.TestCase):
            """Two tests."""

            @long(3)
            def test_a(self) -> None:
                pass

            def test_b(self) -> None:
                pass

        self.assertEqual([seconds_of(Case("test_a")), seconds_of(Case("test_b")), seconds_of(self)], [3, 7, SECONDS])


MODULE = """
import os
import subprocess
import time
import unittest


class One(unittest.TestCase):
    def test_one(self) -> None:
        {}
"""


class Modules(unittest.TestCase):
    """A module that runs beside others: what it said is shown, and the others' counts are, whatever became of it."""

    def said(self, body: str, **environment: str) -> List[str]:
        """What `tests/run` says of such a module, without the lines of its own about it."""
        folder = Path(self.enterContext(tempfile.TemporaryDirectory(prefix="vault-test-")))
        for name in ("run", "deadlines.py"):
            shutil.copy(Path(__file__).with_name(name), folder)
        (folder / "test_one.py").write_text(MODULE.format(body), "utf-8")
        kept = {name: value for name, value in os.environ.items() if name != "VAULT_TESTS_WITHIN"}
        done = subprocess.run([sys.executable, str(folder / "run"), "--at-once", "2"], stdin=subprocess.DEVNULL, stdout=subprocess.PIPE,
                              stderr=subprocess.STDOUT, text=True, timeout=60, check=False, env={**kept, **environment})
        self.assertEqual(done.returncode, 1, done.stdout)
        return done.stdout.splitlines()

    def test_one_that_leaves_a_program(self) -> None:
        """The program has what the module says into, for longer than anybody waits here."""
        lines = self.said('left = subprocess.Popen(["sleep", "1000"]); self.fail(f"left {left.pid}.")')
        left = [int(found[1]) for found in (re.search(r"AssertionError: left (\d+)\.", line) for line in lines) if found]
        self.assertEqual((len(left), lines[-1]), (1, "0 passed, 1 failed"))
        os.kill(left[0], signal.SIGKILL)

    def test_byte_code(self) -> None:
        """It is made once before, for all that the tests start."""
        lines = self.said('self.fail(f"is made: {os.path.exists(__cached__)}")', PYTHONDONTWRITEBYTECODE="1")
        self.assertTrue(any("AssertionError: is made: True" in line for line in lines), lines)

    def test_one_that_goes_on(self) -> None:
        lines = self.said('print("said before", flush=True); time.sleep(1000)', VAULT_MODULE_SECONDS="3")
        self.assertTrue(any("said before" in line for line in lines), lines)
        self.assertTrue(any("test_one" in line and "was ended, since its time was over" in line for line in lines), lines)
        self.assertEqual(lines[-1], "0 passed, 1 failed")


if __name__ == "__main__":
    unittest.main()
