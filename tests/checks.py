"""How a part of `./lc test` that is written in Python says what it found: a line for each check, and a last one with their counts."""

from __future__ import annotations

import sys
import unittest
from types import TracebackType
from typing import NoReturn


class Checks:
    """The checks of a part. Each is printed as it is made."""

    def __init__(self) -> None:
        self.passed = self.failed = self.skipped = 0

    def ok(self, name: str) -> None:
        self.passed += 1
        print(f"ok: {name}", flush=True)

    def fail(self, name: str, why: str) -> None:
        self.failed += 1
        print(f"FAILED: {name}: {why}", flush=True)

    def skip(self, name: str, why: str) -> None:
        self.skipped += 1
        print(f"skipped: {name}, since {why}", flush=True)

    def same(self, name: str, wanted: object, found: object) -> None:
        if wanted == found:
            self.ok(name)
        else:
            self.fail(name, f"wanted {wanted!r}, found {found!r}")

    def end(self) -> NoReturn:
        print(f"{self.passed} passed, {self.failed} failed, {self.skipped} skipped", flush=True)
        sys.exit(0 if self.failed == 0 else 1)


Fault = tuple[type[BaseException], BaseException, TracebackType] | tuple[None, None, None]


class Results(unittest.TestResult):
    """The results of test methods as checks. The first line of a method's documentation is its name."""

    def __init__(self, checks: Checks) -> None:
        super().__init__()
        self.checks = checks

    def addSuccess(self, test: unittest.TestCase) -> None:
        self.checks.ok(named(test))

    def addFailure(self, test: unittest.TestCase, err: Fault) -> None:
        self.checks.fail(named(test), " / ".join(str(err[1]).splitlines()))

    def addError(self, test: unittest.TestCase, err: Fault) -> None:
        self.checks.fail(named(test), repr(err[1]))

    def addSkip(self, test: unittest.TestCase, reason: str) -> None:
        self.checks.skip(named(test), reason)


def named(test: unittest.TestCase) -> str:
    return test.shortDescription() or test.id()


def run_tests() -> NoReturn:
    """Runs the test methods of the program that is running, and ends with what they found."""
    checks = Checks()
    unittest.defaultTestLoader.loadTestsFromModule(sys.modules["__main__"]).run(Results(checks))
    checks.end()
