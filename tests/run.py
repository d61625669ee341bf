#!/usr/bin/env python3
"""Runs what tests this repository, some parts at once, and prints a line for each.

    ./lc test [--list] [--without-cases] [--seconds N] [--at-once N] [NAME]...

A part is a program of cases, which is named as its crate, or a line of tests/parts.txt. With no NAME all of them run. A part that needs the proved
program is skipped where that is not built, or is older than its sources. A part that takes longer than it may is ended, and has failed. What a
part said stands in tests/out/NAME.log. The last line is `N passed, M failed, K skipped`, in checks, and the status is 0 where none failed.
"""

from __future__ import annotations

import argparse
import os
import re
import subprocess
import sys
import time
from collections.abc import Iterator
from concurrent.futures import Future, ThreadPoolExecutor, as_completed
from dataclasses import dataclass
from pathlib import Path

TOP = Path(__file__).resolve().parent.parent
sys.path.insert(0, str(TOP / "tools"))

from command import end_on_signals  # noqa: E402
from crates import PROGRAM, Crates, is_current  # noqa: E402
from machine import at_once  # noqa: E402

BOUNDED = TOP / "tests/bounded.py"
LOGS = TOP / "tests/out"
TIME_OVER = 124
SECONDS_OF_CASES = 400
MEMORY_OF_TRY = 7_000_000  # kB, of one `rt try`
OTHERS_AT_ONCE = 2
COUNTS = re.compile(r"(\d+) passed, (\d+) failed(?:, (\d+) skipped)?")


@dataclass(frozen=True)
class Part:
    """What is run of a part, for how many seconds at most, and what it does with the program: `-`, `proved`, `either` or `unproved`."""

    name: str
    program: str
    seconds: int
    command: tuple[str, ...]


@dataclass(frozen=True)
class Found:
    """How many checks of a part passed, failed and were skipped, in how many seconds; what is said of the last two, and all that the part said."""

    passed: int = 0
    failed: int = 0
    skipped: int = 0
    seconds: float = 0
    amiss: tuple[str, ...] = ()
    lines: tuple[str, ...] = ()

    def __str__(self) -> str:
        return f"{self.passed} passed, {self.failed} failed, {self.skipped} skipped"

    def word(self) -> str:
        return "FAILED" if self.failed else "ok" if self.passed else "skipped"


def parts_of(top: Path) -> Iterator[Part]:
    """The lines of tests/parts.txt, and then the programs of cases, those with the most crates first."""
    for line in (top / "tests/parts.txt").read_text(encoding="utf-8").splitlines():
        words = line.partition("#")[0].split()
        if words:
            yield part_of(top, words)
    crates = Crates(top)
    cases = [name for name in crates.lines if name != "lc" and (crates.folder(name) / "src/main.rt").is_file()]
    for name in sorted(cases, key=lambda name: -len(crates.used_by(name))):
        yield Part(name, "unproved", SECONDS_OF_CASES, (str(top / "tests/case.py"), name))


def part_of(top: Path, words: list[str]) -> Part:
    """The part that a line of the table says."""
    where = f"tests/parts.txt: {' '.join(words)}"
    if len(words) < 4 or words[1] not in ("-", "proved", "either") or not words[2].isdecimal():
        sys.exit(f"{where}: this is no NAME PROGRAM SECONDS COMMAND")
    if not os.access(top / words[3], os.X_OK):
        sys.exit(f"{where}: there is no program {words[3]}")
    return Part(words[0], words[1], int(words[2]), (str(top / words[3]), *words[4:]))


class Run:
    """One run of parts, with the proved program or without it, which ends at a moment."""

    def __init__(self, program: str | None, end: float) -> None:
        self.program = program
        self.end = end
        self.working: set[subprocess.Popen[bytes]] = set()
        self.environment = {name: value for name, value in os.environ.items() if name != "LC"}
        if program is not None:
            self.environment["LC"] = program

    def is_heavy(self, part: Part) -> bool:
        """Whether the part compiles the program."""
        return part.program == "unproved" or (part.program == "either" and self.program is None)

    def found(self, part: Part) -> Found:
        begun = time.monotonic()
        if part.program == "proved" and self.program is None:
            return Found(skipped=1, amiss=(f"skipped: {part.name}, since the proved program is not built, or is older than its sources",))
        seconds = min(part.seconds, int(self.end - begun))
        if seconds <= 0:
            return Found(failed=1, amiss=(f"FAILED: {part.name}: no time is left for it",))
        log = LOGS / f"{part.name}.log"
        with log.open("wb") as out:
            words = [sys.executable, str(BOUNDED), str(seconds), *part.command]
            process = subprocess.Popen(words, cwd=TOP, env=self.environment, stdout=out, stderr=out)
        self.working.add(process)
        status = process.wait()
        self.working.discard(process)
        lines = log.read_text(encoding="utf-8", errors="replace").splitlines()
        return judged(lines, status, seconds, time.monotonic() - begun)

    def stop(self) -> None:
        """Ends the parts at work, and begins no other."""
        self.end = 0
        for process in set(self.working):
            process.terminate()


def judged(lines: list[str], status: int, limit: int, seconds: float) -> Found:
    """What a part found, by the lines that it printed and its status."""
    amiss = [line for line in lines if line.startswith(("FAILED:", "skipped:"))]
    counts = COUNTS.fullmatch(lines[-1]) if lines else None
    passed, failed = (int(counts[1]), int(counts[2])) if counts else (0, 0)
    skipped = int(counts[3]) if counts and counts[3] else sum(line.startswith("skipped:") for line in lines)
    if status == TIME_OVER:
        failed += 1
        amiss.append(f"FAILED: it took longer than {limit} seconds")
    elif counts is None:
        failed += 1
        amiss += [f"FAILED: it ended with status {status} and did not count its checks:", *lines[-5:]]
    elif (status == 0) != (failed == 0):
        failed += 1
        amiss.append(f"FAILED: it ended with status {status}")
    return Found(passed, failed, skipped, seconds, tuple(amiss), tuple(lines))


def program_in_use() -> str | None:
    """The program that LC names, or the proved one of this repository where it is current."""
    if "LC" in os.environ:
        if not os.access(os.environ["LC"], os.X_OK):
            sys.exit(f"./lc test: LC names no program: {os.environ['LC']}")
        return os.path.abspath(os.environ["LC"])
    return str(PROGRAM) if is_current(Crates()) else None


def run_parts(parts: list[Part], run: Run, tries: int, says_all: bool) -> Found:
    """Runs the parts, prints a line for each as it ends with what is amiss or all that it said, and sums up what they found."""
    total = Found()
    with ThreadPoolExecutor(tries) as heavy, ThreadPoolExecutor(OTHERS_AT_ONCE) as others:
        ends: dict[Future[Found], Part] = {(heavy if run.is_heavy(part) else others).submit(run.found, part): part for part in parts}
        try:
            for end in as_completed(ends):
                found = end.result()
                total = Found(total.passed + found.passed, total.failed + found.failed, total.skipped + found.skipped)
                print(f"{found.word()}: {ends[end].name}: {found} ({found.seconds:.0f} s)", flush=True)
                for line in dict.fromkeys((*found.lines, *found.amiss)) if says_all else found.amiss:
                    print(f"    {line}", flush=True)
        finally:
            run.stop()
    return total


def arguments(words: list[str]) -> argparse.Namespace:
    parser = argparse.ArgumentParser(prog="./lc test", description="Runs what tests this repository, and prints a line for each part.")
    parser.add_argument("names", metavar="NAME", nargs="*", help="a part: with none, all of them run")
    parser.add_argument("--list", action="store_true", help="print the names of the parts")
    parser.add_argument("--without-cases", action="store_true", help="leave the programs of cases out, as after rt ci, which ran them")
    parser.add_argument("--seconds", metavar="N", type=int, default=3600, help="how long all of it may take (default %(default)s)")
    tries = at_once(MEMORY_OF_TRY, of_processors=2)
    parser.add_argument("--at-once", metavar="N", type=int, default=tries, help="how many programs are compiled at once (default here %(default)s)")
    return parser.parse_args(words)


def main(words: list[str]) -> int:
    asked = arguments(words)
    parts = {part.name: part for part in parts_of(TOP)}
    if asked.list:
        print("\n".join(parts))
        return 0
    unknown = [name for name in asked.names if name not in parts]
    if unknown:
        print(f"./lc test: no part {' '.join(unknown)}: the parts are {' '.join(parts)}", file=sys.stderr)
        return 2
    chosen = [part for part in parts.values() if part.name in asked.names or not asked.names]
    if asked.without_cases:
        chosen = [part for part in chosen if part.program != "unproved"]
    LOGS.mkdir(exist_ok=True)
    run = Run(program_in_use(), time.monotonic() + asked.seconds)
    total = run_parts(chosen, run, max(1, asked.at_once), says_all=bool(asked.names))
    print(total, flush=True)
    return 0 if total.failed == 0 else 1


if __name__ == "__main__":
    end_on_signals()
    sys.exit(main(sys.argv[1:]))
