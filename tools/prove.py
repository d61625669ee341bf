#!/usr/bin/env python3
"""Proves each crate of the program, and builds the program.

    prove.py

Crates of which none builds on another are proved at once, one for each processor and for each 3 GB of free memory. Of the commands that work in
a crate or in one below it `rt` lets one go on and has the others wait. So each crate is proved in a copy of its own, over the libraries that are made. What is made
is kept where the run ends early, and only what changed is proved again. The status is 70 where a crate is not proved.
"""

from __future__ import annotations

import fcntl
import os
import shutil
import subprocess
import sys
import tempfile
from pathlib import Path
from typing import NoReturn

from command import FAILED, end_on_signals, say
from crates import PROGRAM, Crates, is_current
from machine import at_once, processors

OUT = PROGRAM.parent
ROOMS = OUT / "rooms"
MEMORY_OF_ONE = 3_000_000  # kB, of the largest crates


def fail(log: Path, why: str) -> NoReturn:
    """Says how the log ends, and why nothing is built."""
    with log.open(encoding="utf-8", errors="replace") as lines:
        sys.stderr.writelines(lines.readlines()[-40:])
    say(why)
    sys.exit(FAILED)


class Proving:
    """A run that proves the libraries of the program. A crate waits, is at work, or is proved."""

    def __init__(self, crates: Crates, used: list[str]) -> None:
        self.crates = crates
        self.used = used
        self.proved: set[str] = set()
        self.working: dict[str, subprocess.Popen[bytes]] = {}
        self.height = heights(crates, used)
        for name in used:
            if self.is_made(name):
                self.proved.add(name)

    def libraries(self) -> list[str]:
        return [name for name in self.used if name != "lc"]

    def made(self, name: str) -> Path:
        return self.crates.folder(name) / "out/rlib/stamp"

    def is_made(self, name: str) -> bool:
        """Whether an earlier run made the library of what is there. `rt run` looks again, by sums."""
        made = self.made(name)
        below = self.crates.below[name]
        return (
            self.proved.issuperset(below)
            and self.crates.is_newer(made, [name])
            and all(self.made(it).stat().st_mtime_ns <= made.stat().st_mtime_ns for it in below)
        )

    def ready(self) -> list[str]:
        """The libraries that can begin, since all that they build on is proved: first those with the most crates on top of them."""
        found = [
            name
            for name in self.libraries()
            if name not in self.proved and name not in self.working and self.proved.issuperset(self.crates.below[name])
        ]
        return sorted(found, key=lambda name: -self.height[name])

    def prove(self) -> None:
        shutil.rmtree(ROOMS, ignore_errors=True)
        ROOMS.mkdir(parents=True, exist_ok=True)
        most = at_once(MEMORY_OF_ONE)
        try:
            while len(self.proved) < len(self.libraries()):
                ready = self.ready()
                jobs = jobs_of_each(len(ready) + len(self.working))
                for name in ready[: most - len(self.working)]:
                    self.begin(name, jobs)
                self.end_next()
        finally:
            self.stop()
            shutil.rmtree(ROOMS, ignore_errors=True)

    def begin(self, name: str, jobs: int) -> None:
        """Begins to prove a crate and to make its library."""
        room = ROOMS / name
        for crate in self.used:
            if crate in self.proved or crate == name:
                self.copy(crate, room)
        kept = self.crates.folder(name) / "out/incremental"
        if kept.is_dir():
            kept.rename(room / "crates" / name / "out/incremental")
        with (ROOMS / f"{name}.log").open("wb") as log:
            self.working[name] = subprocess.Popen(
                ["rt", "lib", "--jobs", str(jobs)], cwd=room / "crates" / name, stdin=subprocess.DEVNULL, stdout=log, stderr=log
            )
        say(f"proving {name} ({self.progress()})")

    def copy(self, crate: str, room: Path) -> None:
        source, to = self.crates.folder(crate), room / "crates" / crate
        (to / "out").mkdir(parents=True)
        with (room / "crates.txt").open("a", encoding="utf-8") as lines:
            print(self.crates.lines[crate], file=lines)
        for part in ("src", "specs", "proofs"):
            if (source / part).is_dir():
                shutil.copytree(source / part, to / part)
        if (source / "out/rlib").is_dir():
            # The files of a library are replaced and never written into, so a second name is as good as a copy.
            shutil.copytree(source / "out/rlib", to / "out/rlib", copy_function=os.link)

    def end_next(self) -> None:
        """Waits until one of the crates at work has ended, and takes what was made of it."""
        ended = os.waitid(os.P_ALL, 0, os.WEXITED | os.WNOWAIT)
        assert ended is not None
        name = next(name for name, work in self.working.items() if work.pid == ended.si_pid)
        status = self.working.pop(name).wait()
        self.take(name)
        if status != 0:
            fail(ROOMS / f"{name}.log", f"{name} is not proved")
        self.proved.add(name)
        say(f"{name} is proved ({self.progress()})")

    def take(self, name: str) -> None:
        """Takes over what was made in the copy of a crate, and removes the copy."""
        room, to = ROOMS / name, self.crates.folder(name) / "out"
        to.mkdir(exist_ok=True)
        for part in ("rlib", "incremental"):
            made = room / "crates" / name / "out" / part
            if made.is_dir():
                shutil.rmtree(to / part, ignore_errors=True)
                made.rename(to / part)
        # What a command had begun may write for a moment after it was ended.
        shutil.rmtree(room, ignore_errors=True)

    def stop(self) -> None:
        """Ends the commands at work, and keeps what they made."""
        for work in self.working.values():
            work.terminate()
        for name, work in self.working.items():
            work.wait()
            self.take(name)
        self.working.clear()

    def progress(self) -> str:
        return f"{len(self.proved)} of {len(self.used)} done"


def jobs_of_each(count: int) -> int:
    """How many processors each of so many crates gets."""
    every = processors()
    return 1 if every < 2 else max(2, every // max(count, 1))


def heights(crates: Crates, used: list[str]) -> dict[str, int]:
    """The most crates that build on each in a row, up to the program."""
    height = dict.fromkeys(used, 0)
    for name in reversed(used):
        for below in crates.below[name]:
            height[below] = max(height[below], height[name] + 1)
    return height


def build_program(crates: Crates, progress: str) -> None:
    """Proves and builds the program over its libraries. `rt run` also runs it: without arguments it says 'error usage'."""
    say(f"proving lc ({progress})")
    PROGRAM.unlink(missing_ok=True)
    with tempfile.NamedTemporaryFile() as log:
        subprocess.run(["rt", "run"], cwd=crates.folder("lc"), stdin=subprocess.DEVNULL, stdout=log, stderr=log, check=False)
        if not os.access(PROGRAM, os.X_OK):
            fail(Path(log.name), "the program could not be built")


def main() -> None:
    crates = Crates()
    if shutil.which("rt") is None:
        say("rt, of the Rattle toolchain, is not on PATH")
        sys.exit(FAILED)
    if not is_current(crates):
        used = crates.used_by("lc")
        say(f"proving {len(used)} crates and building the program, {at_once(MEMORY_OF_ONE)} at once: tens of minutes, the first time")
        OUT.mkdir(exist_ok=True)
        with (OUT / "lock").open("w") as lock:
            # Another run that proves here ends first.
            fcntl.flock(lock, fcntl.LOCK_EX)
            if not is_current(crates):
                proving = Proving(crates, used)
                proving.prove()
                build_program(crates, proving.progress())
    say(f"{PROGRAM} is proved")


if __name__ == "__main__":
    end_on_signals()
    main()
