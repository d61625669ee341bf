"""The crates of this repository, as crates.txt lists them, and whether what was made of them is current.

    crates.py current    ends with status 0 where the proved program is there and no older than its sources, and else with 1
"""

from __future__ import annotations

import os
import sys
from collections.abc import Iterable, Iterator
from pathlib import Path

TOP = Path(__file__).resolve().parent.parent
PROGRAM = TOP / "crates/lc/out/lc"


class Crates:
    """The crates of this repository, each with the crates that it builds on. Libraries of the kit are left out."""

    def __init__(self, top: Path = TOP) -> None:
        self.top = top
        self.list = top / "crates.txt"
        self.lines: dict[str, str] = {}
        for line in self.list.read_text(encoding="utf-8").splitlines():
            head, colon, _ = line.partition("#")[0].partition(":")
            if colon:
                self.lines[head.split()[0]] = line.partition("#")[0].strip()
        self.below = {name: self._names_in(line) for name, line in self.lines.items()}

    def _names_in(self, line: str) -> list[str]:
        return [name for name in line.partition(":")[2].split() if name in self.lines]

    def folder(self, name: str) -> Path:
        return self.top / "crates" / name

    def used_by(self, name: str) -> list[str]:
        """The crate and all below it, each after those that it builds on."""
        found: dict[str, None] = {}

        def visit(crate: str) -> None:
            if crate not in found:
                for below in self.below[crate]:
                    visit(below)
                found[crate] = None

        visit(name)
        return list(found)

    def sources(self, name: str) -> Iterator[str]:
        """The files from which the crate is proved and built."""
        for part in ("src", "specs", "proofs"):
            yield from files_below(str(self.folder(name) / part))

    def is_newer(self, made: Path, names: Iterable[str]) -> bool:
        """Whether this file is there, and no source of these crates was changed after it."""
        try:
            moment = made.stat().st_mtime_ns
        except FileNotFoundError:
            return False
        sources = (file for name in names for file in self.sources(name))
        return all(os.stat(file).st_mtime_ns <= moment for file in (str(self.list), *sources))


def files_below(folder: str) -> Iterator[str]:
    try:
        entries = list(os.scandir(folder))
    except FileNotFoundError:
        return
    for entry in entries:
        if entry.is_dir():
            yield from files_below(entry.path)
        else:
            yield entry.path


def is_current(crates: Crates) -> bool:
    return os.access(PROGRAM, os.X_OK) and crates.is_newer(PROGRAM, crates.used_by("lc"))


if __name__ == "__main__":
    if sys.argv[1:] != ["current"]:
        sys.exit(f"usage: {sys.argv[0]} current")
    sys.exit(0 if is_current(Crates()) else 1)
