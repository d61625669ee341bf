#!/usr/bin/env python3
"""Runs a program of cases unproved, by `rt try`, and compares what it prints and its status with the files of its crate.

    case.py CRATE
"""

from __future__ import annotations

import re
import shutil
import subprocess
import sys
from pathlib import Path

from checks import Checks

TOP = Path(__file__).resolve().parent.parent
# `rt try` runs a program on an interpreter too, which the larger programs of cases bring to its limit. The compiled one has so many seconds.
STEPS, SECONDS = "1", "240"


def words_of(crate: Path) -> list[str]:
    """The command that runs the program as its files say: `args` has a word a line, and `data` what lies where it runs."""
    data = crate / "data"
    files = sorted(file for file in data.rglob("*") if file.is_file()) if data.is_dir() else []
    laid = [word for file in files for word in ("--data", f"{file.relative_to(data)}={file}")]
    arguments = text_of(crate / "args").splitlines()
    return ["rt", "try", "--steps", STEPS, "--seconds", SECONDS, *laid, "--", *arguments]


def text_of(file: Path) -> str:
    return file.read_text(encoding="utf-8") if file.is_file() else ""


def opens_sockets(crate: Path) -> bool:
    return any(re.search(r"\bTcp(Door|Link)\b", file.read_text(encoding="utf-8")) for file in crate.glob("src/**/*.rt"))


def compare(checks: Checks, name: str, crate: Path) -> None:
    """Checks the lines of the program and its status."""
    stdin = crate / "stdin"
    given = stdin.read_bytes() if stdin.is_file() else b""
    ran = subprocess.run(words_of(crate), cwd=crate, input=given, capture_output=True, check=False)
    found = ran.stdout.decode(errors="replace").splitlines()
    wanted = text_of(crate / "stdout").splitlines()
    differ = [(place, *lines) for place, lines in enumerate(zip(wanted, found), start=1) if lines[0] != lines[1]]
    if differ:
        place, want, find = differ[0]
        checks.fail(f"{name}: line {place} of {len(wanted)}", f"wanted {want!r}, found {find!r}, and {len(differ)} lines differ")
    elif len(found) != len(wanted):
        checks.fail(f"{name}: {len(wanted)} lines", f"found {len(found)}: {ran.stderr.decode(errors='replace')[-400:]!r}")
    else:
        checks.ok(f"{name}: {len(wanted)} lines")
    checks.same(f"{name}: status", int(text_of(crate / "status") or 0), ran.returncode)


def main(words: list[str]) -> None:
    if len(words) != 1:
        sys.exit("usage: case.py CRATE")
    checks = Checks()
    name, crate = words[0], TOP / "crates" / words[0]
    if shutil.which("rt") is None:
        checks.skip(name, "rt, of the Rattle toolchain, is not on PATH")
    elif opens_sockets(crate):
        checks.skip(name, f"rt try has no sockets: cd crates/{name} && rt run proves it and runs it")
    else:
        compare(checks, name, crate)
    checks.end()


if __name__ == "__main__":
    main(sys.argv[1:])
