#!/usr/bin/env python3
"""Runs the examples of the help files, and checks that they answer as they say.

    examples.py

LC is the program. Without it the sources run unproved, built once for all of them. Examples that cannot run so are skipped.
"""

from __future__ import annotations

import os
import re
import shlex
import shutil
import socket
import subprocess
import sys
import tempfile
import time
from dataclasses import dataclass, field
from pathlib import Path

from checks import Checks

TOP = Path(__file__).resolve().parent.parent
sys.path.insert(0, str(TOP / "tools"))

from unproved import NOT_UNPROVED, lay_sources  # noqa: E402
from usage import HELP  # noqa: E402

PORT = "8080"  # that of the examples, for which a free one stands in
SECONDS = 60


@dataclass
class Step:
    """A command of an example, and the lines that follow it there."""

    command: str
    lines: list[str] = field(default_factory=list)

    @property
    def is_left_running(self) -> bool:
        return self.command.endswith(" &")


def example_of(file: Path) -> list[Step]:
    """The steps of the example with which a help file ends."""
    steps: list[Step] = []
    text = file.read_text(encoding="utf-8").partition("\nExample\n")[2]
    for line in text.splitlines():
        if not line.startswith("  "):
            break
        if line.startswith("  $ "):
            steps.append(Step(line[4:]))
        else:
            steps[-1].lines.append(line[2:])
    return steps


def free_port() -> str:
    with socket.socket() as free:
        free.bind(("127.0.0.1", 0))
        return str(free.getsockname()[1])


class Session:
    """The steps of an example as a shell runs them, with a program in the place of ./lc. What a step prints goes to a file of its own."""

    def __init__(self, program: str, folder: Path) -> None:
        self.program = program
        self.folder = folder
        self.port = free_port()
        self.running: list[subprocess.Popen[bytes]] = []

    def begin(self, place: int, step: Step) -> subprocess.Popen[bytes]:
        command = step.command.removesuffix(" &").replace("./lc ", f"{shlex.quote(self.program)} ").replace(PORT, self.port)
        with (self.folder / str(place)).open("wb") as out:
            process = subprocess.Popen(["bash", "-c", f"exec {command}" if step.is_left_running else command], cwd=TOP, stdout=out, stderr=out)
        self.running.append(process)
        return process

    def said(self, place: int) -> list[str]:
        text = (self.folder / str(place)).read_text(encoding="utf-8", errors="replace")
        return [line.rstrip() for line in text.replace(self.port, PORT).splitlines()]

    def play(self, steps: list[Step]) -> list[str]:
        """What the steps print, as a document shows it: what a command that is left running says at its end comes last."""
        shown: list[str] = []
        for place, step in enumerate(steps):
            process = self.begin(place, step)
            if step.is_left_running:
                self.wait_for_lines(place, len(step.lines))
                shown += self.said(place)[: len(step.lines)]
            else:
                status = process.wait(SECONDS)
                shown += self.said(place) + [f"status {status}"] * (status != 0)
        for place, step in enumerate(steps):
            if step.is_left_running:
                self.running[place].wait(SECONDS)
                shown += self.said(place)[len(step.lines) :]
        return shown

    def wait_for_lines(self, place: int, count: int) -> None:
        end = time.monotonic() + SECONDS
        while len(self.said(place)) < count and time.monotonic() < end:
            time.sleep(0.05)

    def end(self) -> None:
        for process in self.running:
            process.kill()
            process.wait()


def check_proved(checks: Checks, program: str, examples: dict[str, list[Step]]) -> None:
    """Plays each example by a program."""
    for name, steps in examples.items():
        with tempfile.TemporaryDirectory() as folder:
            session = Session(program, Path(folder))
            try:
                checks.same(f"the example of {name}", [line for step in steps for line in step.lines], session.play(steps))
            except subprocess.TimeoutExpired as error:
                checks.fail(f"the example of {name}", f"no end of {error.cmd} in {SECONDS} seconds")
            finally:
                session.end()


def check_unproved(checks: Checks, examples: dict[str, list[Step]]) -> None:
    """Runs the examples that can run so as cases of one `rt try`."""
    words = {name: shlex.split(steps[0].command)[1:] for name, steps in examples.items()}
    for name in [name for name in words if words[name][0] in NOT_UNPROVED]:
        checks.skip(f"the example of {name}", f"{NOT_UNPROVED[words.pop(name)[0]]}, and the proved program is not built")
    with tempfile.TemporaryDirectory() as folder:
        crate = lay_sources({given[0] for given in words.values()}, Path(folder))
        cases = Path(folder, "cases")
        cases.mkdir()
        for name, given in words.items():
            given[1] = str(TOP / given[1])
            (cases / name).touch()
            (cases / f"{name}.args").write_text("".join(f"{word}\n" for word in given), encoding="utf-8")
            (cases / f"{name}.stdout").write_text("".join(f"{line}\n" for line in examples[name][0].lines), encoding="utf-8")
        data = [word for file in TOP.glob("examples/*.*") for word in ("--data", f"examples/{file.name}={file}")]
        tried = ["rt", "try", *data, "--cases", str(cases)]
        said = subprocess.run(tried, cwd=crate, stdin=subprocess.DEVNULL, capture_output=True, text=True, errors="replace", check=False).stderr
    ended = dict(re.findall(r"^case=(\S+) (.*)$", said, re.M))
    for name in words:
        if re.match(r"run=ended status=0 .*output=expected", ended.get(name, "")):
            checks.ok(f"the example of {name}")
        else:
            checks.fail(f"the example of {name}", ended.get(name) or said[-400:])


def main() -> None:
    checks = Checks()
    examples = {file.stem: example_of(file) for file in sorted(HELP.glob("*.txt"))}
    if "LC" in os.environ:
        check_proved(checks, os.path.abspath(os.environ["LC"]), examples)
    elif shutil.which("rt") is None:
        checks.skip("the examples", "neither the proved program nor rt is here")
    else:
        check_unproved(checks, examples)
    checks.end()


if __name__ == "__main__":
    main()
