#!/usr/bin/env python3
"""Runs a command of lc unproved: the sources as they stand, by `rt try`.

    unproved.py COMMAND ARGUMENT...

`rt try` compiles the program anew each time, and the more there is of it the longer that takes. So it gets a copy of the sources in which the functions that
carry out other commands have no body: no command calls those of another. `rt try` has no sockets, and a generated day takes it too long.
"""

from __future__ import annotations

import os
import re
import shutil
import subprocess
import sys
import tempfile
from collections.abc import Iterable, Iterator
from pathlib import Path

from command import FAILED, end_on_signals, say
from crates import Crates
from usage import commands, plain_places, usage_of

# The functions that carry out one command each, and nothing else.
CARRIES_OUT = {
    "check_block": "check",
    "replay_block": "replay",
    "server": "serve",
    "serve": "serve",
    "plan_block": "plan",
    "relay_block": "relay",
    "drill_block": "drill",
    "ask_fewest": "fewest",
    "ask_arrive": "arrive",
}
NOT_UNPROVED = {
    "serve": "rt try has no sockets",
    "plan": "rt try has no sockets",
    "relay": "rt try has no sockets",
    "drill": "a generated day takes rt try too long",
}


def without_body(text: str, name: str) -> str | None:
    """The text of a source in the layout of `rt fmt`, where the body of this function never returns. None where it has no such function."""
    head = re.search(rf"^(pub(\(crate\))? )?fn {name}\b", text, re.M)
    if head is None:
        return None
    begin = re.compile(r"^(\{|\S.*\S \{)$", re.M).search(text, head.start())
    end = re.compile(r"^\}$", re.M).search(text, head.start())
    if begin is None or end is None or end.start() < begin.end():
        return None
    return f"{text[: begin.end()]}\n    unreachable!()\n{text[end.start() :]}"


def copy_sources(crates: Crates, to: Path) -> None:
    used = crates.used_by("lc")
    (to / "crates.txt").write_text("".join(f"{crates.lines[name]}\n" for name in used), encoding="utf-8")
    for name in used:
        shutil.copytree(crates.folder(name) / "src", to / "crates" / name / "src")


def lay_sources(commands: Iterable[str], to: Path) -> Path:
    """Lays a repository of the program's sources, as far as these commands need them, and gives the folder of the program there."""
    crates = Crates()
    copy_sources(crates, to)
    others = [name for name, command in CARRIES_OUT.items() if command not in commands]
    declared = re.compile(rf"^(?:pub(?:\(crate\))? )?fn ({'|'.join(others)})\b", re.M)
    for file in to.glob("crates/*/src/**/*.rt"):
        text = file.read_text(encoding="utf-8")
        for name in declared.findall(text):
            text = without_body(text, name) or text
        file.write_text(text, encoding="utf-8")
    return to / "crates/lc"


def named_files(words: list[str]) -> Iterator[str]:
    """The files that arguments, and the rows of a script among them, name by relative names."""
    scripts = [name for word in words if os.path.isfile(word) for name in updates(word)]
    for word in (*words, *scripts):
        for name in (word, word.partition("=")[2], word.partition("file:")[2]):
            if name and not os.path.isabs(name) and os.path.isfile(name):
                yield name


def updates(script: str) -> list[str]:
    """The files of the `update` rows of a script."""
    with open(script, encoding="utf-8", errors="replace") as rows:
        fields = [[field.strip() for field in row.split(",")] for row in rows]
    return [row[1] for row in fields if row[0] == "update" and len(row) > 1]


def laid(names: Iterable[str]) -> list[str]:
    """The words by which `rt try` lays these files, each under its name."""
    return [word for name in dict.fromkeys(names) for word in ("--data", f"{name}={os.path.abspath(name)}")]


def with_whole_feed(command: str, words: list[str]) -> list[str]:
    """The arguments of a command with the whole path of the feed, since the program runs in a directory of its own."""
    feed = plain_places(usage_of(command), words)[:1] if command in commands() else []
    return [os.path.abspath(word) if place in feed and os.path.isdir(word) else word for place, word in enumerate(words)]


def tried(words: list[str], crate: Path) -> str:
    """Runs `rt try`, and gives what it says beside the program's output. Where it is told to end it ends what it has begun."""
    with subprocess.Popen(words, cwd=crate, stdin=subprocess.DEVNULL, stderr=subprocess.PIPE, text=True, errors="replace") as process:
        try:
            return process.communicate()[1]
        except SystemExit:
            process.terminate()
            raise


def main(words: list[str]) -> int:
    command = words[0] if words else ""
    if command in NOT_UNPROVED:
        say(f"{command} runs as the proved program alone, since {NOT_UNPROVED[command]}: ./lc prove builds it")
        return FAILED
    if shutil.which("rt") is None:
        say("the program is not built, and rt, of the Rattle toolchain, is not on PATH")
        return FAILED
    say("not proved: the sources run by rt try, which takes about a minute each time; ./lc prove builds the proved program")
    data = laid(named_files(words[1:]))
    words = [command, *with_whole_feed(command, words[1:])]
    with tempfile.TemporaryDirectory(prefix="lc-") as folder:
        crate = lay_sources([command], Path(folder))
        said = tried(["rt", "try", *data, "--", *words], crate)
    print(said, end="", file=sys.stderr, flush=True)
    # `rt try` has statuses of its own where the program did not end.
    ended = re.search(r"^run=ended status=(\d+)", said, re.M)
    if ended is None:
        say("rt try gave no answer")
    return int(ended[1]) if ended else FAILED


if __name__ == "__main__":
    end_on_signals()
    sys.exit(main(sys.argv[1:]))
