#!/usr/bin/env python3
"""Says on standard error what is wrong with the arguments of lc at the first glance. The program itself says `error usage` alone.

    usage.py [COMMAND [ARGUMENT]...]

What a command takes stands in docs/help/COMMAND.txt.
"""

from __future__ import annotations

import re
import sys
from collections.abc import Iterator
from dataclasses import dataclass
from pathlib import Path

from command import say
from crates import TOP

HELP = TOP / "docs/help"


@dataclass(frozen=True)
class Usage:
    """What a command takes: its plain arguments, and its options, each with the name of its value, or with none."""

    synopsis: str
    places: tuple[str, ...]
    options: dict[str, str]

    def required(self) -> list[str]:
        return re.findall(r"(--[a-z-]+)", self.synopsis)


def commands(folder: Path = HELP) -> list[str]:
    return sorted(file.stem for file in folder.glob("*.txt") if file.stem != "lc")


def usage_of(command: str, folder: Path = HELP) -> Usage:
    """Reads the first line of a help file and its options, each at the beginning of a line that is two spaces in."""
    lines = (folder / f"{command}.txt").read_text(encoding="utf-8").splitlines()
    plain = re.sub(r"\[.*|--[a-z-]+ [A-Z]+", "", lines[0]).split()
    options = re.findall(r"^  (--[a-z-]+)(?: ([A-Z]+))?", "\n".join(lines), re.M)
    return Usage(lines[0], tuple(plain[2:]), dict(options))


def plain_places(usage: Usage, words: list[str]) -> list[int]:
    """The places of the arguments that are no options and no values of options."""
    found = []
    place = 0
    while place < len(words) and words[place] != "--":
        word = words[place]
        if not word.startswith("--"):
            found.append(place)
        elif "=" not in word and usage.options.get(word, "VALUE"):
            place += 1
        place += 1
    return [*found, *range(place + 1, len(words))]


def faults(usage: Usage, command: str, words: list[str]) -> Iterator[str]:
    """What is wrong with the arguments of a command."""
    plain = plain_places(usage, words)
    end = words.index("--") if "--" in words else len(words)
    given = [word for place, word in enumerate(words[:end]) if word.startswith("--")]
    names = {word.partition("=")[0] for word in given}
    yield from (f"{command} has no option {name}" for name in sorted(names - set(usage.options)))
    yield from (f"{command} needs the option {name}" for name in usage.required() if name not in names)
    if given and words[-1] == given[-1] and usage.options.get(given[-1]):
        yield f"{given[-1]} has no value"
    if len(plain) != len(usage.places):
        yield f"{command} takes {len(usage.places)} arguments beside its options, and here are {len(plain)}"


def main(words: list[str]) -> None:
    command = words[0] if words else ""
    if command not in commands():
        say(f"the first argument is a command: {' '.join(commands())}")
        return
    usage = usage_of(command)
    for fault in faults(usage, command, words[1:]):
        say(fault)
    say(usage.synopsis)
    say(f"./lc help {command} says what each of them is")


if __name__ == "__main__":
    main(sys.argv[1:])
