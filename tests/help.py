#!/usr/bin/env python3
"""Checks that the files of `./lc help` are made for a terminal, and name the options that the sources have.

    help.py
"""

from __future__ import annotations

import re
import subprocess
import sys
from pathlib import Path

from checks import Checks

TOP = Path(__file__).resolve().parent.parent
sys.path.insert(0, str(TOP / "tools"))

from usage import HELP, commands, usage_of  # noqa: E402

WIDTH = 78
PARTS = ["Arguments", "Options", "Exit status", "Example"]
SOURCES = TOP / "crates/cli_words/src"


def options_of(source: str) -> set[str]:
    """The options in the tables of a command's source. Its proof says that its definition has the same."""
    tables = re.findall(r"^static (?:OPTIONS|FLAGS): [^=]*= \[(.*?)\];", source, re.M | re.S)
    return {f"--{word}" for table in tables for word in re.findall(r'"([a-z-]+)"', table)}


def options_by_source() -> dict[str, set[str]]:
    """The options of each command. Its source is named as it is, and has a table of them."""
    sources = {file.stem: file.read_text(encoding="utf-8") for file in SOURCES.glob("*.rt")}
    return {command: options_of(source) for command, source in sources.items() if re.search("^static OPTIONS:", source, re.M)}


def check_form(checks: Checks, file: Path) -> None:
    """Checks what a reader at a terminal meets."""
    lines = file.read_text(encoding="utf-8").splitlines()
    wide = [line for line in lines if len(line) > WIDTH or line != line.rstrip()]
    checks.same(f"{file.name}: lines of at most {WIDTH} columns, without spaces at their ends", [], wide)
    checks.same(f"{file.name}: says nothing of building", [], [line for line in lines if re.search(r"prove|build|compile", line)])
    if file.stem != "lc":
        checks.same(f"{file.name}: begins with the synopsis", True, lines[0].startswith(f"./lc {file.stem} "))
        checks.same(f"{file.name}: its parts", PARTS, [line for line in lines[1:] if re.fullmatch(r"[A-Z][a-z ]+", line)])
        places = [word for line in lines if (found := re.match(r"  ([A-Z][A-Z, ]*)  ", line)) for word in re.findall("[A-Z]+", found[1])]
        checks.same(f"{file.name}: says what each argument is", list(usage_of(file.stem).places), places)
    printed = subprocess.run([TOP / "lc", "help", *([file.stem] if file.stem != "lc" else [])], capture_output=True, text=True, check=False)
    checks.same(f"{file.name}: ./lc help prints it", (0, file.read_text(encoding="utf-8")), (printed.returncode, printed.stdout))


def main() -> None:
    checks = Checks()
    sources = options_by_source()
    checks.same("a help file for each command", sorted(sources), commands())
    listed = re.findall(r"^  ([a-z]+)  ", (HELP / "lc.txt").read_text(encoding="utf-8"), re.M)
    checks.same("lc.txt lists each command", sorted(sources), sorted(listed))
    for command, options in sorted(sources.items()):
        checks.same(f"{command}: the options of its source", sorted(options), sorted(usage_of(command).options))
    for file in sorted(HELP.glob("*.txt")):
        check_form(checks, file)
    checks.end()


if __name__ == "__main__":
    main()
