#!/usr/bin/env python3
"""Compares what two states of this repository promise, but for names of crates and places of files.

    bench/clauses.py BEFORE AFTER

Each is a checkout. Compared are the functions with their clauses, the definitions of specs/, and the lines that the programs of cases print. What one
state has and the other has not is printed, and the last line counts it. The status is 0 where nothing of BEFORE is lost.
"""

from __future__ import annotations

import argparse
import re
import sys
from collections import Counter
from collections.abc import Iterator
from dataclasses import dataclass
from pathlib import Path

FUNCTION = re.compile(r"^ *(?:pub(?:\(crate\))? )?(?:const )?fn (\w+)", re.M)
CLAUSE = re.compile(r"\b(requires\*?|ensures\*?)\s+(?:(\w+) )?\{")
PATH = re.compile(r"\bRattle(?:\.\w+)+\.(?=\w)")


@dataclass(frozen=True)
class Promise:
    """A clause of a function, a definition, or a line that is printed."""

    kind: str
    name: str
    text: str

    def __str__(self) -> str:
        return f"{self.kind} {self.name}: {self.text[:160]}"


def plain(text: str) -> str:
    """The text on one line, without what places do to it."""
    return re.sub(r"\s+", " ", PATH.sub("", text)).strip()


def braced(text: str, begin: int) -> str:
    """What is between the brace at this place and the one that closes it."""
    depth = 0
    for place in range(begin, len(text)):
        depth += {"{": 1, "}": -1}.get(text[place], 0)
        if depth == 0:
            return text[begin + 1 : place]
    return text[begin + 1 :]


def clauses(text: str) -> Iterator[Promise]:
    """The clauses of each function of a source. Linear in its length, but for what is between two functions."""
    heads = list(FUNCTION.finditer(text))
    for head, after in zip(heads, [*(head.start() for head in heads[1:]), len(text)]):
        yield Promise("function", head[1], "")
        for clause in CLAUSE.finditer(text, head.end(), after):
            yield Promise(clause[1], f"{head[1]} ({clause[2] or ''})", plain(braced(text, clause.end() - 1)))


def definitions(text: str) -> Iterator[Promise]:
    """The definitions of a file of specs/, each with the lines up to an empty one."""
    for block in re.split(r"\n\s*\n", text):
        lines = [line for line in block.splitlines() if not re.match(r"\s*(--|(pub )?use |(pub )?mod )", line)]
        said = plain("\n".join(lines))
        if said:
            yield Promise("definition", said.split(" : ")[0][:60], said)


def promises(top: Path) -> Counter[Promise]:
    """All that a checkout promises."""
    found: Counter[Promise] = Counter()
    for file in sorted((top / "crates").glob("*/src/**/*.rt")):
        if not file.relative_to(top / "crates").parts[0].startswith("rows_"):
            found.update(clauses(re.sub(r"//.*", "", file.read_text(encoding="utf-8"))))
    for file in sorted((top / "crates").glob("*/specs/**/*.antt")):
        found.update(definitions(file.read_text(encoding="utf-8")))
    for file in sorted((top / "crates").glob("*/stdout")):
        found.update(Promise("line", file.parent.name, line) for line in file.read_text(encoding="utf-8").splitlines())
    return found


def counted(found: Counter[Promise]) -> str:
    kinds = Counter[str]()
    for promise, count in found.items():
        kinds["clauses" if promise.kind.startswith(("requires", "ensures")) else f"{promise.kind}s"] += count
    return ", ".join(f"{count} {kind}" for kind, count in sorted(kinds.items()))


def main() -> int:
    parser = argparse.ArgumentParser(description="Compares what two checkouts promise, but for names of crates and places of files.")
    parser.add_argument("before", type=Path)
    parser.add_argument("after", type=Path)
    asked = parser.parse_args()
    for top in (asked.before, asked.after):
        if not (top / "crates.txt").is_file():
            parser.error(f"{top} is no checkout: it has no crates.txt")
    before, after = promises(asked.before), promises(asked.after)
    lost, new = before - after, after - before
    for sign, one in (("lost", lost), ("new", new)):
        for promise in sorted(one.elements(), key=str):
            print(f"{sign}: {promise}")
    print(f"before: {counted(before)}")
    print(f"after: {counted(after)}")
    print(f"{lost.total()} lost, {new.total()} new")
    return 0 if not lost else 1


if __name__ == "__main__":
    sys.exit(main())
