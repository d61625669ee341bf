#!/usr/bin/env python3
"""Finds every function, clause and definition that docs/PROMISES.md names, in the crates of this repository.

usage: promises.py [FILE]

FILE is the document, docs/PROMISES.md if it is not named. A name has to be in a crate of its section, in just one of those that this builds on, or in the
crate that is named beside it; what makes a value one may be in any crate. It prints a line for each section as `ok: ..`, one for each name that is
not there as `FAILED: ..`, and then `N passed, M failed`. The status is 0 where M is 0.
"""

import re
import sys
from dataclasses import dataclass, field
from pathlib import Path
from typing import Iterator

TOP = Path(__file__).resolve().parent.parent
FUNCTION = re.compile(r"^( *)(?:pub(?:\(\w+\))? )?fn (\w+)")
OWNER = re.compile(r"^(?:pub )?(?:impl(?:<.*?>)? (?:[\w:]+(?:<.*?>)? for )?&?(?:mut )?(\w+)|trait (\w+))")
CLAUSE = re.compile(r"^ *ensures (\w+) \{")
FACT = re.compile(r"^    ghost (\w+): \{")
TYPE = re.compile(r"^(?:pub(?:\(\w+\))? )?(?:struct|enum|trait) (\w+)")
SHOWN = re.compile(r"^impl(?:<.*?>)? fmt::Display for (\w+)")
MEMBER = re.compile(r"^    (?:pub(?:\(\w+\))? )?(?:ghost )?(\w+)[,:({]")
DEFINITION = re.compile(r"^(?:pub )?(?:abbrev|record|data|def|fun|unfoldable)(?: pub| unfoldable)* ([^\s:({]+)")
FIELD = re.compile(r"^  (?:pub )?(\w[\w ]*?) :")
# A quoted name, or what parts names: a word before them, or the sign that ends a list of them.
TOKEN = re.compile(r"`([^`]+)`|(\()|(\))|([;:])|(\beach\b)")


@dataclass
class Named:
    """A function, a definition or a type: its crate, whose method it is, and its clauses or fields."""

    crate: str
    owner: str
    parts: set[str] = field(default_factory=set)


@dataclass
class Reference:
    """A name of the document, with the names in the brackets behind it."""

    name: str
    beside: list[str] = field(default_factory=list)
    is_shown: bool = False


@dataclass
class Section:
    """A heading with the crates that it names, and the rows of its tables, each with its line and its cells."""

    title: str
    crates: list[str]
    rows: list[tuple[int, list[str]]] = field(default_factory=list)


class Names:
    """What the crates of a repository have names for."""

    def __init__(self, top: Path) -> None:
        self.listed = dict(listed_crates(top / "crates.txt"))
        self.found: dict[str, list[Named]] = {}
        for crate in filter(is_promising, self.listed):
            for path in sorted((top / "crates" / crate / "src").rglob("*.rt")):
                self.read_code(crate, path.read_text(encoding="utf-8").splitlines())
            for path in sorted((top / "crates" / crate / "specs").rglob("*.antt")):
                self.read_definitions(crate, path.read_text(encoding="utf-8").splitlines())

    def put(self, name: str, crate: str, owner: str = "") -> Named:
        named = Named(crate, owner)
        self.found.setdefault(name, []).append(named)
        return named

    def read_code(self, crate: str, lines: list[str]) -> None:
        """Takes the functions with their clauses, and the types and traits with their members."""
        owner = ""
        function = kind = None
        for line in lines:
            if opened := OWNER.match(line):
                owner = opened[1] or opened[2]
            if opened := TYPE.match(line):
                kind = self.put(opened[1], crate)
            if opened := SHOWN.match(line):
                self.put(f"Display of {opened[1]}", crate)
            if opened := FUNCTION.match(line):
                function = self.put(opened[2], crate, owner if opened[1] else "")
            elif line.startswith("}"):
                owner, function, kind = "", None, None
            if function and (clause := CLAUSE.match(line)):
                function.parts.add(clause[1])
            if kind and (member := FACT.match(line) or MEMBER.match(line)):
                kind.parts.add(member[1])

    def read_definitions(self, crate: str, lines: list[str]) -> None:
        """Takes the definitions, and of a record its fields."""
        record = None
        for line in lines:
            if opened := DEFINITION.match(line):
                record = self.put(opened[1], crate)
            elif record and (fields := FIELD.match(line)):
                record.parts.update(fields[1].split())
            elif line and not line.startswith(" "):
                record = None

    def below(self, crates: list[str]) -> set[str]:
        """These crates and all that they build on."""
        reached: set[str] = set()
        left = [crate for crate in crates if crate in self.listed]
        while left:
            crate = left.pop()
            if crate not in reached:
                reached.add(crate)
                left.extend(below for below in self.listed[crate] if below in self.listed)
        return reached

    def has(self, reference: Reference, own: list[str], within: set[str]) -> str:
        """What is not there of a reference, or an empty text. Where `own` crates do not have it, one of the others has to."""
        name, owner, part = reference.name, "", ""
        if "::" in name:
            owner, _, name = name.partition("::")
        elif "." in name:
            name, _, part = name.partition(".")
        if reference.is_shown:
            name = f"Display of {name}"
        every = [named for named in self.found.get(name, []) if named.owner == owner or not owner]
        if not every:
            return f"`{reference.name}` is nowhere"
        # A clause may have the name of a crate.
        beside = {name for name in reference.beside if name in self.listed and not any(name in named.parts for named in every)}
        near = [named for named in every if named.crate in (beside or within)]
        if not near:
            return f"`{reference.name}` is in {crates_of(every)} and not here or below"
        wanted = set(reference.beside) - beside | ({part} if part else set())
        fitting = [named for named in near if wanted <= named.parts]
        if not fitting:
            missing = min((wanted - named.parts for named in near), key=len)
            return f"`{reference.name}` has no {', '.join(f'`{part}`' for part in sorted(missing))}"
        if len({named.crate for named in fitting}) > 1 and not any(named.crate in own for named in fitting):
            return f"`{reference.name}` is in {crates_of(fitting)}: the row has to say which"
        return ""


def is_promising(crate: str) -> bool:
    """Whether the crate promises something to others: not the program, nor cases and what they share."""
    return not re.fullmatch(r"lc|tiny_feed|rows_\w+", crate)


def crates_of(every: list[Named]) -> str:
    """The crates of these, each once."""
    return ", ".join(sorted({named.crate for named in every}))


def listed_crates(path: Path) -> Iterator[tuple[str, list[str]]]:
    """The crates of a crates.txt, each with those that it lists."""
    for line in path.read_text(encoding="utf-8").splitlines():
        name, colon, below = line.partition("#")[0].partition(":")
        if colon:
            yield name.split()[0], below.split()


def sections_of(text: str, listed: dict[str, list[str]]) -> list[Section]:
    """The sections of a document. One whose heading names no crate speaks of those of the heading above it."""
    sections = [Section("", [])]
    above: list[str] = []
    for number, line in enumerate(text.splitlines(), 1):
        if heading := re.match(r"(##+) (.*)", line):
            crates = [name for name in re.findall(r"`(\w+)`", heading[2]) if name in listed]
            if heading[1] == "##":
                above = crates
            sections.append(Section(heading[2], crates or above))
        elif line.startswith("| ") and "`" in line:
            sections[-1].rows.append((number, [cell.strip() for cell in line.strip("|").split("|")]))
    return sections


def references_of(cell: str) -> list[Reference]:
    """The names of a cell. Those in brackets belong to the name before them, or, behind `each`, to all of the list."""
    references: list[Reference] = []
    begun = 0
    inside = is_each = is_shown = False
    for quoted, opens, closes, ends, each in TOKEN.findall(cell):
        if opens:
            inside, is_each = True, False
        elif closes:
            inside, begun = False, len(references)
        elif ends:
            begun, is_shown = len(references), False
        elif each:
            is_each = True
        elif inside and references:
            for reference in references[begun if is_each else -1 :]:
                reference.beside.append(quoted)
        elif quoted == "Display":
            is_shown = True
        elif re.fullmatch(r"\w+(?:(?:::|\.)\w+)?", quoted):
            references.append(Reference(quoted, is_shown=is_shown))
    return references


def check(section: Section, names: Names) -> tuple[int, list[str]]:
    """How many names of the section are there, and what is said of the others."""
    count, faults = 0, []
    below = names.below(section.crates)
    for number, cells in section.rows:
        for place, cell in enumerate(cells[1:], 1):
            for reference in references_of(cell):
                fault = names.has(reference, section.crates, below if place == 1 else set(names.listed))
                if fault:
                    faults.append(f"line {number}: {fault}")
                else:
                    count += 1
    return count, faults


def misspelt(sections: list[Section], names: Names) -> Iterator[tuple[str, bool]]:
    """Writes a letter of one name of each kind wrong: which kind it is, and whether the name is then missed."""
    every = set(names.listed)
    kinds = {"a method": r"`\w+::\w+`", "a clause": r"\(`[a-z_]+`", "a field": r"`\w+\.\w+`", "a function": r"`[a-z_]+`"}
    for kind, pattern in kinds.items():
        for section, cell in ((section, cells[1]) for section in sections for _, cells in section.rows):
            found = re.search(pattern, cell)
            if found and not any(names.has(it, section.crates, every) for it in references_of(cell)):
                wrong = cell.replace(found[0], found[0][:-1] + "x`", 1)
                yield kind, any(names.has(it, section.crates, every) for it in references_of(wrong))
                break
        else:
            yield kind, False


def results(text: str, names: Names) -> tuple[list[str], list[str]]:
    """What holds of the document, and what does not."""
    holds, faults = [], []
    sections = [section for section in sections_of(text, names.listed) if section.rows]
    for section in sections:
        count, missing = check(section, names)
        faults += missing
        holds += [] if missing else [f"{section.title}: {count} names"]
    spoken_of = {crate for section in sections for crate in section.crates}
    for crate in names.listed:
        if is_promising(crate) and crate not in spoken_of:
            faults.append(f"the crate {crate} has no section")
    for kind, is_missed in misspelt(sections, names):
        (holds if is_missed else faults).append(f"{kind} that is misspelt is found")
    return holds, faults


def main() -> int:
    if len(sys.argv) > 2 or sys.argv[1:2] in (["-h"], ["--help"]):
        print(__doc__)
        return 0 if len(sys.argv) == 2 else 2
    document = Path(sys.argv[1]) if len(sys.argv) == 2 else TOP / "docs" / "PROMISES.md"
    if not document.is_file():
        print(f"promises.py: there is no file {document}", file=sys.stderr)
        return 2
    holds, faults = results(document.read_text(encoding="utf-8"), Names(TOP))
    for line in holds:
        print(f"ok: {line}")
    for line in faults:
        print(f"FAILED: {line}")
    print(f"{len(holds)} passed, {len(faults)} failed")
    return 1 if faults else 0


if __name__ == "__main__":
    sys.exit(main())
