#!/usr/bin/python3
"""Makes the manual page of lc, and its completion for Bash, from docs/USAGE.md, so that neither says another thing.

    from_usage.py manual VERSION DATE < docs/USAGE.md > lc.1
    from_usage.py completion < docs/USAGE.md > lc
"""

from __future__ import annotations

import re
import sys
from dataclasses import dataclass, field
from typing import Iterator

SYNOPSIS = re.compile(r"^    \./lc ([a-z]+)( .*)$")
OPTION = re.compile(r"^\| `(--[a-z-]+)( [A-Z]+)?` \| ([^|]*) \|")
LINK = re.compile(r"\[([^]]*)\]\([^)]*\)")
CODE = re.compile(r"`([^`]*)`")
BOLD = re.compile(r"\*\*([^*]*)\*\*")
SLANTED = re.compile(r"(?<![\w*])\*([^* ][^*]*)\*")
RULE = re.compile(r"^\|[-:| ]+\|$")
# Sections for who has a clone of the repository.
OF_THE_CLONE = ("Publishing a feed", "Running it", "Installing it")


@dataclass
class Command:
    """A command of lc: what follows its name, and its options, with whether each has a value."""

    name: str
    words: str
    options: dict[str, bool] = field(default_factory=dict)


def commands_of(lines: list[str]) -> list[Command]:
    """The commands, by the first block of the manual that lists them and by the table of options."""
    found: dict[str, Command] = {}
    for line in lines:
        match = SYNOPSIS.match(line)
        if match and match[1] not in found:
            found[match[1]] = Command(match[1], match[2].strip())
        option = OPTION.match(line)
        if option:
            for name in CODE.findall(option[3]):
                if name in found:
                    found[name].options[option[1]] = option[2] is not None
    return list(found.values())


def plain(text: str) -> str:
    """Text of a paragraph as roff."""
    text = LINK.sub(r"\1", text).replace("\\|", "|").replace("\\", r"\e").replace("./lc", "lc")
    text = CODE.sub(r"\\fB\1\\fR", text)
    text = BOLD.sub(r"\\fB\1\\fR", text)
    text = SLANTED.sub(r"\\fI\1\\fR", text)
    text = text.replace("-", r"\-")
    return r"\&" + text if text.startswith((".", "'")) else text


def cells(line: str) -> list[str]:
    return [cell.strip() for cell in line.strip().strip("|").split("|")]


def blocks(lines: list[str]) -> Iterator[tuple[str, list[str]]]:
    """The manual in blocks: each with its kind and its lines."""
    kind = ""
    block: list[str] = []
    for line in [*lines, ""]:
        this = kind_of(line, kind)
        if this != kind or this == "heading" or (this == "item" and line.startswith(("- ", "1. ")) or re.match(r"\d+\. ", line) is not None):
            if block:
                yield kind, block
            kind, block = this, []
        if this:
            block.append(line)
    if block:
        yield kind, block


def kind_of(line: str, before: str) -> str:
    if not line.strip():
        return "code" if before == "code" else ""
    if line.startswith("#"):
        return "heading"
    if line.startswith("|"):
        return "table"
    if line.startswith("    "):
        return "code"
    if line.startswith("- ") or re.match(r"\d+\. ", line):
        return "item"
    return "item" if before == "item" and line.startswith(("  ", "   ")) else "text"


def roff(kind: str, block: list[str]) -> Iterator[str]:
    if kind == "heading":
        level, _, text = block[0].partition(" ")
        text = LINK.sub(r"\1", text).replace("`", "")
        yield (f".SH {text.upper()}" if len(level) == 2 else f".SS {text}").replace("-", r"\-")
    elif kind == "code":
        yield ".PP\n.RS 4\n.nf"
        for line in block:
            text = line[4:].rstrip().replace("\\", r"\e").replace("-", r"\-").replace("./lc", "lc")
            yield r"\&" + text if text.startswith((".", "'")) else text
        yield ".fi\n.RE"
    elif kind == "table":
        rows = [cells(line) for line in block if not RULE.match(line)]
        head = rows[0]
        for row in rows[1:]:
            yield ".TP"
            yield plain(row[0]) or r"\&"
            if len(row) == 2:
                yield plain(row[1]) or r"\&"
            else:
                yield "; ".join(f"{plain(name)}: {plain(cell)}" for name, cell in zip(head[1:], row[1:]) if cell) or r"\&"
    elif kind == "item":
        yield r".IP \(bu 2"
        text = " ".join(line.strip() for line in block)
        yield plain(re.sub(r"^(- |\d+\. )", "", text))
    else:
        yield ".PP"
        yield plain(" ".join(line.strip() for line in block))


def manual(lines: list[str], version: str, date: str) -> Iterator[str]:
    yield f'.TH LC 1 "{date}" "monteneem {version}" "User Commands"'
    yield ".SH NAME\nlc \\- publish a timetable as Linked Connections, and plan journeys over such pages"
    yield ".SH SYNOPSIS"
    for command in commands_of(lines):
        yield f".B lc {command.name}\n{plain(command.words)}\n.br"
    yield ".SH DESCRIPTION"
    first = next(place for place, line in enumerate(lines) if line.startswith("# ")) + 1
    section = ""
    for kind, block in blocks(lines[first:]):
        if kind == "heading" and block[0].startswith("## "):
            section = block[0][3:]
        # Before the first section stand the introduction, the commands, which are above, and the contents.
        if section not in OF_THE_CLONE and (section or kind == "text"):
            yield from roff(kind, block)
    yield ".SH SEE ALSO\n.BR monteneem\\-keep (1),\n.BR monteneem\\-lint (1),\n.BR monteneem\\-split (1)"


def completion(lines: list[str]) -> Iterator[str]:
    commands = commands_of(lines)
    yield "# Completion for lc. Made from docs/USAGE.md by packaging/from_usage.py."
    yield "_lc() {"
    yield "  local word=${COMP_WORDS[COMP_CWORD]} before=${COMP_WORDS[COMP_CWORD - 1]} options=''"
    yield "  COMPREPLY=()"
    yield "  if [ \"$COMP_CWORD\" -eq 1 ]; then"
    yield f"    mapfile -t COMPREPLY < <(compgen -W '{' '.join(command.name for command in commands)}' -- \"$word\")"
    yield "    return"
    yield "  fi"
    yield "  case $before in"
    yield "    --cuts) mapfile -t COMPREPLY < <(compgen -W 'span:1800 count:500 whole' -- \"$word\") ;;"
    yield "    --zone) mapfile -t COMPREPLY < <(compgen -W 'utc posix: file:/usr/share/zoneinfo/' -- \"$word\") ;;"
    yield "    --update) mapfile -t COMPREPLY < <(compgen -f -- \"$word\") ;;"
    valued = sorted({option for command in commands for option, has_value in command.options.items() if has_value})
    yield f"    {' | '.join(option for option in valued if option not in ('--cuts', '--zone', '--update'))}) ;;"
    yield "    *)"
    yield "      case ${COMP_WORDS[1]} in"
    for command in commands:
        yield f"        {command.name}) options='{' '.join(command.options)}' ;;"
    yield "      esac"
    yield "      if [[ $word == -* ]]; then"
    yield "        mapfile -t COMPREPLY < <(compgen -W \"$options\" -- \"$word\")"
    yield "      else"
    yield "        mapfile -t COMPREPLY < <(compgen -f -- \"$word\")"
    yield "      fi"
    yield "      ;;"
    yield "  esac"
    yield "}"
    yield "complete -o filenames -F _lc lc"


def main(words: list[str]) -> int:
    lines = sys.stdin.read().splitlines()
    if words[:1] == ["manual"] and len(words) == 3:
        made = manual(lines, words[1], words[2])
    elif words == ["completion"]:
        made = completion(lines)
    else:
        print(__doc__, file=sys.stderr)
        return 2
    print("\n".join(made))
    return 0


if __name__ == "__main__":
    sys.exit(main(sys.argv[1:]))
