#!/usr/bin/python3
"""Says all that `lc check` would refuse of a feed, and what looks wrong in it or in a realtime message.

    lint.py FEED [--first DATE] [--days N] [--zone ZONE] [--mend OUT] [--all] [--json]
    lint.py MESSAGE [--against FEED] [--all] [--json]

FEED is a directory, a zip file or a URL; MESSAGE is a file or a URL. A line is `CODE FILE row N: WHAT: HOW TO MEND IT`, with rows counted
from 1 after the header, and row 0 for the file as a whole. Codes F1 to F15 are the rules of docs/USAGE.md, `limit` and `size` its limits,
R1 and R2 what is no message. `check` takes what has a code of letter W. The first line is what `check` names.

The status is 0 where nothing is refused, 1 where something is, 2 for wrong arguments, 3 where something cannot be read or written.
"""

from __future__ import annotations

import argparse
import json
import sys
import tempfile
from datetime import date, datetime, timezone
from pathlib import Path
from typing import Sequence

import feeds
import rules_looks
import rules_mend
import rules_message
import rules_window
from feeds import Feed, FeedError
from rules import Finding, Report, Scope, Tables, judge_tables

SOUND, REFUSED, USAGE, FAILED = 0, 1, 2, 3
SHOWN = 10  # findings of one code and file, without --all
EVERY = sys.maxsize


def judge(feed: Feed, scope: Scope) -> tuple[Report, Tables]:
    """All that is found in a feed. Linear in its bytes, but for a sort of rows that are out of order."""
    report = Report(scope.most)
    rules_looks.judge_zone(report, scope.zone)
    tables = judge_tables(feed, report)
    rules_window.judge_window(feed, report, scope, tables)
    rules_looks.look(feed, report, scope, tables)
    return report, tables


def judge_message(body: bytes, name: str, against: str | None, scope: Scope) -> tuple[Report, dict[str, object]]:
    """All that is found in a message, and how many of its trips a feed does not know."""
    report = Report(scope.most)
    message = rules_message.judge_message(body, name, report, datetime.now(timezone.utc))
    numbers: dict[str, object] = {}
    if message is not None:
        numbers = {"moment": message.moment, "full": message.full, "entities": len(message.entities)}
        if against is not None:
            with feeds.opened(against) as feed:
                tables = judge_tables(feed, Report(0))
                named, unknown = rules_message.judge_against(message, name, report, tables)
            numbers |= {"trips": named, "unknown": unknown}
    return report, numbers


def line_of(finding: Finding) -> str:
    row = f" row {finding.row}" if finding.row else ""
    return f"{finding.code} {finding.file}{row}: {finding.says}: {finding.mend}"


def print_report(report: Report, numbers: dict[str, object]) -> None:
    for finding in report.findings:
        print(line_of(finding))
    for (code, file), group in sorted(report.groups.items()):
        if group.count > len(group.kept):
            print(f"{code} {file}: {group.count - len(group.kept)} more rows, which --all prints")
    if "unknown" in numbers:
        print(f"the feed does not know {numbers['unknown']} of {numbers['trips']} trips")
    print(f"{report.refused} refused, {report.warnings} look wrong")


def print_json(given: str, report: Report, numbers: dict[str, object]) -> None:
    counts = [{"code": code, "file": file, "count": group.count} for (code, file), group in sorted(report.groups.items())]
    findings = [vars(finding) for finding in report.findings]
    whole = {"of": given, "refused": report.refused, "warnings": report.warnings, "first": report.first}
    print(json.dumps(whole | numbers | {"counts": counts, "findings": findings}, indent=1))


def is_message(given: str, against: str | None) -> bool:
    """Whether the argument is a message: it is held against a feed, or is a file that is no zip file."""
    if against is not None:
        return True
    if feeds.is_url(given) or not Path(given).is_file():
        return False
    with open(given, "rb") as file:
        return file.read(2) != b"PK" and not given.endswith(".zip")


def body_of(given: str) -> bytes:
    """The bytes of a message, and one more than are taken where it is longer."""
    if not feeds.is_url(given):
        with open(given, "rb") as file:
            return file.read(rules_message.MOST_BYTES + 1)
    with tempfile.TemporaryFile() as file:
        feeds.download(given, file, 30.0, rules_message.MOST_BYTES + 1)
        return file.read()


def run_message(options: argparse.Namespace, scope: Scope) -> int:
    report, numbers = judge_message(body_of(options.feed), options.feed, options.against, scope)
    if options.json:
        print_json(options.feed, report, numbers)
    else:
        print_report(report, numbers)
    return REFUSED if report.refused else SOUND


def run_feed(options: argparse.Namespace, scope: Scope) -> int:
    with feeds.opened(options.feed) as feed:
        if options.mend is not None:
            return run_mend(feed, Path(options.mend), scope)
        report, _ = judge(feed, scope)
    if options.json:
        print_json(options.feed, report, {})
    else:
        print_report(report, {})
    return REFUSED if report.refused else SOUND


def run_mend(feed: Feed, out: Path, scope: Scope) -> int:
    """Writes a mended feed, prints what is changed or left out, and then what is refused all the same."""
    count = 0

    def tell(code: str, file: str, row: int, says: str) -> None:
        nonlocal count
        count += 1
        print(f"{code} {file}{f' row {row}' if row else ''}: {says}")

    try:
        rules_mend.mend(feed, out, tell)
    except rules_mend.MendError as error:
        print(f"not mended: {error}")
        return REFUSED
    report, _ = judge(Feed(out), scope)
    for finding in report.findings:
        if not finding.code.startswith("W"):
            print(f"not mended: {line_of(finding)}")
    print(f"{out} is written: {count} lines above, {report.refused} refused, {report.warnings} look wrong")
    return REFUSED if report.refused else SOUND


def date_of(text: str) -> date:
    found = feeds.day(text)
    if found is None:
        raise argparse.ArgumentTypeError(f"{text!r} is no date as 20261201")
    return found


def days_of(text: str) -> int:
    found = feeds.number(text)
    if found is None or not 1 <= found <= 62:
        raise argparse.ArgumentTypeError(f"{text!r} is no number from 1 to 62")
    return found


def options_of(words: Sequence[str]) -> argparse.Namespace:
    about, _, more = (__doc__ or "").partition("\n\n")
    parser = argparse.ArgumentParser(
        prog="lint.py", description=about, epilog=more.partition("\n\n")[2], formatter_class=argparse.RawDescriptionHelpFormatter
    )
    parser.add_argument("feed", metavar="FEED | MESSAGE", help="a feed (a directory, a zip file or a URL), or a realtime message")
    parser.add_argument("--against", metavar="FEED", help="hold the message against this feed")
    parser.add_argument("--mend", metavar="OUT", help="write a feed that check takes into the directory OUT, which is made")
    parser.add_argument("--first", type=date_of, metavar="DATE", help="the first service date (default: yesterday in the feed's zone)")
    parser.add_argument("--days", type=days_of, default=7, metavar="N", help="how many service dates, 1 to 62 (default: 7)")
    parser.add_argument("--zone", metavar="ZONE", help="the value of --zone with which the program is run")
    parser.add_argument("--change", metavar="N", help="as check takes it; no rule and no limit depends on it")
    parser.add_argument("--all", action="store_true", help=f"print every finding, not {SHOWN} of one code and file")
    parser.add_argument("--json", action="store_true", help="print one JSON object")
    options = parser.parse_args(words)
    if options.mend is not None and (options.against is not None or options.json):
        parser.error("--mend goes with neither --against nor --json")
    return options


def main(words: Sequence[str]) -> int:
    options = options_of(words)
    scope = Scope(options.first, options.days, options.zone, EVERY if options.all else SHOWN)
    try:
        if is_message(options.feed, options.against):
            if options.mend is not None:
                raise FeedError(f"{options.feed} is no feed, and no message is mended")
            return run_message(options, scope)
        return run_feed(options, scope)
    except FeedError as error:
        print(f"lint.py: {error}", file=sys.stderr)
    except BrokenPipeError:
        # Who read the output has gone.
        sys.stdout = open("/dev/null", "w", encoding="utf-8")
    except OSError as error:
        print(f"lint.py: {error.filename or options.feed}: {error.strerror or error}", file=sys.stderr)
    except MemoryError:
        print("lint.py: no memory", file=sys.stderr)
    return FAILED


if __name__ == "__main__":
    sys.exit(main(sys.argv[1:]))
