"""Broken feeds, each with the line that `lc check` prints for it by docs/USAGE.md. Where the program is there it is asked too."""

from __future__ import annotations

import io
import os
import random
import subprocess
import sys
import tempfile
import unittest
from contextlib import redirect_stdout
from datetime import date
from pathlib import Path
from typing import Mapping

sys.path.insert(0, str(Path(__file__).parent.parent))

import lint
from feeds import Feed
from rules import Report, Scope

PROGRAM = os.environ.get("LC", str(Path(__file__).parents[2] / "crates/lc/out/lc"))
FIRST = date(2024, 5, 1)
FUZZED = int(os.environ.get("LINT_FUZZED", "150"))

BASE = {
    "stops.txt": "stop_id,stop_name,parent_station\nP,Station,\nA,Alpha,P\nB,Beta,P\nC,Gamma,\nD,Delta,\n",
    "trips.txt": "route_id,service_id,trip_id\nr,w,T1\nr,w,T2\nr,x,T3\n",
    "stop_times.txt": (
        "trip_id,arrival_time,departure_time,stop_id,stop_sequence\n"
        "T1,08:00:00,08:00:00,A,1\nT1,,,B,2\nT1,08:20:00,08:21:00,C,3\nT1,08:30:00,08:30:00,D,4\n"
        "T2,23:50:00,23:50:00,A,1\nT2,24:10:00,24:10:00,D,2\n"
        "T3,9:00:00,9:00:00,C,1\nT3,9:30:00,9:30:00,D,2\n"
    ),
    "calendar.txt": (
        "service_id,monday,tuesday,wednesday,thursday,friday,saturday,sunday,start_date,end_date\n"
        "w,1,1,1,1,1,0,0,20240101,20241231\n"
    ),
    "calendar_dates.txt": "service_id,date,exception_type\nw,20240502,2\nx,20240501,1\nx,20240504,1\n",
    "frequencies.txt": "trip_id,start_time,end_time,headway_secs\nT3,09:00:00,10:00:00,600\n",
    "transfers.txt": "from_stop_id,to_stop_id,transfer_type,min_transfer_time\nA,C,2,180\nC,D,3,\n,,,\nA,X,5,\n",
}

# The name of a case, its file, the text there in place of another one, and the line of `check`. Without a new text the file is absent.
Case = tuple[str, str, str | None, str | None, str]
CASES: list[Case] = [
    ("nothing is broken", "stops.txt", "", "", "ok"),
    ("no stops", "stops.txt", None, None, "error feed F1 stops.txt row 0"),
    ("no trips", "trips.txt", None, None, "error feed F1 trips.txt row 0"),
    ("no stop times", "stop_times.txt", None, None, "error feed F1 stop_times.txt row 0"),
    ("no calendar.txt", "calendar.txt", None, None, "ok"),
    ("no frequencies", "frequencies.txt", None, None, "ok"),
    ("an empty stops.txt", "stops.txt", BASE["stops.txt"], "", "error feed F3 stops.txt row 0"),
    ("an empty frequencies.txt", "frequencies.txt", BASE["frequencies.txt"], "", "error feed F3 frequencies.txt row 0"),
    ("a mark alone", "transfers.txt", BASE["transfers.txt"], "\ufeff", "error feed F3 transfers.txt row 0"),
    ("a mark and spaces", "stops.txt", "stop_id,stop_name", "\ufeff stop_id , stop_name", "ok"),
    ("another case of a column", "stops.txt", "stop_id", "Stop_id", "error feed F4 stops.txt row 0"),
    ("no service_id", "trips.txt", "service_id", "service", "error feed F4 trips.txt row 0"),
    ("no arrival_time", "stop_times.txt", "arrival_time", "arrival", "error feed F4 stop_times.txt row 0"),
    ("no sunday", "calendar.txt", "sunday", "sun", "error feed F4 calendar.txt row 0"),
    ("no headway_secs", "frequencies.txt", "headway_secs", "headway", "error feed F4 frequencies.txt row 0"),
    ("no to_stop_id", "transfers.txt", "to_stop_id", "to", "error feed F4 transfers.txt row 0"),
    ("a comma too many", "stops.txt", "C,Gamma,", "C,Gamma,,", "error feed F5 stops.txt row 4"),
    ("a comma too few", "trips.txt", "r,w,T2", "r,T2", "error feed F5 trips.txt row 2"),
    ("an open quote", "stop_times.txt", "T1,08:20:00", '"T1,08:20:00', "error feed F5 stop_times.txt row 3"),
    ("a ragged row behind a wrong one", "stops.txt", "A,Alpha,P\nB,Beta,P", ",Alpha,P\nB,Beta", "error feed F5 stops.txt row 3"),
    ("an empty stop_id", "stops.txt", "B,Beta,P", ",Beta,P", "error feed F6 stops.txt row 3"),
    ("an empty service_id", "trips.txt", "r,w,T2", "r, ,T2", "error feed F6 trips.txt row 2"),
    ("an empty trip_id", "trips.txt", "r,w,T2", "r,w,", "error feed F6 trips.txt row 2"),
    ("an empty trip of a stop time", "stop_times.txt", "T2,23:50:00", ",23:50:00", "error feed F6 stop_times.txt row 5"),
    ("an empty service in calendar.txt", "calendar.txt", "w,1", ",1", "error feed F6 calendar.txt row 1"),
    ("an empty service of a date", "calendar_dates.txt", "x,20240501", ",20240501", "error feed F6 calendar_dates.txt row 2"),
    ("an empty trip of a headway", "frequencies.txt", "T3,", ",", "error feed F6 frequencies.txt row 1"),
    ("a stop twice", "stops.txt", "D,Delta", "A,Delta", "error feed F7 stops.txt row 5"),
    ("a trip twice", "trips.txt", "r,x,T3", "r,x,T1", "error feed F7 trips.txt row 3"),
    ("a sequence twice", "stop_times.txt", "D,4", "D,03", "error feed F7 stop_times.txt row 4"),
    ("a sequence twice, far apart", "stop_times.txt", "D,2\nT3", "D,2\nT1,08:40:00,,D,1\nT3", "error feed F7 stop_times.txt row 7"),
    ("a service twice", "calendar.txt", "\nw,1", "\nw,0,0,0,0,0,0,0,20240101,20240101\nw,1", "error feed F7 calendar.txt row 2"),
    ("a date twice", "calendar_dates.txt", "x,20240504,1", "x,20240501,2", "error feed F7 calendar_dates.txt row 3"),
    ("an unknown stop", "stop_times.txt", ",C,3", ",Q,3", "error feed F8 stop_times.txt row 3"),
    ("an unknown stop of a transfer", "transfers.txt", "C,D,3,", "C,Q,3,", "error feed F8 transfers.txt row 2"),
    ("an unknown stop for some trips", "transfers.txt", "min_transfer_time\n", "from_trip_id\n", "ok"),
    ("an unknown trip", "stop_times.txt", "T3,9:30:00", "T9,9:30:00", "error feed F9 stop_times.txt row 8"),
    ("an unknown trip of a headway", "frequencies.txt", "T3,", "T9,", "error feed F9 frequencies.txt row 1"),
    ("an unknown parent", "stops.txt", "B,Beta,P", "B,Beta,Q", "error feed F10 stops.txt row 3"),
    ("a sequence with a sign", "stop_times.txt", "D,4", "D,-4", "error feed F11 stop_times.txt row 4"),
    ("a sequence of eleven digits", "stop_times.txt", "D,4", "D,00000000004", "error feed F11 stop_times.txt row 4"),
    ("a sequence of 2^32", "stop_times.txt", "D,4", "D,4294967296", "error feed F11 stop_times.txt row 4"),
    ("the largest sequence", "stop_times.txt", "D,4", "D,4294967295", "ok"),
    ("a weekday of yes", "calendar.txt", "w,1,1", "w,yes,1", "error feed F11 calendar.txt row 1"),
    ("an exception of three", "calendar_dates.txt", "x,20240501,1", "x,20240501,3", "error feed F11 calendar_dates.txt row 2"),
    ("a headway of nothing", "frequencies.txt", ",600", ",0", "error feed F11 frequencies.txt row 1"),
    ("a transfer_type in words", "transfers.txt", "A,X,5,", "A,X,none,", "error feed F11 transfers.txt row 4"),
    ("a negative transfer time", "transfers.txt", "2,180", "2,-180", "error feed F11 transfers.txt row 1"),
    ("a time without seconds", "stop_times.txt", "T1,08:20:00", "T1,08:20", "error feed F12 stop_times.txt row 3"),
    ("a time of 60 minutes", "stop_times.txt", "08:21:00", "08:60:00", "error feed F12 stop_times.txt row 3"),
    ("a time of 100 hours", "stop_times.txt", "24:10:00,24:10:00", "100:10:00,100:10:00", "error feed F12 stop_times.txt row 6"),
    ("a wrong time without a stop", "stop_times.txt", "T1,,,B,2", "T1,soon,,,2", "ok"),
    ("a start_date with dashes", "calendar.txt", "20240101", "2024-01-01", "error feed F12 calendar.txt row 1"),
    ("the 30th of February", "calendar_dates.txt", "20240504", "20240230", "error feed F12 calendar_dates.txt row 3"),
    ("an end_time of nothing", "frequencies.txt", "10:00:00", "", "error feed F12 frequencies.txt row 1"),
    ("no first time", "stop_times.txt", "T1,08:00:00,08:00:00", "T1,,", "error feed F13 stop_times.txt row 1"),
    ("no last time", "stop_times.txt", "T1,08:30:00,08:30:00", "T1,,", "error feed F13 stop_times.txt row 4"),
    ("no last time without a stop", "stop_times.txt", "T1,08:30:00,08:30:00,D", "T1,,,", "ok"),
    ("a time after midnight", "stop_times.txt", "24:10:00,24:10:00", "00:10:00,00:10:00", "error feed F14 stop_times.txt row 6"),
    ("a departure before the arrival", "stop_times.txt", "08:20:00,08:21:00", "08:20:00,08:19:00", "error feed F14 stop_times.txt row 3"),
    ("rows out of order", "stop_times.txt", "A,1\nT1", "A,9\nT1", "error feed F13 stop_times.txt row 2"),
    ("two trips with falling times", "trips.txt", "r,w,T1\nr,w,T2", "r,w,T2\nr,w,T1", "ok"),
    ("row before number", "stop_times.txt", "T2,24:10:00,24:10:00,D,2", "T1,late,,Q,1", "error feed F7 stop_times.txt row 6"),
    ("stops before trips", "trips.txt", "r,w,T1", "r,,T1", "error feed F6 trips.txt row 1"),
    ("empty lines are no rows", "stops.txt", "A,Alpha,P\n", "\n\r\n\nA,Alpha,P\n", "ok"),
    ("old line ends", "trips.txt", "\n", "\r", "ok"),
    ("a quoted comma and line", "stops.txt", "A,Alpha,P", 'A,"Al,\n""pha""",P', "ok"),
]


def broken(case: Case) -> dict[str, str]:
    """The files of a case."""
    _, file, old, new, _ = case
    files = dict(BASE)
    if old is None or new is None:
        del files[file]
    else:
        assert old in files[file], case
        files[file] = files[file].replace(old, new)
    return files


def lay(files: Mapping[str, str | bytes], folder: Path) -> Path:
    folder.mkdir()
    for name, text in files.items():
        (folder / name).write_bytes(text if isinstance(text, bytes) else text.encode())
    return folder


def judged(folder: Path, **scope: object) -> Report:
    report, _ = lint.judge(Feed(folder), Scope(FIRST, **scope))  # type: ignore[arg-type]
    return report


def checked(folder: Path, *words: str) -> str:
    """The last line that the program prints."""
    done = subprocess.run([PROGRAM, "check", str(folder), "20240501", *words], capture_output=True, text=True, timeout=120)
    return done.stdout.splitlines()[-1]


def fuzzed(chance: random.Random) -> dict[str, bytes]:
    """The base with some bytes, fields or rows of it changed."""
    files: dict[str, bytes] = {name: text.encode() for name, text in BASE.items()}
    for _ in range(chance.choice((1, 1, 2, 3, 5))):
        name = chance.choice(list(files))
        files[name] = changed(files[name], chance)
    return files


def changed(text: bytes, chance: random.Random) -> bytes:
    at = chance.randrange(len(text) + 1)
    kind = chance.randrange(6)
    if kind == 0:
        return text[:at] + bytes([chance.choice(b'",\n\r 09AT:\xff\xc3\xa9\x00')]) + text[at:]
    if kind == 1:
        return text[:at] + text[at + 1 :]
    lines = text.split(b"\n")
    one = chance.randrange(len(lines))
    if kind == 2:
        return b"\n".join(lines[:one] + [lines[one]] + lines[one:])
    if kind == 3:
        return b"\n".join(lines[:one] + lines[one + 1 :])
    row = lines[one].split(b",")
    row[chance.randrange(len(row))] = chance.choice((b"", b" A ", b"T1", b"T2", b"7:00:00", b"25:00:00", b"1", b"Q", b"20240501", b"-1"))
    lines[one] = b",".join(row)
    if kind == 5:
        chance.shuffle(lines)
    return b"\n".join(lines)


class Rules(unittest.TestCase):
    def setUp(self) -> None:
        room = tempfile.TemporaryDirectory()
        self.addCleanup(room.cleanup)
        self.room = Path(room.name)

    def test_first_finding_is_that_of_the_manual(self) -> None:
        for place, case in enumerate(CASES):
            with self.subTest(case[0]):
                folder = lay(broken(case), self.room / str(place))
                self.assertEqual(judged(folder).first or "ok", case[4])

    @unittest.skipUnless(os.access(PROGRAM, os.X_OK), "the program is not here")
    def test_first_finding_is_that_of_the_program(self) -> None:
        for place, case in enumerate(CASES):
            with self.subTest(case[0]):
                folder = lay(broken(case), self.room / str(place))
                self.assertEqual(judged(folder).first or "ok", checked(folder))

    @unittest.skipUnless(os.access(PROGRAM, os.X_OK), "the program is not here")
    def test_fuzzed_feeds(self) -> None:
        refused = 0
        for seed in range(FUZZED):
            with self.subTest(seed=seed):
                folder = lay(fuzzed(random.Random(seed)), self.room / str(seed))
                first = judged(folder).first or "ok"
                self.assertEqual(first, checked(folder))
                refused += first != "ok"
        self.assertGreater(refused, FUZZED // 4)

    def test_all_rules_at_once(self) -> None:
        files = {
            **BASE,
            "stops.txt": "stop_id,parent_station\nA,\nA,\n,\nB,Q\nC,,\nD,\n",
            "trips.txt": "trip_id,service_id\nT1,w\nT1,w\nT2,\nT3,x\n",
            "stop_times.txt": (
                "trip_id,stop_id,stop_sequence,arrival_time,departure_time\n"
                "T1,A,1,,\nT1,B,2,08:10:00,\nT1,D,3,08:05:00,\nT1,D,3,09:00:00,\nT1,Q,4,09:00:00,\n"
                "T9,A,1,09:00:00,\nT3,A,x,9h,\nT3,C,2,09:10:00,\n,A,1,09:00:00,\n"
            ),
        }
        report = judged(lay(files, self.room / "feed"))
        found = {(finding.code, finding.file, finding.row) for finding in report.findings if not finding.code.startswith("W")}
        self.assertEqual(
            found,
            {
                ("F5", "stops.txt", 5),
                ("F7", "stops.txt", 2),
                ("F6", "stops.txt", 3),
                ("F10", "stops.txt", 4),
                ("F7", "trips.txt", 2),
                ("F6", "trips.txt", 3),
                ("F13", "stop_times.txt", 1),
                ("F14", "stop_times.txt", 3),
                ("F7", "stop_times.txt", 4),
                ("F8", "stop_times.txt", 5),
                ("F9", "stop_times.txt", 6),
                ("F11", "stop_times.txt", 7),
                ("F12", "stop_times.txt", 7),
                ("F6", "stop_times.txt", 9),
            },
        )
        self.assertEqual(report.first, "error feed F5 stops.txt row 5")

    def test_rows_that_are_not_utf8(self) -> None:
        folder = lay({**BASE, "stops.txt": BASE["stops.txt"].replace("Gamma", "Gämma").encode("latin-1")}, self.room / "feed")
        report = judged(folder)
        self.assertEqual(report.first, "error feed F2 stops.txt row 0")
        self.assertIn("line 5", report.findings[0].says)

    def test_zones(self) -> None:
        words = {
            "utc": "ok",
            "file:/usr/share/zoneinfo/Europe/Brussels": "ok",
            "posix:CET-1CEST,M3.5.0,M10.5.0/3": "ok",
            "posix:CET": "error feed F15 posix:CET row 0",
            "Europe/Brussels": "error feed F15 Europe/Brussels row 0",
            "file:/nowhere": "error feed F15 file:/nowhere row 0",
            "file:/etc/hostname": "error feed F15 file:/etc/hostname row 0",
        }
        folder = lay(BASE, self.room / "feed")
        for word, line in words.items():
            with self.subTest(word):
                self.assertEqual(judged(folder, zone=word).first or "ok", line)
                if os.access(PROGRAM, os.X_OK):
                    self.assertEqual(checked(folder, "--zone", word), line)


class Looks(unittest.TestCase):
    def setUp(self) -> None:
        room = tempfile.TemporaryDirectory()
        self.addCleanup(room.cleanup)
        self.room = Path(room.name)

    def warned(self, files: Mapping[str, str], **scope: object) -> set[tuple[str, str, int]]:
        report = judged(lay({**BASE, **files}, self.room / "feed"), **scope)
        self.assertIsNone(report.first)
        return {(finding.code, finding.file, finding.row) for finding in report.findings}

    def test_a_sound_feed(self) -> None:
        agency = "agency_name,agency_timezone\nA,Europe/Brussels\n"
        for zone in ("file:/usr/share/zoneinfo/Europe/Brussels", "posix:CET-1CEST,M3.5.0,M10.5.0/3"):
            with self.subTest(zone):
                self.assertEqual(self.warned({"agency.txt": agency}, zone=zone), set())
                self.tearDownRoom()

    def tearDownRoom(self) -> None:
        for path in (self.room / "feed").iterdir():
            path.unlink()
        (self.room / "feed").rmdir()

    def test_another_zone(self) -> None:
        agency = "agency_name,agency_timezone\nA,Europe/London\nB,Europe/Brussels\n"
        found = self.warned({"agency.txt": agency}, zone="utc")
        self.assertEqual(found, {("W6", "agency.txt", 0)})

    def test_stops_without_rows_and_trips_without_stops(self) -> None:
        files = {
            "stops.txt": BASE["stops.txt"] + "E,Nobody,\n",
            "trips.txt": BASE["trips.txt"] + "r,w,T4\nr,w,T5\nr,gone,T6\n",
            "stop_times.txt": BASE["stop_times.txt"] + "T4,10:00:00,,A,1\nT4,10:10:00,,,2\nT5,10:00:00,,A,1\nT6,10:00:00,,A,1\nT6,10:09:00,,B,2\n",
            "agency.txt": "agency_timezone\nUTC\n",
        }
        found = self.warned(files)
        self.assertEqual(found, {("W3", "stops.txt", 6), ("W2", "trips.txt", 4), ("W1", "trips.txt", 5), ("W4", "trips.txt", 6)})

    def test_dates_outside(self) -> None:
        files = {"calendar.txt": BASE["calendar.txt"].replace("20241231", "20240430"), "agency.txt": "agency_timezone\nUTC\n"}
        self.assertEqual(self.warned(files), {("W5", "calendar.txt", 0)})


class Command(unittest.TestCase):
    def setUp(self) -> None:
        room = tempfile.TemporaryDirectory()
        self.addCleanup(room.cleanup)
        self.room = Path(room.name)

    def test_many_rows_are_counted(self) -> None:
        rows = "".join(f"T9,08:00:00,08:00:00,A,{n}\n" for n in range(30))
        folder = lay({**BASE, "stop_times.txt": BASE["stop_times.txt"] + rows}, self.room / "feed")
        cases: list[tuple[list[str], int]] = [([], 10), (["--all"], 30)]
        for words, count in cases:
            with redirect_stdout(io.StringIO()) as printed:
                self.assertEqual(lint.main([str(folder), "--first", "20240501", *words]), lint.REFUSED)
            lines = printed.getvalue().splitlines()
            self.assertEqual(sum(line.startswith("F9 stop_times.txt row") for line in lines), count)
        self.assertTrue(any(line.startswith("30 refused") for line in lines))


if __name__ == "__main__":
    unittest.main()
