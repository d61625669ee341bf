"""A feed in parts: each trip in one part, each connection once, and each part small enough."""

from __future__ import annotations

import io
import os
import random
import subprocess
import sys
import tempfile
import unittest
from contextlib import redirect_stderr, redirect_stdout
from pathlib import Path
from typing import Sequence
from unittest.mock import patch

sys.path.insert(0, str(Path(__file__).parent.parent))

import rules_window
import split

PROGRAM = os.environ.get("LC", str(Path(__file__).parents[2] / "crates/lc/out/lc"))
AGENCIES, ROUTES, TRIPS, CALLS, STOPS, DAYS = 3, 11, 240, 5, 40, 3


def clock(seconds: int) -> str:
    return f"{seconds // 3600:02}:{seconds // 60 % 60:02}:{seconds % 60:02}"


def make_feed(folder: Path) -> Path:
    """A feed of three agencies, one of which has more than half of all connections, with headways and trips that are left out."""
    chance = random.Random(7)
    folder.mkdir()
    stops = "".join(f"s{n},Stop {n},{'p' if n < 3 else ''}\n" for n in range(STOPS)) + "p,Station,\n"
    agencies = [0, 0, 0, 0, 0, 0, 0, 1, 1, 2, 2]
    trips, times, frequencies = "", "", ""
    for trip in range(TRIPS):
        trips += f"r{chance.randrange(ROUTES)},w{trip % 2},t{trip}\n"
        begin = chance.randrange(18_000, 80_000)
        for call in range(CALLS):
            stop = "" if trip == 17 and call == 2 else f"s{chance.randrange(STOPS)}"
            times += f"t{trip},{clock(begin)},{clock(begin + 30)},{stop},{call}\n"
            begin += 120
        if trip % 40 == 3:
            frequencies += f"t{trip},06:00:00,07:00:00,900\nt{trip},06:30:00,07:30:00,900\n"
    files = {
        "agency.txt": "agency_id,agency_name,agency_timezone\n" + "".join(f"a{n},A{n},UTC\n" for n in range(AGENCIES)),
        "routes.txt": "route_id,agency_id\n" + "".join(f"r{n},a{agency}\n" for n, agency in enumerate(agencies)),
        "stops.txt": "stop_id,stop_name,parent_station\n" + stops,
        "trips.txt": "route_id,service_id,trip_id\n" + trips,
        "stop_times.txt": "trip_id,arrival_time,departure_time,stop_id,stop_sequence\n" + times,
        "calendar_dates.txt": "service_id,date,exception_type\n" + "".join(f"w{d % 2},2024050{d + 1},1\n" for d in range(DAYS)),
        "frequencies.txt": "trip_id,start_time,end_time,headway_secs\n" + frequencies,
        "transfers.txt": "from_stop_id,to_stop_id,transfer_type,min_transfer_time\ns5,s9,2,60\n",
        "shapes.txt": "shape_id,shape_pt_lat,shape_pt_lon,shape_pt_sequence\nx,1,1,1\n",
    }
    for name, text in files.items():
        (folder / name).write_text(text)
    return folder


def run(words: Sequence[str]) -> tuple[int, list[str]]:
    with redirect_stdout(io.StringIO()) as printed, redirect_stderr(io.StringIO()):
        status = split.main(words)
    return status, printed.getvalue().splitlines()


def rows_of(folders: Sequence[Path], name: str) -> list[str]:
    return sorted(line for folder in folders for line in (folder / name).read_text().splitlines()[1:])


def connections(folder: Path) -> int:
    """What the program counts."""
    words = [PROGRAM, "check", str(folder), "20240501", "--days", str(DAYS)]
    done = subprocess.run(words, capture_output=True, text=True, timeout=120, check=True)
    return int(next(line for line in done.stdout.splitlines() if line.startswith("connections ")).split()[1])


class Split(unittest.TestCase):
    def setUp(self) -> None:
        room = tempfile.TemporaryDirectory()
        self.addCleanup(room.cleanup)
        self.room = Path(room.name)
        self.feed = make_feed(self.room / "feed")

    def parts(self, most: int) -> tuple[list[Path], list[str]]:
        out = self.room / f"out-{most}"
        words = [str(self.feed), str(out), "--connections", str(most), "--days", str(DAYS), "--first", "20240501"]
        status, lines = run(words)
        self.assertEqual(status, 0)
        return sorted(out.iterdir()), lines

    def test_each_row_is_in_one_part(self) -> None:
        for most in (60, 200, 700, 4_000_000):
            with self.subTest(most):
                folders, lines = self.parts(most)
                for name in ("trips.txt", "stop_times.txt", "frequencies.txt"):
                    self.assertEqual(rows_of(folders, name), rows_of([self.feed], name))
                for folder in folders:
                    self.assertEqual((folder / "stops.txt").read_text(), (self.feed / "stops.txt").read_text())
                    self.assertEqual((folder / "transfers.txt").read_text(), (self.feed / "transfers.txt").read_text())
                    self.assertFalse((folder / "shapes.txt").exists())
                counts = [int(line.split()[-1]) for line in lines]
                self.assertEqual(sum(counts[:-1]), counts[-1])
                self.assertLessEqual(max(counts[:-1]), most)

    def test_agencies_stay_whole_where_they_fit(self) -> None:
        _, lines = self.parts(700)
        agencies = [set(line.partition(" agencies ")[2].partition(" routes ")[0].split()) for line in lines[:-1]]
        self.assertEqual(sum("a1" in one for one in agencies), 1)
        self.assertEqual(sum("a2" in one for one in agencies), 1)
        self.assertGreater(sum("a0" in one for one in agencies), 1)

    @unittest.skipUnless(os.access(PROGRAM, os.X_OK), "the program is not here")
    def test_the_program_takes_each_part(self) -> None:
        folders, lines = self.parts(300)
        counts = [connections(folder) for folder in folders]
        self.assertEqual(sum(counts), connections(self.feed))
        self.assertEqual(sorted(counts), sorted(int(line.split()[-1]) for line in lines[:-1]))

    def test_the_busiest_window_is_no_smaller(self) -> None:
        _, one = run([str(self.feed), str(self.room / "one"), "--days", "1"])
        _, all_days = run([str(self.feed), str(self.room / "all"), "--days", str(DAYS), "--first", "20240501"])
        self.assertLess(int(one[-1].split()[-1]), int(all_days[-1].split()[-1]))

    def test_one_trip_is_too_large(self) -> None:
        status, _ = run([str(self.feed), str(self.room / "out"), "--connections", "3"])
        self.assertEqual(status, split.REFUSED)
        self.assertEqual(sorted(path.name for path in self.room.iterdir()), ["feed"])

    def test_more_changes_than_are_taken(self) -> None:
        with patch.object(rules_window, "MOST_CHANGES", 20), patch.object(split, "MOST_CHANGES", 20):
            folders, _ = self.parts(60)
        for folder in folders:
            stops = {row.split(",")[0] for row in rows_of([folder], "stops.txt")}
            called = {row.split(",")[3] for row in rows_of([folder], "stop_times.txt")} - {""}
            self.assertLessEqual(called, stops)
            self.assertEqual("p" in stops, bool(called & {"s0", "s1", "s2"}))

    def test_a_broken_feed(self) -> None:
        (self.feed / "trips.txt").write_text("trip_id,service_id\n")
        status, _ = run([str(self.feed), str(self.room / "out")])
        self.assertEqual(status, split.REFUSED)
        self.assertFalse((self.room / "out").exists())


if __name__ == "__main__":
    unittest.main()
