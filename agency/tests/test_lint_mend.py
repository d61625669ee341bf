"""What is mended in a feed, and what is left out, row by row."""

from __future__ import annotations

import io
import os
import random
import sys
import tempfile
import unittest
import zipfile
from contextlib import redirect_stderr, redirect_stdout
from pathlib import Path
from typing import Mapping

sys.path.insert(0, str(Path(__file__).parent))
sys.path.insert(0, str(Path(__file__).parent.parent))

import lint
from test_lint_rules import BASE, CASES, FUZZED, PROGRAM, broken, checked, fuzzed, judged, lay

HEAD = "trip_id,arrival_time,departure_time,stop_id,stop_sequence\n"
# Files of which a rule says that they, or a column of theirs, are missing: a person has to add them.
MISSING = ("F1", "F3", "F4")


class Mend(unittest.TestCase):
    def setUp(self) -> None:
        room = tempfile.TemporaryDirectory()
        self.addCleanup(room.cleanup)
        self.room = Path(room.name)

    def mended(self, folder: Path) -> tuple[int, list[str], Path]:
        out = self.room / "out" / folder.name
        with redirect_stdout(io.StringIO()) as printed:
            status = lint.main([str(folder), "--mend", str(out), "--first", "20240501"])
        return status, printed.getvalue().splitlines(), out

    def files(self, changed: Mapping[str, str], status: int = lint.SOUND) -> tuple[list[str], Path]:
        """The lines printed for the base with these files, and what was written."""
        found, lines, out = self.mended(lay({**BASE, **changed}, self.room / "feed"))
        self.assertEqual(found, status, lines)
        return lines, out

    def test_all_that_is_broken_can_be_mended(self) -> None:
        for place, case in enumerate(CASES):
            with self.subTest(case[0]):
                status, lines, out = self.mended(lay(broken(case), self.room / str(place)))
                code = case[4].split()[2] if case[4] != "ok" else ""
                if status == lint.REFUSED:
                    self.assertIn(code, MISSING)
                    self.assertTrue(lines[-1].startswith("not mended: "))
                    self.assertFalse(out.exists())
                else:
                    self.assertIsNone(judged(out).first)
                    self.assertEqual(len(lines) > 1, code != "", lines)
                    if os.access(PROGRAM, os.X_OK):
                        self.assertEqual(checked(out), "ok")

    def test_fuzzed_feeds(self) -> None:
        mended = 0
        for seed in range(FUZZED):
            with self.subTest(seed=seed):
                status, lines, out = self.mended(lay(fuzzed(random.Random(seed)), self.room / str(seed)))
                if status == lint.SOUND:
                    mended += 1
                    self.assertIsNone(judged(out).first)
                    if os.access(PROGRAM, os.X_OK):
                        self.assertEqual(checked(out), "ok")
                else:
                    self.assertTrue(lines[-1].startswith("not mended: "), lines)
        self.assertGreater(mended, FUZZED // 3)

    def test_a_sound_feed_stays_as_it_is(self) -> None:
        lines, out = self.files({"shapes.txt": "shape_id\nx\n"})
        self.assertEqual(len(lines), 1)
        for name, text in {**BASE, "shapes.txt": "shape_id\nx\n"}.items():
            self.assertEqual((out / name).read_text(), text)

    def test_times_after_midnight(self) -> None:
        rows = "T1,23:50:00,23:55:00,A,1\nT1,00:10:00,00:10:00,C,2\nT1,24:20:00,00:25:00,D,3\n"
        lines, out = self.files({"stop_times.txt": HEAD + rows})
        self.assertEqual((out / "stop_times.txt").read_text(), HEAD + "T1,23:50:00,23:55:00,A,1\nT1,24:10:00,24:10:00,C,2\nT1,24:20:00,24:25:00,D,3\n")
        self.assertEqual(
            lines[:-1],
            [
                "F14 stop_times.txt row 2: arrival_time '00:10:00' is written '24:10:00'",
                "F14 stop_times.txt row 2: departure_time '00:10:00' is written '24:10:00'",
                "F14 stop_times.txt row 3: departure_time '00:25:00' is written '24:25:00'",
            ],
        )

    def test_a_time_that_is_a_little_early(self) -> None:
        rows = "T1,08:00:00,08:05:00,A,1\nT1,08:04:00,08:06:00,C,2\nT1,08:20:00,08:20:00,D,3\n"
        _, out = self.files({"stop_times.txt": HEAD + rows})
        self.assertIn("T1,08:05:00,08:06:00,C,2\n", (out / "stop_times.txt").read_text())

    def test_a_trip_whose_times_fall_is_left_out(self) -> None:
        rows = "T1,08:00:00,08:00:00,A,1\nT2,12:00:00,12:00:00,A,1\nT2,09:00:00,09:00:00,C,2\nT1,08:20:00,08:20:00,D,2\n"
        lines, out = self.files({"stop_times.txt": HEAD + rows})
        self.assertEqual((out / "stop_times.txt").read_text(), HEAD + "T1,08:00:00,08:00:00,A,1\nT1,08:20:00,08:20:00,D,2\n")
        self.assertEqual((out / "trips.txt").read_text(), "route_id,service_id,trip_id\nr,w,T1\nr,x,T3\n")
        self.assertEqual(
            lines[0],
            "F14 trips.txt row 2: left out: the trip 'T2' with the rows 2 to 3 of stop_times.txt: in row 3 09:00:00 is earlier than 12:00:00 before it",
        )

    def test_ends_without_a_time(self) -> None:
        rows = "T1,,,A,1\nT1,08:00:00,,B,2\nT1,08:10:00,,C,3\nT1,,,D,4\nT2,,,A,1\nT2,09:00:00,,B,2\n"
        lines, out = self.files({"stop_times.txt": HEAD + rows})
        self.assertEqual((out / "stop_times.txt").read_text(), HEAD + "T1,08:00:00,,B,2\nT1,08:10:00,,C,3\n")
        self.assertIn("fewer than two rows are left of it", "\n".join(lines))

    def test_words_that_can_be_read(self) -> None:
        rows = "T1,8:00,08:00:00,A,1.0\nT1,8:5:9,,C,+2\nT1,quarter past,08:20:00,D,3\n"
        _, out = self.files({"stop_times.txt": HEAD + rows, "calendar.txt": BASE["calendar.txt"].replace("20240101", "2024-01-01")})
        self.assertEqual((out / "stop_times.txt").read_text(), HEAD + "T1,08:00:00,08:00:00,A,1\nT1,08:05:09,,C,2\nT1,,08:20:00,D,3\n")
        self.assertEqual((out / "calendar.txt").read_text(), BASE["calendar.txt"])

    def test_a_trip_without_a_readable_headway_is_left_out(self) -> None:
        lines, out = self.files({"frequencies.txt": BASE["frequencies.txt"].replace(",600", ",0")})
        self.assertNotIn("T3", (out / "trips.txt").read_text())
        self.assertNotIn("T3", (out / "stop_times.txt").read_text())
        self.assertEqual((out / "frequencies.txt").read_text(), "trip_id,start_time,end_time,headway_secs\n")

    def test_letters_of_another_encoding(self) -> None:
        folder = lay({**BASE, "stops.txt": BASE["stops.txt"].replace("Gamma", "Gämma").encode("cp1252")}, self.room / "feed")
        _, _, out = self.mended(folder)
        self.assertIn("C,Gämma,", (out / "stops.txt").read_text(encoding="utf-8"))

    def test_one_of_two_times_is_enough(self) -> None:
        rows = "trip_id,departure_time,stop_id,stop_sequence\nT1,08:00:00,A,1\nT1,08:10:00,B,2\n"
        _, out = self.files({"stop_times.txt": rows})
        self.assertIn("T1,08:00:00,A,1,\n", (out / "stop_times.txt").read_text())

    def test_an_output_that_is_there(self) -> None:
        folder = lay(BASE, self.room / "feed")
        with redirect_stderr(io.StringIO()) as said:
            self.assertEqual(lint.main([str(folder), "--mend", str(self.room)]), lint.FAILED)
        self.assertIn("is there already", said.getvalue())


class Sources(unittest.TestCase):
    """What is given as a feed."""

    def setUp(self) -> None:
        room = tempfile.TemporaryDirectory()
        self.addCleanup(room.cleanup)
        self.room = Path(room.name)

    def status(self, given: str) -> tuple[int, str]:
        with redirect_stdout(io.StringIO()), redirect_stderr(io.StringIO()) as said:
            status = lint.main([given, "--first", "20240501"])
        return status, said.getvalue()

    def zipped(self, folder: str = "", name: str = "feed.zip") -> Path:
        path = self.room / name
        with zipfile.ZipFile(path, "w", zipfile.ZIP_DEFLATED) as archive:
            for file, text in BASE.items():
                archive.writestr(folder + file, text)
        return path

    def test_a_zip_file(self) -> None:
        self.assertEqual(self.status(str(self.zipped())), (lint.SOUND, ""))
        self.assertEqual(self.status(str(self.zipped("export/"))), (lint.SOUND, ""))

    def test_what_is_no_feed(self) -> None:
        damaged = self.room / "damaged.zip"
        whole = self.zipped().read_bytes()
        damaged.write_bytes(whole[:100] + bytes(60) + whole[160:])
        empty = self.room / "empty.zip"
        empty.write_bytes(b"")
        for given in (str(damaged), str(empty), str(self.room / "none.zip"), str(self.room / "none"), "http://127.0.0.1:1/feed.zip", "http://"):
            with self.subTest(given):
                status, said = self.status(given)
                self.assertEqual(status, lint.FAILED)
                self.assertEqual(len(said.splitlines()), 1, said)


if __name__ == "__main__":
    unittest.main()
