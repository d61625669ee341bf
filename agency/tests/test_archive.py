#!/usr/bin/python3
"""What the archive holds, and what happens where it cannot be written."""

from __future__ import annotations

import sqlite3
import tempfile
import unittest
from datetime import date
from pathlib import Path
from typing import Any
from zoneinfo import ZoneInfo

from harness import message

from archive import Archive, Window
from clock import Clock
from intake import Intake, Shelf
from log import Log
from rollover import Limits, has_room, is_nearly_full, is_over, next_due, window_name
from archive import Held
from trips import Trips

NOW = 1_800_000_000
DRAFT = Window(0, "20261201", "f", date(2026, 12, 1), 8, "Europe/Brussels", 120, "span:1800", "http://lc.example/t/20261201/", NOW - 60, NOW, None, None)
NOTHING_KNOWN = [Trips({}, {}, ZoneInfo("UTC"))]


class Nowhere:
    def write(self, text: str) -> int:
        return len(text)

    def flush(self) -> None:
        pass


class FullDisk(unittest.TestCase):
    def setUp(self) -> None:
        room = tempfile.TemporaryDirectory()
        self.addCleanup(room.cleanup)
        self.archive = Archive.writer(Path(room.name) / "a.sqlite", "t", "http://lc.example/")
        self.addCleanup(self.archive.close)
        with self.archive.transaction():
            self.archive.add_feed("f", NOW, {"stops.txt": b""})
            window = self.archive.add_window(DRAFT, None)
        self.shelf = Shelf(window, self.archive.held(window.id))
        out: Any = Nowhere()
        self.intake = Intake(self.archive, Limits(10_000, 268_435_456), Log(Clock(), out))
        self.intake.listen_to(["s"], NOTHING_KNOWN)

    def take(self, moment: int, trips: int) -> str:
        late = {f"T{moment}-{number}": number for number in range(trips)}
        return self.intake.take("s", message(moment, late, day="20261201"), NOW, NOTHING_KNOWN, [self.shelf]).kind

    def test_nothing_is_posted_that_is_not_archived(self) -> None:
        sql: sqlite3.Connection = self.archive._sql
        self.assertEqual(self.take(NOW - 30, 10), "archived")
        pages = sql.execute("PRAGMA page_count").fetchone()[0]
        sql.execute(f"PRAGMA max_page_count = {pages}")
        state = dict(self.intake.state)
        self.assertEqual(self.take(NOW - 29, 2000), "failed")
        self.assertIn("full", self.intake.archive_error or "")
        self.assertEqual(self.intake.state, state)
        self.assertEqual(len(self.archive.postings(self.shelf.window.id, 0, 100)), 1)
        # Once there is room again, the same message is taken.
        sql.execute("PRAGMA max_page_count = 1000000")
        self.assertEqual(self.take(NOW - 29, 2000), "archived")
        self.assertIsNone(self.intake.archive_error)
        self.assertEqual([one.moment for one in self.archive.postings(self.shelf.window.id, 0, 100)], [NOW - 30, NOW - 29])

    def test_another_intake_takes_up_where_this_one_ended(self) -> None:
        for number in range(5):
            self.take(NOW - 30 + number, 10 + number)
        other = Intake(self.archive, Limits(10_000, 268_435_456), self.intake._log)
        other.listen_to(["s"], NOTHING_KNOWN)
        other.recover(self.shelf.window)
        self.assertEqual(other.state, self.intake.state)
        self.assertEqual(other.senders["s"].source.entities, self.intake.senders["s"].source.entities)
        self.assertEqual(other.senders["s"].source.moment, NOW - 26)

    def test_a_window_that_has_no_room_gets_none_of_what_follows(self) -> None:
        self.intake._limits = Limits(2, 268_435_456)
        for number in range(4):
            self.take(NOW - 30 + number, 10)
        self.assertEqual(len(self.archive.postings(self.shelf.window.id, 0, 100)), 2)
        self.assertIsNotNone(self.archive.windows()[0].closed)
        self.assertIsNotNone(self.shelf.window.closed)


class Rules(unittest.TestCase):
    def test_days(self) -> None:
        self.assertEqual(DRAFT.last, date(2026, 12, 8))
        self.assertEqual(next_due(DRAFT, 2), date(2026, 12, 7))
        self.assertFalse(is_over(DRAFT, date(2026, 12, 8)))
        self.assertTrue(is_over(DRAFT, date(2026, 12, 9)))

    def test_names(self) -> None:
        self.assertEqual(window_name(date(2026, 12, 1), set()), "20261201")
        self.assertEqual(window_name(date(2026, 12, 1), {"20261201", "20261201-2"}), "20261201-3")

    def test_room(self) -> None:
        limits = Limits(100, 1000)
        self.assertFalse(is_nearly_full(Held(94, 0, 0, None, 0), limits))
        self.assertTrue(is_nearly_full(Held(95, 0, 0, None, 0), limits))
        self.assertTrue(is_nearly_full(Held(0, 950, 0, None, 0), limits))
        self.assertTrue(has_room(Held(99, 990, 0, None, 0), 10, limits))
        self.assertFalse(has_room(Held(100, 0, 0, None, 0), 1, limits))
        self.assertFalse(has_room(Held(0, 995, 0, None, 0), 10, limits))


if __name__ == "__main__":
    unittest.main()
