#!/usr/bin/python3
"""What a URL may answer in place of a message."""

from __future__ import annotations

import queue
import tempfile
import time
import unittest
from pathlib import Path
from typing import Any

from harness import Site, wait_for

from fetching import Arrived, Failed, FetchError, Fetcher, Outcome, fetched
from messages import MOST_BYTES


class Urls(unittest.TestCase):
    def setUp(self) -> None:
        self.site = Site()
        self.addCleanup(self.site.close)

    def fault(self, document: Any, seconds: float = 5.0) -> str:
        self.site.documents["/a"] = document
        with self.assertRaises(FetchError) as caught:
            fetched(self.site.url("/a"), {}, seconds)
        return str(caught.exception)

    def test_bytes_come_as_they_are(self) -> None:
        self.site.documents["/a"] = bytes(range(256)) * 1000
        self.assertEqual(fetched(self.site.url("/a"), {"x-api-key": "k"}, 5.0), bytes(range(256)) * 1000)

    def test_a_status_is_named(self) -> None:
        self.assertEqual(self.fault(500), "status 500")
        self.assertEqual(self.fault(404), "status 404")

    def test_one_that_hangs_is_given_up(self) -> None:
        begun = time.monotonic()
        self.assertEqual(self.fault(lambda handler: time.sleep(3), 0.3), "no reply within 0.3 s")
        self.assertLess(time.monotonic() - begun, 2.5)

    def test_one_of_a_byte_at_a_time_is_given_up(self) -> None:
        def drip(handler: Any) -> None:
            handler.send_response(200)
            handler.end_headers()
            try:
                for _ in range(30):
                    handler.wfile.write(b"x")
                    time.sleep(0.1)
            except OSError:
                pass

        self.assertEqual(self.fault(drip, 0.5), "the reply took more than 0.5 s")

    def test_one_gigabyte_is_not_read(self) -> None:
        sent = []

        def pour(handler: Any) -> None:
            handler.send_response(200)
            handler.end_headers()
            try:
                for _ in range(1024):
                    handler.wfile.write(bytes(1 << 20))
                    sent.append(1)
            except OSError:
                pass

        self.assertEqual(self.fault(pour, 20.0), f"the body has more than {MOST_BYTES} bytes")
        self.assertLess(len(sent), 64)

    def test_a_reply_that_is_cut_is_no_message(self) -> None:
        def cut(handler: Any) -> None:
            handler.send_response(200)
            handler.send_header("Content-Length", "100")
            handler.end_headers()
            handler.wfile.write(b"half")

        self.assertIn("4", self.fault(cut))

    def test_nobody_listens(self) -> None:
        self.assertIn("refused", self.nobody())

    def nobody(self) -> str:
        with self.assertRaises(FetchError) as caught:
            fetched("http://127.0.0.1:1/", {}, 1.0)
        return str(caught.exception)


class Directories(unittest.TestCase):
    def test_files_are_taken_in_order_and_go(self) -> None:
        with tempfile.TemporaryDirectory() as name:
            folder = Path(name)
            for number in (2, 1, 3):
                (folder / f"{number}.pb").write_bytes(b"%d" % number)
            (folder / "4.part").write_bytes(b"not yet")
            events: queue.Queue[Any] = queue.Queue()
            fetcher = Fetcher(name, 0.05, {}, events)
            fetcher.start()
            kinds = {b"1": "archived", b"2": "refused", b"3": "archived"}
            for wanted in (b"1", b"2", b"3"):
                event = events.get(timeout=10)
                self.assertIsInstance(event, Arrived)
                self.assertEqual(event.body, wanted)
                event.receipt.give(Outcome(kinds[wanted], ""))
            wait_for("the files are gone", lambda: sorted(path.name for path in folder.iterdir()) == ["2.pb.refused", "4.part"])
            fetcher.stop()

    def test_a_file_that_could_not_be_archived_stays(self) -> None:
        with tempfile.TemporaryDirectory() as name:
            (Path(name) / "1.pb").write_bytes(b"1")
            events: queue.Queue[Any] = queue.Queue()
            fetcher = Fetcher(name, 0.05, {}, events)
            fetcher.start()
            events.get(timeout=10).receipt.give(Outcome("failed", "full"))
            self.assertEqual(events.get(timeout=10).body, b"1")
            fetcher.stop()

    def test_a_missing_directory_is_named(self) -> None:
        events: queue.Queue[Any] = queue.Queue()
        fetcher = Fetcher("/nowhere/at/all", 0.05, {}, events)
        fetcher.start()
        self.assertEqual(events.get(timeout=10), Failed("/nowhere/at/all", "/nowhere/at/all: no such directory"))
        fetcher.stop()


if __name__ == "__main__":
    unittest.main()
