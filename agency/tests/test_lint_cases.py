"""The cases of the program's own tests: crates/rows_feed/stdout has what is said of many small files, and the linter has to say the same."""

from __future__ import annotations

import re
import sys
import tempfile
import unittest
from pathlib import Path

sys.path.insert(0, str(Path(__file__).parent))
sys.path.insert(0, str(Path(__file__).parent.parent))

from test_lint_rules import judged, lay

TOP = Path(__file__).parents[2]
CASES = TOP / "crates/rows_feed/stdout"
LINE = re.compile(r"^([a-z_]+\.txt)(, rows)? (.*): (?:read|rule (\d+) in row (\d+))$")
CHANGED = re.compile(r"^tiny/([a-z_]+\.txt) (absent|.*): rule (\d+) ([a-z_]+\.txt) row (\d+), asked \d+$")

# The headers that the cases of rows have before them, and the files that go with those of a file.
HEADERS = {
    "stop_times.txt": "trip_id,stop_id,stop_sequence,arrival_time,departure_time,pickup_type,drop_off_type\n",
    "calendar.txt": "service_id,monday,tuesday,wednesday,thursday,friday,saturday,sunday,start_date,end_date\n",
}
EMPTY = {
    "stops.txt": "stop_id\n",
    "trips.txt": "trip_id,service_id\n",
    "stop_times.txt": HEADERS["stop_times.txt"],
    "calendar_dates.txt": "service_id,date,exception_type\n",
}
BESIDE = {
    "stop_times.txt": {"stops.txt": "stop_id\nA\nB\nC\n", "trips.txt": "trip_id,service_id\nT2,v\nT1,v\nT3,v\n"},
    "frequencies.txt": {"trips.txt": "trip_id,service_id\nT,v\n"},
    "transfers.txt": {"stops.txt": "stop_id\nA\nB\n"},
}


def unescaped(text: str) -> bytes:
    """The bytes that a case writes with escapes."""
    return text.encode("ascii").decode("unicode_escape").encode("latin-1")


@unittest.skipUnless(CASES.is_file(), f"{CASES} is not here")
class Cases(unittest.TestCase):
    def setUp(self) -> None:
        room = tempfile.TemporaryDirectory()
        self.addCleanup(room.cleanup)
        self.room = Path(room.name)
        self.lines = CASES.read_text(encoding="utf-8").splitlines()

    def first(self, files: dict[str, str | bytes], place: int) -> str | None:
        return judged(lay(files, self.room / str(place))).first

    def test_one_file(self) -> None:
        count = 0
        for place, line in enumerate(self.lines):
            match = LINE.match(line)
            if match is None:
                continue
            name, is_rows, text, rule, row = match.groups()
            body = (HEADERS[name].encode() if is_rows else b"") + unescaped(text)
            with self.subTest(line):
                wanted = None if rule is None else f"error feed F{rule} {name} row {row}"
                self.assertEqual(self.first({**EMPTY, **BESIDE.get(name, {}), name: body}, place), wanted)
                count += 1
        self.assertGreater(count, 80)

    def test_one_file_of_the_small_feed(self) -> None:
        tiny = {path.name: path.read_text() for path in (TOP / "examples/tiny").iterdir()}
        count = 0
        for place, line in enumerate(self.lines):
            match = CHANGED.match(line)
            if match is None:
                continue
            name, text, rule, file, row = match.groups()
            files: dict[str, str | bytes] = {**tiny, name: unescaped(text)}
            if text == "absent":
                del files[name]
            with self.subTest(line):
                self.assertEqual(self.first(files, place), f"error feed F{rule} {file} row {row}")
                count += 1
        self.assertGreater(count, 12)


if __name__ == "__main__":
    unittest.main()
