"""Realtime messages: their faults by docs/USAGE.md, what looks wrong in them, and what a feed does not know."""

from __future__ import annotations

import io
import json
import os
import random
import subprocess
import sys
import tempfile
import unittest
from contextlib import redirect_stdout
from pathlib import Path

sys.path.insert(0, str(Path(__file__).parent))
sys.path.insert(0, str(Path(__file__).parent.parent))

import lint
import rules_message
from test_lint_rules import BASE, FUZZED, PROGRAM, lay

MOMENT = 1_714_546_800  # 2024-05-01T07:00:00Z


def varint(value: int) -> bytes:
    value %= 1 << 64
    out = bytearray()
    while value > 127:
        out.append(value % 128 + 128)
        value //= 128
    return bytes(out + bytes([value]))


def number(field: int, value: int) -> bytes:
    return varint(field * 8) + varint(value)


def text(field: int, inner: bytes) -> bytes:
    return varint(field * 8 + 2) + varint(len(inner)) + inner


HEADER = text(1, text(1, b"2.0") + number(3, MOMENT))


def update(trip: bytes, *stops: bytes, more: bytes = b"") -> bytes:
    descriptor = (text(1, trip) if trip else b"") + more
    return text(3, text(1, descriptor) + b"".join(text(2, stop) for stop in stops))


def entity(name: bytes, inner: bytes) -> bytes:
    return text(2, text(1, name) + inner)


ARRIVAL = text(2, number(1, 60))
SOUND = HEADER + entity(b"e1", update(b"T1", number(1, 1) + ARRIVAL, text(4, b"D") + text(3, number(2, MOMENT)), more=text(3, b"20240501")))

# The bytes of each message, and its fault.
FAULTS: list[tuple[str, bytes, str]] = [
    ("nothing", b"", "missing header"),
    ("HTML", b"<!DOCTYPE html>", "group 0"),
    ("a cut entity", SOUND[:-1], f"cut {len(HEADER)}"),
    ("a long number", number(9, 1)[:1] + b"\xff" * 10, "varint 0"),
    ("a group", HEADER + varint(9 * 8 + 3), f"group {len(HEADER)}"),
    ("a wire type of 7", HEADER + varint(9 * 8 + 7), f"field {len(HEADER)}"),
    ("a field of 0", HEADER + number(0, 1), f"field {len(HEADER)}"),
    ("a field of 2^29", HEADER + number(536_870_912, 1), f"field {len(HEADER)}"),
    ("two headers", HEADER + HEADER, "repeated header"),
    ("no version", text(1, number(3, MOMENT)), "missing version"),
    ("no timestamp", text(1, text(1, b"2.0")), "no moment"),
    ("the last moment and one", text(1, text(1, b"2.0") + number(3, 253_402_128_000)), "no moment"),
    ("no id", HEADER + text(2, number(2, 1)), "missing id"),
    ("no trip", HEADER + entity(b"e", text(3, b"")), "missing trip"),
    ("two trips", HEADER + entity(b"e", text(3, text(1, b"") + text(1, b""))), "repeated trip"),
    ("two trip updates", HEADER + entity(b"e", update(b"T1") + update(b"T1")), "repeated trip_update"),
    ("two arrivals", HEADER + entity(b"e", update(b"T1", ARRIVAL + ARRIVAL)), "repeated arrival"),
    ("two departures", HEADER + entity(b"e", update(b"T1", text(3, b"") * 2)), "repeated departure"),
]


def fault_of(body: bytes) -> str:
    try:
        rules_message.read(body)
    except rules_message.MessageFault as fault:
        return str(fault)
    return ""


class Faults(unittest.TestCase):
    def asked(self, body: bytes) -> str:
        """The fault that the program names."""
        with tempfile.TemporaryDirectory() as room:
            path = Path(room) / "m.pb"
            path.write_bytes(body)
            feed = lay(BASE, Path(room) / "feed")
            words = [PROGRAM, "ask", str(feed), "A", "D", "2024-05-01T08:00:00Z", "--update", str(path)]
            line = subprocess.run(words, capture_output=True, text=True, timeout=60, check=False).stdout.splitlines()[0]
            return line.partition(f"error update {path} ")[2]

    def test_faults_of_the_manual(self) -> None:
        for name, body, fault in FAULTS:
            with self.subTest(name):
                self.assertEqual(fault_of(body), fault)
                if os.access(PROGRAM, os.X_OK):
                    self.assertEqual(self.asked(body), fault)

    @unittest.skipUnless(os.access(PROGRAM, os.X_OK), "the program is not here")
    def test_fuzzed_messages(self) -> None:
        for seed in range(FUZZED):
            chance = random.Random(seed)
            body = bytearray(SOUND)
            for _ in range(chance.choice((1, 1, 2, 4))):
                at = chance.randrange(len(body))
                body[at : at + chance.choice((0, 1, 1, 3))] = bytes(chance.randrange(256) for _ in range(chance.choice((0, 1, 1, 2))))
            with self.subTest(seed=seed):
                self.assertEqual(fault_of(bytes(body)), self.asked(bytes(body)))

    def test_what_a_message_says(self) -> None:
        message = rules_message.read(SOUND)
        self.assertEqual((message.moment, message.full, len(message.entities)), (MOMENT, True, 1))
        said = message.entities[0].trip
        assert said is not None
        self.assertEqual((said.trip, said.date, said.relationship), ("T1", "20240501", 0))
        self.assertEqual([(stop.sequence, stop.stop) for stop in said.stops], [(1, ""), (None, "D")])
        self.assertEqual((said.stops[0].arrival, said.stops[1].departure), ((60, None), (None, MOMENT)))


class Looks(unittest.TestCase):
    def setUp(self) -> None:
        room = tempfile.TemporaryDirectory()
        self.addCleanup(room.cleanup)
        self.room = Path(room.name)
        self.feed = lay(BASE, self.room / "feed")

    def found(self, body: bytes) -> dict[str, object]:
        path = self.room / "m.pb"
        path.write_bytes(body)
        with redirect_stdout(io.StringIO()) as printed:
            status = lint.main([str(path), "--against", str(self.feed), "--json"])
        said: dict[str, object] = json.loads(printed.getvalue())
        self.assertEqual(status, lint.REFUSED if said["refused"] else lint.SOUND)
        return said

    def codes(self, body: bytes) -> set[str]:
        findings = self.found(body)["findings"]
        assert isinstance(findings, list)
        return {finding["code"] for finding in findings}

    def test_a_message_that_fits(self) -> None:
        said = self.found(SOUND)
        self.assertEqual((said["refused"], said["warnings"], said["trips"], said["unknown"]), (0, 0, 1, 0))

    def test_no_message(self) -> None:
        said = self.found(b"<html>")
        self.assertEqual(said["first"], f"error update {self.room / 'm.pb'} group 0")

    def test_trips_of_another_timetable(self) -> None:
        said = self.found(HEADER + entity(b"1", update(b"T1")) + entity(b"2", update(b"X")) + entity(b"3", update(b"Y")))
        self.assertEqual((said["trips"], said["unknown"]), (3, 2))

    def test_each_that_looks_wrong(self) -> None:
        late = text(1, text(1, b"2.0") + number(3, 4_102_444_800))
        falls = text(3, number(2, MOMENT)), text(2, number(2, MOMENT - 9))
        bodies = {
            "W20": HEADER + entity(b"1", update(b"X")),
            "W21": HEADER + entity(b"1", update(b"")),
            "W22": late + entity(b"1", update(b"T1")),
            "W23": HEADER + entity(b"1", text(4, b"")),
            "W24": HEADER + entity(b"1", update(b"T1", number(1, 9) + ARRIVAL)),
            "W25": HEADER + entity(b"1", update(b"T1", *falls)),
            "W26": HEADER + entity(b"1", update(b"T2")),
            "W27": HEADER + entity(b"1", update(b"T1", text(2, number(1, 50_000)))),
            "W28": HEADER + entity(b"1", update(b"T1")) + entity(b"1", update(b"T1", more=text(3, b"20240501"))),
        }
        for code, body in bodies.items():
            with self.subTest(code):
                self.assertEqual(self.codes(body), {code})


if __name__ == "__main__":
    unittest.main()
