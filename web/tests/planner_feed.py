#!/usr/bin/env python3
"""Writes feeds and messages by which planners are compared.

    planner_feed.py ROWS SEED PARTS DIR

DIR/whole is the feed of bench/make_feed.py with so many ROWS, and with what a planner may stumble over: stations, changes of every kind, calls at
which one may not board or alight, trips with a headway, and ids that have to be encoded. DIR/part0 and so on are its PARTS: each has all stops, and
some of the trips. DIR/whole.pb and DIR/part0.pb and so on are one message of delayed, cancelled and added trips and skipped calls, and what of
it is about the part. DIR/u000.pb to DIR/u009.pb are ten messages, a minute apart, each of some trips. Equal arguments give equal files.
"""

from __future__ import annotations

import random
import sys
from dataclasses import dataclass
from pathlib import Path

sys.path.insert(0, str(Path(__file__).resolve().parents[2] / "bench"))
import make_feed  # type: ignore[import]  # noqa: E402
import make_message  # type: ignore[import]  # noqa: E402

DATE = b"20240501"
MIDNIGHT = 1714521600  # 2024-05-01T00:00:00Z
MOMENT = MIDNIGHT + 7 * 3600
MESSAGES = 10
SCHEDULED, ADDED, CANCELED = 0, 1, 3  # schedule_relationship of a trip
SKIPPED = 1  # of a call


@dataclass(frozen=True)
class Call:
    """A row of stop_times.txt."""

    trip: str
    arrival: str
    departure: str
    stop: str
    sequence: int


def number(field: int, value: int) -> bytes:
    return bytes(make_message.number(field, value))


def text(field: int, inner: bytes) -> bytes:
    return bytes(make_message.text(field, inner))


def encoded(identifier: str) -> str:
    """An id that is written otherwise in a URL, for every seventh stop and trip."""
    return f"{identifier} é/%" if int(identifier[1:]) % 7 == 3 else identifier


def station(place: int) -> str:
    return f"p{place:05}"


def rows_of(lines: list[str]) -> list[list[str]]:
    return [line.split(",") for line in lines[1:]]


def calls_of(lines: list[str]) -> list[Call]:
    return [Call(encoded(trip), arrival, departure, encoded(stop), int(sequence)) for trip, arrival, departure, stop, sequence in rows_of(lines)]


def stop_lines(chance: random.Random, stops: list[str]) -> list[str]:
    """Every third stop has a station. A station has two or three stops."""
    children = [stop for place, stop in enumerate(stops) if place % 3 == 0]
    parents = {stop: station(place // chance.randint(2, 3)) for place, stop in enumerate(children)}
    named = [f"{stop},Stop {stop},{parents.get(stop, '')}" for stop in stops]
    return ["stop_id,stop_name,parent_station"] + named + [f"{parent},Station {parent}," for parent in sorted(set(parents.values()))]


def transfer_lines(chance: random.Random, stops: list[str]) -> list[str]:
    """Changes between stops drawn by lot, at one stop too, of each type. Each pair comes once."""
    pairs = {(chance.choice(stops), chance.choice(stops)): chance.randrange(4) for _ in range(4 * len(stops))}
    pairs.update({(stop, stop): chance.randrange(4) for stop in chance.sample(stops, len(stops) // 5)})
    lines = [f"{one},{other},{kind},{chance.randrange(30, 900) if kind == 2 else ''}" for (one, other), kind in pairs.items()]
    return ["from_stop_id,to_stop_id,transfer_type,min_transfer_time"] + lines


def time_lines(chance: random.Random, calls: list[Call]) -> list[str]:
    """At one call of twenty one may not board, and at another one not alight."""
    lines = []
    for call in calls:
        pickup, drop_off = (int(chance.randrange(20) == 0) for _ in range(2))
        lines.append(f"{call.trip},{call.arrival},{call.departure},{call.stop},{call.sequence},{pickup},{drop_off}")
    return ["trip_id,arrival_time,departure_time,stop_id,stop_sequence,pickup_type,drop_off_type"] + lines


def headway_lines(chance: random.Random, trips: list[str]) -> list[str]:
    """One trip of twenty runs every forty minutes of some hours."""
    starts = {trip: chance.randrange(5, 18) for trip in chance.sample(trips, len(trips) // 20)}
    lines = [f"{trip},{hour:02}:00:00,{hour + 3:02}:00:00,2400" for trip, hour in starts.items()]
    return ["trip_id,start_time,end_time,headway_secs"] + lines


def write_feed(folder: Path, files: dict[str, list[str]]) -> None:
    folder.mkdir(parents=True, exist_ok=True)
    for name, lines in files.items():
        (folder / name).write_text("\n".join(lines) + "\n", encoding="utf-8")


def of_trips(lines: list[str], trips: set[str], column: int) -> list[str]:
    """The lines of a file about these trips, and its header."""
    return lines[:1] + [line for line in lines[1:] if line.split(",")[column] in trips]


def part_of(files: dict[str, list[str]], trips: set[str]) -> dict[str, list[str]]:
    """The feed with all stops and these trips."""
    columns = {"trips.txt": 2, "stop_times.txt": 0, "frequencies.txt": 0}
    return {name: of_trips(lines, trips, columns[name]) if name in columns else lines for name, lines in files.items()}


def descriptor(trip: str, relationship: int) -> bytes:
    return text(1, trip.encode()) + text(3, DATE) + number(4, relationship)


def delayed(chance: random.Random, calls: list[Call]) -> bytes:
    """Late or early from some call on, and otherwise from a later one on; the last call but one may be skipped."""
    updates = b""
    for call in sorted(chance.sample(calls, min(2, len(calls))), key=lambda call: call.sequence):
        event = number(1, chance.randrange(-120, 1200))
        updates += text(2, number(1, call.sequence) + text(2, event) + text(3, event))
    if len(calls) > 2 and chance.randrange(3) == 0:
        updates += text(2, number(1, calls[-2].sequence) + number(5, SKIPPED))
    return text(1, descriptor(calls[0].trip, SCHEDULED)) + updates


def added(chance: random.Random, trip: str, stops: list[str]) -> bytes:
    """A trip of four calls at stops drawn by lot."""
    moment = MOMENT + chance.randrange(0, 10 * 3600)
    updates = b""
    for stop in chance.sample(stops, 4):
        updates += text(2, text(2, number(2, moment)) + text(3, number(2, moment + 30)) + text(4, stop.encode()))
        moment += 30 + chance.randrange(120, 600)
    return text(1, descriptor(trip, ADDED)) + updates


def news(chance: random.Random, trips: dict[str, list[Call]], stops: list[str], share: int) -> dict[str, bytes]:
    """By trip what a message says of it: of one trip of so many, and of added ones."""
    said = {}
    for trip in chance.sample(sorted(trips), len(trips) // share):
        is_cancelled = chance.randrange(5) == 0
        said[trip] = text(1, descriptor(trip, CANCELED)) if is_cancelled else delayed(chance, trips[trip])
    for place in range(max(1, len(trips) // share // 4)):
        said[f"added {place}"] = added(chance, f"added {place}", stops)
    return said


def message(moment: int, said: dict[str, bytes]) -> bytes:
    header = text(1, text(1, b"2.0") + number(2, 1) + number(3, moment))
    return header + b"".join(text(2, text(1, trip.encode()) + text(3, update)) for trip, update in said.items())


def make(rows: int, seed: int, parts: int, folder: Path) -> None:
    chance = random.Random(seed)
    lines: dict[str, list[str]] = make_feed.feed(rows, 1)
    stops = [encoded(stop) for stop, _ in rows_of(lines["stops.txt"])]
    calls = calls_of(lines["stop_times.txt"])
    trips: dict[str, list[Call]] = {}
    for call in calls:
        trips.setdefault(call.trip, []).append(call)
    files = {
        "stops.txt": stop_lines(chance, stops),
        "trips.txt": ["route_id,service_id,trip_id"] + [f"r,w,{trip}" for trip in trips],
        "stop_times.txt": time_lines(chance, calls),
        "calendar_dates.txt": lines["calendar_dates.txt"],
        "transfers.txt": transfer_lines(chance, stops),
        "frequencies.txt": headway_lines(chance, list(trips)),
    }
    said = news(chance, trips, stops, 3)
    write_feed(folder / "whole", files)
    (folder / "whole.pb").write_bytes(message(MOMENT, said))
    places = {trip: chance.randrange(parts) for trip in [*trips, *said]}
    for part in range(parts):
        own = {trip for trip, place in places.items() if place == part}
        write_feed(folder / f"part{part}", part_of(files, own))
        (folder / f"part{part}.pb").write_bytes(message(MOMENT, {trip: update for trip, update in said.items() if trip in own}))
    for place in range(MESSAGES):
        (folder / f"u{place:03}.pb").write_bytes(message(MOMENT + 60 * place, news(chance, trips, stops, 20)))


def main(words: list[str]) -> None:
    if len(words) != 4 or not all(word.isdecimal() for word in words[:3]) or int(words[2]) < 1:
        sys.exit("usage: planner_feed.py ROWS SEED PARTS DIR")
    make(int(words[0]), int(words[1]), int(words[2]), Path(words[3]))


if __name__ == "__main__":
    main(sys.argv[1:])
