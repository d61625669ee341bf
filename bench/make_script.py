#!/usr/bin/env python3
"""Writes a script for `replay` over a feed of make_feed.py, and the messages that it names.

    make_script.py ROWS CLIENTS UPDATES DIR

DIR is the directory of the feed of so many ROWS. It gets script.csv and UPDATES messages, u000.pb and so on. Each is of ten delayed trips
and a minute newer than the one before. In the script CLIENTS ask one after the other, each between two stops drawn at random. They leave at
06:00 UTC or up to four hours later, and each has a turn at once. The messages come between them, evenly. Equal numbers give equal scripts.
"""

import random
import sys

from make_feed import CALLS, stop_count, stop_id, trip_id
from make_message import number, text

FIRST = 1714543200  # 2024-05-01T06:00:00Z
SPREAD = 240  # Questions leave within so many minutes.
DELAYED = 10  # trips a message


def moment(minutes: int) -> str:
    return f"2024-05-01T{6 + minutes // 60:02}:{minutes % 60:02}:00Z"


def delayed(trip: int, seconds: int) -> bytes:
    """A trip update: the trip is late from its first stop on."""
    descriptor = text(1, trip_id(trip).encode()) + text(3, b"20240501")
    event = number(1, seconds)
    return text(1, descriptor) + text(2, number(1, 1) + text(2, event) + text(3, event))


def message(place: int, trips: int, chance: random.Random) -> bytes:
    header = text(1, b"2.0") + number(2, 1) + number(3, FIRST + 60 * place)
    entities = [text(2, text(1, b"e%06d" % trip) + text(3, delayed(trip, chance.randrange(30, 600)))) for trip in chance.sample(range(trips), min(DELAYED, trips))]
    return text(1, header) + b"".join(entities)


def main(words: list[str]) -> None:
    if len(words) != 4 or not all(word.isdecimal() for word in words[:3]):
        sys.exit("usage: make_script.py ROWS CLIENTS UPDATES DIR")
    rows, clients, updates = map(int, words[:3])
    folder = words[3]
    chance = random.Random(2)
    stops, trips = stop_count(rows), -(-rows // CALLS)
    lines = []
    named = 0
    for client in range(clients):
        while named * clients < updates * (client + 1) and named < updates:
            with open(f"{folder}/u{named:03}.pb", "wb") as file:
                file.write(message(named, trips, chance))
            lines.append(f"update,{folder}/u{named:03}.pb")
            named += 1
        start, end = chance.sample(range(stops), 2)
        lines.append(f"ask,{stop_id(start)},{stop_id(end)},{moment(chance.randrange(SPREAD))}")
        lines.append(f"turn,{client + 1}")
    with open(f"{folder}/script.csv", "w", encoding="ascii", newline="\n") as file:
        file.write("\n".join(lines) + "\n")


if __name__ == "__main__":
    main(sys.argv[1:])
