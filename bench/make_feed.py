#!/usr/bin/env python3
"""Writes a GTFS feed.

    make_feed.py ROWS DIR [DAYS]

The trips run on DAYS days from 2024-05-01 on, one where it is not given, and at most 31. DIR gets stops.txt, trips.txt,
stop_times.txt and calendar_dates.txt. stop_times.txt has ROWS rows after its header: trips of 10 calls each, the last
one of what is left. There are about sqrt(ROWS) stops. With 0 rows, each file is its header line. Equal ROWS give equal
feeds, which are drawn at random from a fixed seed.

The ids are as wide in a small feed as in a large one, so a row has as many bytes in each.
"""

import math
import os
import random
import sys

MOST_ROWS = 999_990  # The ids of trips have five digits.
CALLS = 10  # of a trip
FIRST_START = 5 * 3600  # Trips start from 05:00:00 on,
LAST_START = 22 * 3600  # and before 22:00:00.
DWELL = 30  # Seconds from an arrival to the departure.
RIDE = (120, 420)  # Seconds from a departure to the next arrival, least and most.

STOPS = "stop_id,stop_name"
TRIPS = "route_id,service_id,trip_id"
STOP_TIMES = "trip_id,arrival_time,departure_time,stop_id,stop_sequence"
CALENDAR_DATES = "service_id,date,exception_type"


def stop_count(rows: int) -> int:
    """How many stops a feed of so many rows has: enough for the calls of a trip, each at another stop."""
    return max(CALLS, round(math.sqrt(rows))) if rows > 0 else 0


def stop_id(place: int) -> str:
    return f"s{place:05}"


def trip_id(place: int) -> str:
    return f"t{place:05}"


def clock(seconds: int) -> str:
    return f"{seconds // 3600:02}:{seconds // 60 % 60:02}:{seconds % 60:02}"


def trip_calls(chance: random.Random, trip: int, stops: int, calls: int) -> list[str]:
    """The rows of one trip, at so many different stops. The times rise."""
    lines = []
    arrival = chance.randrange(FIRST_START, LAST_START)
    for seq, stop in enumerate(chance.sample(range(stops), calls), start=1):
        departure = arrival + DWELL
        lines.append(f"{trip_id(trip)},{clock(arrival)},{clock(departure)},{stop_id(stop)},{seq}")
        arrival = departure + chance.randint(*RIDE)
    return lines


def feed(rows: int, days: int) -> dict[str, list[str]]:
    """The lines of each file."""
    chance = random.Random(1)
    stops = stop_count(rows)
    trips = -(-rows // CALLS)
    times: list[str] = []
    for trip in range(trips):
        times += trip_calls(chance, trip, stops, min(CALLS, rows - len(times)))
    return {
        "stops.txt": [STOPS] + [f"{stop_id(s)},Stop {s:05}" for s in range(stops)],
        "trips.txt": [TRIPS] + [f"r,w,{trip_id(t)}" for t in range(trips)],
        "stop_times.txt": [STOP_TIMES] + times,
        "calendar_dates.txt": [CALENDAR_DATES] + [f"w,202405{day:02},1" for day in range(1, days + 1) if rows > 0],
    }


def main(words: list[str]) -> None:
    if not 2 <= len(words) <= 3 or not words[0].isdecimal() or int(words[0]) > MOST_ROWS:
        sys.exit(f"usage: make_feed.py ROWS DIR [DAYS], with at most {MOST_ROWS} rows")
    rows, folder = int(words[0]), words[1]
    days = int(words[2]) if len(words) == 3 else 1
    if not 1 <= days <= 31:
        sys.exit("make_feed.py: 1 to 31 days")
    os.makedirs(folder, exist_ok=True)
    for name, lines in feed(rows, days).items():
        with open(os.path.join(folder, name), "w", encoding="ascii", newline="\n") as file:
            file.write("\n".join(lines) + "\n")


if __name__ == "__main__":
    main(sys.argv[1:])
