#!/usr/bin/env python3
"""Prints the last lines that crates/rows_commands has to print, by another program: python3 bench/drill_input.py

It writes the generated files of three drills by itself, with the tag, length and number of each field of a message by hand, and says how
many bytes each has and what they sum up to (FNV-1a, 64 bits). The script of the first drill is printed whole.
"""
from __future__ import annotations

import time
from collections.abc import Iterator

DRILLS = [(1, 1), (25, 7), (1000000, 3)]


def draws(seed: int) -> Iterator[int]:
    state = seed
    while True:
        state = (state * 6364136223846793005 + 1442695040888963407) % 2**64
        yield state >> 33


def varint(number: int) -> bytes:
    out = bytearray()
    while number > 127:
        out.append(number % 128 + 128)
        number //= 128
    out.append(number)
    return bytes(out)


def number(field: int, value: int) -> bytes:
    return varint(field * 8) + varint(value)


def text(field: int, value: str | bytes) -> bytes:
    inner = value.encode() if isinstance(value, str) else value
    return varint(field * 8 + 2) + varint(len(inner)) + inner


def name(trip: int) -> str:
    return f"t{trip // 108}-{trip % 108}"


def clock(seconds: int) -> str:
    return f"{seconds // 3600:02}:{seconds // 60 % 60:02}:{seconds % 60:02}"


def stop(side: int, line: int, place: int) -> int:
    way, along = divmod(line, side)
    back = side - 1 - place
    return [along * side + place, along * side + back, place * side + along, back * side + along][way]


def message(moment: int, late: list[tuple[int, int]]) -> bytes:
    out = text(1, text(1, "2.0") + number(2, 0) + number(3, moment))
    for entity, (trip, delay) in enumerate(late):
        descriptor = text(1, name(trip)) + text(3, "20240501")
        times = number(1, 1) + text(3, number(1, delay))
        out += text(2, text(1, str(entity)) + text(3, text(1, descriptor) + text(2, times)))
    return out


def files(seed: int, days: int) -> Iterator[tuple[str, bytes]]:
    side = 5 + seed % 26
    stops, trips = side * side, 432 * side
    drawn = draws(seed)
    late = [[(next(drawn) % trips, next(drawn) % 900) for _ in range(20)] for _ in range(10)]
    script = ""
    for i in range(20):
        origin = next(drawn) % stops
        target = (origin + 1 + next(drawn) % (stops - 1)) % stops
        moment = time.strftime("%Y-%m-%dT%H:%M:%S.000Z", time.gmtime(1714546800 + 600 * i))
        script += f"ask,s{origin},s{target},{moment}\nturn,{i + 1}\n"
        if i % 2 == 0:
            script += f"update,u{i // 2}.pb\n"
    times = ["trip_id,arrival_time,departure_time,stop_id,stop_sequence\n"]
    for trip in range(trips):
        line, turn = divmod(trip, 108)
        start = 18000 + 600 * turn + 60 * ((7 * line) % 10)
        for place in range(side):
            at = start + 180 * place
            times.append(f"{name(trip)},{clock(at)},{clock(at + 30)},s{stop(side, line, place)},{place + 1}\n")
    yield "script.csv", script.encode()
    yield "feed/stops.txt", ("stop_id,stop_name\n" + "".join(f"s{i},s{i}\n" for i in range(stops))).encode()
    yield "feed/trips.txt", ("route_id,service_id,trip_id\n" + "".join(f"r,d,{name(trip)}\n" for trip in range(trips))).encode()
    yield "feed/stop_times.txt", "".join(times).encode()
    yield "feed/calendar_dates.txt", ("service_id,date,exception_type\n" + "".join(f"d,2024050{1 + day},1\n" for day in range(days))).encode()
    for i in range(10):
        yield f"u{i}.pb", message(1714543200 + 600 * (i + 1), late[i])


def total(data: bytes) -> int:
    value = 0xCBF29CE484222325
    for byte in data:
        value = (value ^ byte) * 0x100000001B3 % 2**64
    return value


for seed, days in DRILLS:
    print(f"drill {seed} --days {days}")
    for path, data in files(seed, days):
        print(f"{path}: {len(data)} bytes, sum {total(data)}")
        if seed == 1 and path == "script.csv":
            print(data.decode(), end="")
