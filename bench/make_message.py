#!/usr/bin/env python3
"""Writes a message of trip updates (GTFS Realtime Reference, FeedMessage).

    make_message.py UPDATES BYTES FILE

FILE gets a header, UPDATES entities with a trip update of two stops each, and a field that no reader knows, so long that
the message has BYTES bytes. The same UPDATES and BYTES give the same message.

The ids are as wide in a small message as in a large one, so a trip update has as many bytes in each.
"""

import sys

MOMENT = 1714546800  # 2024-05-01T07:00:00Z
DATE = b"20240501"
UNKNOWN = 1001  # The number of a field that no reader knows.
LATE, EARLY = 60, -30  # Seconds.


def varint(number: int) -> bytes:
    """The seven bits of each byte, least first. Negative numbers stand for themselves modulo 2^64."""
    number %= 1 << 64
    out = bytearray()
    while number > 127:
        out.append(number % 128 + 128)
        number //= 128
    out.append(number)
    return bytes(out)


def number(field: int, value: int) -> bytes:
    return varint(field * 8) + varint(value)


def text(field: int, inner: bytes) -> bytes:
    return varint(field * 8 + 2) + varint(len(inner)) + inner


def trip_update(place: int) -> bytes:
    descriptor = text(1, b"trip%06d" % place) + text(3, DATE)
    first = number(1, 1) + text(2, number(1, LATE)) + text(3, number(1, LATE))
    stop_id = b"stop%04d" % (place % 1000)
    second = text(4, stop_id) + text(3, number(1, EARLY) + number(2, MOMENT + place)) + number(5, 0)
    return text(1, descriptor) + text(2, first) + text(2, second)


def message(updates: int, size: int) -> bytes:
    """The bytes of the message."""
    header = text(1, b"2.0") + number(2, 0) + number(3, MOMENT)
    parts = [text(1, header)]
    parts += [text(2, text(1, b"e%06d" % place) + text(3, trip_update(place))) for place in range(updates)]
    lacking = size - sum(map(len, parts))
    # The length before the text may have one to four bytes.
    for width in range(1, 5):
        padding = text(UNKNOWN, bytes(max(0, lacking - len(varint(UNKNOWN * 8 + 2)) - width)))
        if len(padding) == lacking:
            return b"".join(parts) + padding
    sys.exit(f"make_message.py: {updates} trip updates leave no room in {size} bytes")


def main(words: list[str]) -> None:
    if len(words) != 3 or not (words[0].isdecimal() and words[1].isdecimal()):
        sys.exit("usage: make_message.py UPDATES BYTES FILE")
    with open(words[2], "wb") as file:
        file.write(message(int(words[0]), int(words[1])))


if __name__ == "__main__":
    main(sys.argv[1:])
