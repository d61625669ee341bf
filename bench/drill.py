#!/usr/bin/env python3
"""Prints what `lc drill N --days D` has to print, by another program: python3 bench/drill.py N [D [LOST]]

It generates the network, the delays and the questions from the number, searches each question over plain lists, and counts the pages
that its client has to ask for. The first LOST clients get no version, as where the first replies are lost. It shares nothing with the crates.
"""
from __future__ import annotations

import sys
from collections import OrderedDict

MIDNIGHT = 1714521600  # 2024-05-01T00:00:00Z
CHANGE, HORIZON, SPAN, CACHE = 120, 86400, 1800, 100

Connection = tuple[int, int, int, int, tuple[int, int]]  # the departure, the arrival, from, to, and the run


class Draws:
    def __init__(self, seed: int) -> None:
        self.state = seed

    def below(self, n: int) -> int:
        self.state = (self.state * 6364136223846793005 + 1442695040888963407) % 2**64
        return (self.state >> 33) % n


def stop_of(side: int, line: int, place: int) -> int:
    way, along = divmod(line, side)
    back = side - 1 - place
    return [along * side + place, along * side + back, place * side + along, back * side + along][way]


def connections_of(side: int, days: int, delays: dict[int, int]) -> list[Connection]:
    """The connections, in departure order. A delay holds on the first date alone, from the first departure on."""
    found = []
    for trip in range(432 * side):
        line, turn = divmod(trip, 108)
        start = MIDNIGHT + 18000 + 600 * turn + 60 * ((7 * line) % 10)
        for day in range(days):
            late = delays.get(trip, 0) if day == 0 else 0
            for place in range(side - 1):
                leaves = start + 86400 * day + late + 180 * place + 30
                found.append((leaves, leaves + 150, stop_of(side, line, place), stop_of(side, line, place + 1), (trip, day)))
    return sorted(found)


def best_arrival(connections: list[Connection], origin: int, target: int, leave: int) -> int | None:
    """The least arrival of a journey, or None: every connection that is within reach is taken, in departure order."""
    reached: dict[int, int] = {}
    boarded: set[tuple[int, int]] = set()
    best: int | None = None
    for leaves, arrives, here, there, run in connections:
        if leaves < leave or arrives > leave + HORIZON:
            continue
        if run not in boarded:
            if not (here == origin or (here in reached and reached[here] + CHANGE <= leaves)):
                continue
            boarded.add(run)
        if there not in reached or arrives < reached[there]:
            reached[there] = arrives
            if there == target and (best is None or arrives < best):
                best = arrives
    return best


def pages_of(connections: list[Connection]) -> list[list[int]]:
    """The first and the last departure of each page: a page begins with each span of half an hour in which something departs."""
    pages: list[list[int]] = []
    for leaves, *_ in connections:
        if not pages or pages[-1][0] // SPAN < leaves // SPAN:
            pages.append([leaves, leaves])
        pages[-1][1] = leaves
    return pages


def needed(pages: list[list[int]], leave: int, bound: int) -> list[list[int]]:
    first = max([at for at, page in enumerate(pages) if page[0] <= leave], default=0)
    for at in range(first, len(pages)):
        if pages[at][1] >= bound:
            return pages[first:at + 1]
    return pages[first:]


def main() -> None:
    seed = int(sys.argv[1])
    days = int(sys.argv[2]) if len(sys.argv) > 2 else 1
    lost = int(sys.argv[3]) if len(sys.argv) > 3 else 0
    side = 5 + seed % 26
    draws = Draws(seed)
    messages: list[dict[int, int]] = [{} for _ in range(10)]
    for message in messages:
        for _ in range(20):
            trip = draws.below(432 * side)
            message[trip] = draws.below(900)
    questions = []
    for i in range(20):
        origin = draws.below(side * side)
        questions.append((origin, (origin + 1 + draws.below(side * side - 1)) % (side * side), MIDNIGHT + 7 * 3600 + 600 * i))
    timetables: dict[int, tuple[list[Connection], list[list[int]]]] = {}
    cache: OrderedDict[tuple[int, int], bool] = OrderedDict()
    found, none, arrivals, exchanges = 0, 0, 0, 0
    for i, (origin, target, leave) in enumerate(questions):
        if i < lost:
            exchanges += 1
            continue
        version = (i + 1) // 2  # how many messages came before the first turn of this client
        if version not in timetables:
            connections = connections_of(side, days, messages[version - 1] if version else {})
            timetables[version] = (connections, pages_of(connections))
        connections, pages = timetables[version]
        arrival = best_arrival(connections, origin, target, leave)
        if arrival is None:
            none += 1
        else:
            found += 1
            arrivals += arrival - leave
        exchanges += 2
        for page in needed(pages, leave, leave + HORIZON if arrival is None else arrival):
            name = (version, page[0])
            if name not in cache:
                exchanges += 1
            cache[name] = True
            cache.move_to_end(name)
            if len(cache) > CACHE:
                cache.popitem(last=False)
    print(f"drill {seed} stops {side * side} trips {432 * side} connections {432 * side * (side - 1) * days}")
    print("updates 10 ignored 0")
    print(f"found {found} none {none}")
    print(f"arrivals {arrivals}")
    print(f"exchanges {exchanges}")


main()
