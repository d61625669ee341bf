#!/usr/bin/env python3
"""Prints the last lines that the program rows_versions has to print: made histories of messages, worked out without Monteneem.

    histories.py

The drawn messages are those of crates/rows_versions/src/histories/messages.rt. The rules are those of GTFS Realtime: an entity of a full message is
beside the others, another one takes the place of those of its id, and of the news of a trip the last ones count.
"""

from __future__ import annotations

MESSAGES = 50
TRIPS = [f"T{trip}" for trip in range(10)]
FURTHER = [f"X{trip}" for trip in range(5)]

News = tuple[str, str, int]  # the trip, what they are, and how many stops they leave out or serve


class Draws:
    """A linear congruential generator."""

    def __init__(self, seed: int) -> None:
        self.state = seed

    def below(self, end: int) -> int:
        self.state = (self.state * 1_664_525 + 1_013_904_223) % (1 << 32)
        return (self.state >> 16) % end


def entity(draws: Draws) -> tuple[str, News | None]:
    """The id of an entity, and its news: the trip, what they are, and the stops that are left out or served."""
    trip, second, act, amount, _ = draws.below(15), draws.below(4) == 0, draws.below(6), draws.below(600), draws.below(5)
    name = (TRIPS + FURTHER)[trip]
    identity = name + ("b" if second else "a")
    if act == 0:
        return identity, None
    if act == 1:
        return identity, (name, "canceled", 0)
    if trip < 10 and act < 5:
        return identity, (name, "scheduled", 1 if act == 2 else 0)
    # A stop that is unknown is left out.
    return identity, (name, "added", 2 + amount % 3 - (1 if act == 5 else 0))


def connections(force: list[tuple[str, News]]) -> int:
    """How many connections there are under the news in force."""
    count = 0
    for number, name in enumerate(TRIPS):
        said = [news for _, news in force if news[0] == name and news[1] != "added"]
        calls = 3 + number % 3
        if said:
            calls = 0 if said[-1][1] == "canceled" else calls - said[-1][2]
        count += max(calls - 1, 0)
    for name in FURTHER:
        said = [news for _, news in force if news[0] == name]
        if said and said[-1][1] == "added":
            count += max(said[-1][2] - 1, 0)
    return count


def history(name: str, seed: int, full_of: int) -> None:
    draws = Draws(seed)
    force: list[tuple[str, News]] = []
    counts = [connections(force)]
    for _ in range(MESSAGES):
        is_full = draws.below(full_of) == 0
        if is_full:
            force = []
        for _ in range(1 + draws.below(4)):
            identity, news = entity(draws)
            if not is_full:
                force = [kept for kept in force if kept[0] != identity]
            if news is not None:
                force.append((identity, news))
        counts.append(connections(force))
    versions = len(counts)
    print(f"{name}: connections {' '.join(map(str, counts))}; versions {versions}, rows alike {versions}, departures alike {versions}")


history("changes alone", 1, (1 << 32) - 1)
history("full ones between", 2, 3)
