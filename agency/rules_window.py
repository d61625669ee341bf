"""What a feed gives in a window of service dates: its connections, and the changes between its stops (docs/USAGE.md, "Limits")."""

from __future__ import annotations

from bisect import bisect_left
from collections import defaultdict
from datetime import date

from feeds import Feed
from rules import LIMIT, MOST_BARE_RUNS, MOST_CHANGES, MOST_CONNECTIONS, MOST_STARTS, Frequency, Report, Scope, Stops, Tables, Transfer

# So many pairs of stops are looked at. A feed with more is mostly one whose transfers forbid what they name.
MOST_PAIRS = 20 * MOST_CHANGES


def start_count(spans: list[Frequency] | None) -> int:
    """How many starts a trip has on a date: those that its rows of frequencies.txt give, each once, and one where it has no row."""
    if spans is None:
        return 1
    if len(spans) == 1:
        return len(spans[0].starts())
    starts: set[int] = set()
    for span in spans:
        if len(starts) < MOST_STARTS:
            starts.update(span.starts())
    return len(starts)


def busiest(dates: list[date], days: int) -> int:
    """On how many of so many days in a row a service runs at most. The dates are sorted."""
    ordinals = [when.toordinal() for when in dates]
    return max((bisect_left(ordinals, first + days, lo=place) - place for place, first in enumerate(ordinals)), default=0)


def dates_of_services(feed: Feed, first: date | None, days: int) -> dict[str, int]:
    """On how many dates each service runs: in the window from a first date on, or in the busiest one of so many days."""
    if first is not None:
        return {service: len(dates) for service, dates in feed.service_dates(first, days).items()}
    return {service: busiest(dates, days) for service, dates in feed.service_dates().items()}


def connections_of_trips(tables: Tables, dates: dict[str, int]) -> tuple[list[int], int]:
    """How many connections the runs of each trip have, and how many runs have none. Linear in the trips, and in the starts of those
    that have several rows of frequencies.txt."""
    found = [0] * tables.times.known
    bare = 0
    for trip in tables.times.trips():
        runs = dates.get(tables.trips.services[trip], 0) * start_count(tables.frequencies.get(trip))
        pairs = tables.times.count[trip] - 1
        if pairs > 0:
            found[trip] = runs * pairs
        else:
            bare += runs
    return found, bare


def judge_window(feed: Feed, report: Report, scope: Scope, tables: Tables) -> None:
    """The limits on connections and on changes, which come after all files."""
    dates = dates_of_services(feed, scope.begin(feed), scope.days)
    each, bare = connections_of_trips(tables, dates)
    connections = sum(each)
    if connections > MOST_CONNECTIONS:
        says = f"{scope.days} days have {connections} connections, and {MOST_CONNECTIONS} are taken"
        report.refuse("limit", "connections", 0, says, LIMIT, 0, f"error too large connections {connections}")
    elif bare > MOST_BARE_RUNS:
        says = f"{bare} runs have no connection, and {MOST_BARE_RUNS} are taken"
        report.refuse("limit", "runs", 0, says, LIMIT, 0, "error no memory")
    changes = count_changes(tables.stops, tables.transfers)
    if changes is not None and changes > MOST_CHANGES:
        says = f"more than {MOST_CHANGES} changes between stops: at each stop, within each station, and by transfers.txt"
        report.refuse("limit", "changes", 0, says, LIMIT, 0, f"error too large changes {MOST_CHANGES + 1}")


def count_changes(stops: Stops, transfers: list[Transfer]) -> int | None:
    """How many ordered pairs of stops have a change, at most one more than are taken. None where too many pairs would be looked at."""
    parents = dict(zip(stops.places, stops.parents))
    children: dict[str, list[str]] = defaultdict(list)
    for stop, parent in parents.items():
        if parent:
            children[parent].append(stop)
    rows: dict[str, dict[str, Transfer]] = defaultdict(dict)
    for transfer in transfers:
        rows[transfer.begin].setdefault(transfer.end, transfer)
    count = looked = 0
    for stop, parent in parents.items():
        own, of_parent = rows.get(stop, {}), rows.get(parent, {}) if parent else {}
        partners: set[str] = set()
        for named in (stop, parent, *own, *of_parent):
            if named in parents:
                partners.add(named)
            partners.update(children.get(named, ()) if named else ())
            if len(partners) > MOST_PAIRS:
                return None
        looked += len(partners)
        if looked > MOST_PAIRS:
            return None
        for other in partners:
            count += has_change(own, of_parent, stop, parent, other, parents[other])
        if count > MOST_CHANGES:
            return MOST_CHANGES + 1
    return count


def has_change(own: dict[str, Transfer], of_parent: dict[str, Transfer], stop: str, parent: str, other: str, station: str) -> bool:
    """Whether one can change from a stop to another one: the first row between them decides, then one to the other's parent, then
    those of the own parent; without a row, being one stop or of one parent."""
    for rows in (own, of_parent):
        row = rows.get(other) or (rows.get(station) if station else None)
        if row is not None:
            return row.kind != 3
    return stop == other or (parent != "" and parent == station)
