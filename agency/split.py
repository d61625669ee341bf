#!/usr/bin/python3
"""Parts a feed that is too large for one publisher: by agency, then by route, and a route that is too large by its trips.

    split.py FEED OUT [--connections N] [--days N] [--first DATE]

FEED is a directory, a zip file or a URL. OUT gets a directory for each part (`part-1`, `part-2` and so on), each a feed that `lc check`
takes in a window of as many days. The ids stay as they are. Each trip is in one part, and so is each of its connections. Every part has
all stops and transfers, so that changes from a stop of one part to one of another are in the stops document of each; a feed with more
stops or changes than `check` takes has in each part those stops at which its trips call, and their stations.

A line is printed for each part: its name, its agencies, and how many routes, trips and connections it has. Connections are those of the
window from --first on, or, where it is not given, at most those of any window of as many days.

The status is 0 where all parts are written, 1 where the feed cannot be parted, 2 for wrong arguments, 3 where something cannot be read or
written.
"""

from __future__ import annotations

import argparse
import csv
import shutil
import sys
from contextlib import ExitStack
from dataclasses import dataclass, field
from pathlib import Path
from typing import Callable, Iterator, Sequence

import feeds
import lint
import rules
import rules_window
from feeds import Feed, FeedError, Table
from rules import MOST_CHANGES, Report, Tables

DONE, REFUSED, USAGE, FAILED = 0, 1, 2, 3
# What a part is without: the program reads none of it, and it may be the largest file of all.
UNREAD = "shapes.txt"


class SplitError(Exception):
    """Why a feed cannot be parted."""


@dataclass(frozen=True)
class Size:
    """How much there is of what a publisher takes so much at most."""

    connections: int = 0
    times: int = 0
    trips: int = 0

    def __add__(self, other: Size) -> Size:
        return Size(self.connections + other.connections, self.times + other.times, self.trips + other.trips)

    def fits(self, most: Size) -> bool:
        return self.connections <= most.connections and self.times <= most.times and self.trips <= most.trips


@dataclass
class Bundle:
    """Trips that stay together, with the agency and the route that they are of."""

    agencies: list[str]
    routes: list[str]
    size: Size = Size()
    trips: list[int] = field(default_factory=list)

    def take(self, other: Bundle) -> None:
        self.agencies = list(dict.fromkeys(self.agencies + other.agencies))
        self.routes = list(dict.fromkeys(self.routes + other.routes))
        self.size += other.size
        self.trips += other.trips


def sizes_of_trips(tables: Tables, connections: Sequence[int]) -> list[Size]:
    return [Size(connections[trip], tables.times.count[trip], 1) for trip in range(tables.times.known)]


def routes_of_trips(feed: Feed, tables: Tables) -> list[str]:
    """The route of each trip, by the trip's place."""
    routes = [""] * tables.times.known
    table = feed.table("trips.txt")
    assert table is not None
    for trip, route in table.rows("trip_id", "route_id"):
        routes[tables.trips.places[trip]] = route
    return routes


def agencies_of_routes(feed: Feed) -> dict[str, str]:
    table = feed.table("routes.txt")
    return {} if table is None else {route: agency for route, agency in table.rows("route_id", "agency_id")}


def bundles_by_route(routes: Sequence[str], agencies: dict[str, str], sizes: Sequence[Size]) -> list[Bundle]:
    found: dict[str, Bundle] = {}
    for trip, route in enumerate(routes):
        bundle = found.setdefault(route, Bundle([agencies.get(route, "")], [route]))
        bundle.size += sizes[trip]
        bundle.trips.append(trip)
    return list(found.values())


def pieces_of_route(route: Bundle, sizes: Sequence[Size], most: Size) -> Iterator[Bundle]:
    """The trips of a route that is too large, in their order, as many at a time as fit."""
    piece = Bundle(route.agencies, route.routes)
    for trip in route.trips:
        if not sizes[trip].fits(most):
            raise SplitError(f"one trip has {sizes[trip].connections} connections, and {most.connections} are allowed: ask for fewer days")
        if not (piece.size + sizes[trip]).fits(most):
            yield piece
            piece = Bundle(route.agencies, route.routes)
        piece.size += sizes[trip]
        piece.trips.append(trip)
    yield piece


def packed(bundles: Sequence[Bundle], most: Size) -> list[Bundle]:
    """The bundles put together, each into the first part that has room, the largest first. Of n bundles in p parts: n log n and n p."""
    parts: list[Bundle] = []
    for bundle in sorted(bundles, key=lambda one: one.size.connections, reverse=True):
        part = next((one for one in parts if (one.size + bundle.size).fits(most)), None)
        if part is None:
            part = Bundle([], [])
            parts.append(part)
        part.take(bundle)
    return parts


def parts_of(routes: Sequence[str], agencies: dict[str, str], sizes: Sequence[Size], most: Size) -> list[Bundle]:
    """The parts: agencies that fit go together whole, one that does not is parted by its routes."""
    of_agency: dict[str, list[Bundle]] = {}
    for route in bundles_by_route(routes, agencies, sizes):
        of_agency.setdefault(route.agencies[0], []).append(route)
    whole: list[Bundle] = []
    parted: list[Bundle] = []
    for agency, of_routes in of_agency.items():
        bundle = Bundle([agency], [])
        for route in of_routes:
            bundle.take(route)
        if bundle.size.fits(most):
            whole.append(bundle)
            continue
        pieces = [piece for route in of_routes for piece in ([route] if route.size.fits(most) else pieces_of_route(route, sizes, most))]
        parted += packed(pieces, most)
    # What is left over of a large agency takes small agencies along.
    return packed(whole + parted, most)


def write_parts(feed: Feed, out: Path, tables: Tables, parts: Sequence[Bundle]) -> None:
    part_of = [0] * tables.times.known
    for nth, part in enumerate(parts):
        for trip in part.trips:
            part_of[trip] = nth
    folders = [out / f"part-{nth}" for nth in range(1, len(parts) + 1)]
    for folder in folders:
        folder.mkdir(parents=True)
    places = tables.trips.places
    few = is_too_wide(tables)
    for name in feed.names():
        if name in ("trips.txt", "stop_times.txt", "frequencies.txt"):
            deal(feed.path(name), folders, name, lambda trip: part_of[places[trip]])
        elif name in ("stops.txt", "transfers.txt") and few:
            write_few(feed, name, folders, stops_of_parts(tables, part_of, len(parts)))
        elif name != UNREAD:
            for folder in folders:
                shutil.copyfile(feed.path(name), folder / name)


def deal(path: Path, folders: Sequence[Path], name: str, part_of: Callable[[str], int]) -> None:
    """Writes each row into the part of its trip."""
    table = Table(path)
    at = table.place("trip_id")
    assert at is not None
    with ExitStack() as stack:
        writers = []
        for folder in folders:
            writer = csv.writer(stack.enter_context(open(folder / name, "w", encoding="utf-8", newline="")), lineterminator="\n")
            writer.writerow(table.columns)
            writers.append(writer)
        for record in table.records():
            writers[part_of(record[at].strip(" "))].writerow(record)


def is_too_wide(tables: Tables) -> bool:
    """Whether no part can have all stops and all changes."""
    changes = rules_window.count_changes(tables.stops, tables.transfers)
    return len(tables.stops.parents) > rules.MOST_ROWS["stops.txt"][1] or changes is None or changes > MOST_CHANGES


def stops_of_parts(tables: Tables, part_of: Sequence[int], parts: int) -> list[set[str]]:
    """The stops at which the trips of each part call, and their stations."""
    names = list(tables.stops.places)
    called: list[set[int]] = [set() for _ in range(parts)]
    for trip, stop in zip(tables.times.trip, tables.times.stop):
        if stop >= 0:
            called[part_of[trip]].add(stop)
    found = []
    for places in called:
        stops = {names[place] for place in places}
        while more := {tables.stops.parents[tables.stops.places[stop]] for stop in stops} - stops - {""}:
            stops |= more
        found.append(stops)
    return found


def write_few(feed: Feed, name: str, folders: Sequence[Path], stops: Sequence[set[str]]) -> None:
    """Writes the rows of stops.txt or transfers.txt that name stops of the part alone."""
    table = feed.table(name)
    assert table is not None
    columns = ("stop_id",) if name == "stops.txt" else ("from_stop_id", "to_stop_id")
    at = [place for column in columns if (place := table.place(column)) is not None]
    for folder, known in zip(folders, stops):
        with open(folder / name, "w", encoding="utf-8", newline="") as file:
            writer = csv.writer(file, lineterminator="\n")
            writer.writerow(table.columns)
            for record in table.records():
                if all(record[place].strip(" ") in known for place in at):
                    writer.writerow(record)


def run(feed: Feed, out: Path, options: argparse.Namespace) -> int:
    if out.exists():
        raise FeedError(f"{out} is there already")
    report = Report(1)
    tables = rules.judge_tables(feed, report)
    refused = [finding for finding in report.findings if finding.code[0] == "F"]
    if refused:
        raise SplitError(f"mend the feed first: {lint.line_of(refused[0])}")
    dates = rules_window.dates_of_services(feed, options.first, options.days)
    connections, _ = rules_window.connections_of_trips(tables, dates)
    most = Size(options.connections, rules.MOST_ROWS["stop_times.txt"][1], rules.MOST_ROWS["trips.txt"][1])
    sizes = sizes_of_trips(tables, connections)
    parts = parts_of(routes_of_trips(feed, tables), agencies_of_routes(feed), sizes, most)
    room = out.with_name(out.name + ".part")
    shutil.rmtree(room, ignore_errors=True)
    try:
        write_parts(feed, room, tables, parts)
        room.rename(out)
    finally:
        shutil.rmtree(room, ignore_errors=True)
    for nth, part in enumerate(parts, 1):
        print(
            f"{out / f'part-{nth}'} agencies {' '.join(filter(None, part.agencies)) or '-'} routes {len(part.routes)} "
            f"trips {part.size.trips} connections {part.size.connections}"
        )
    print(f"{len(parts)} parts connections {sum(part.size.connections for part in parts)}")
    return DONE


def count_of(text: str) -> int:
    found = feeds.number(text)
    if found is None or not 1 <= found <= rules.MOST_CONNECTIONS:
        raise argparse.ArgumentTypeError(f"{text!r} is no number from 1 to {rules.MOST_CONNECTIONS}")
    return found


def options_of(words: Sequence[str]) -> argparse.Namespace:
    about, _, more = (__doc__ or "").partition("\n\n")
    parser = argparse.ArgumentParser(
        prog="split.py", description=about, epilog=more.partition("\n\n")[2], formatter_class=argparse.RawDescriptionHelpFormatter
    )
    parser.add_argument("feed", metavar="FEED", help="a directory, a zip file or a URL")
    parser.add_argument("out", metavar="OUT", help="a directory, which is made")
    parser.add_argument(
        "--connections", type=count_of, default=rules.MOST_CONNECTIONS, metavar="N", help="of a part, at most (default: %(default)s)"
    )
    parser.add_argument("--days", type=lint.days_of, default=7, metavar="N", help="how many service dates a window has (default: 7)")
    parser.add_argument("--first", type=lint.date_of, metavar="DATE", help="the first date of the window (default: the busiest window)")
    return parser.parse_args(words)


def main(words: Sequence[str]) -> int:
    options = options_of(words)
    try:
        with feeds.opened(options.feed) as feed:
            return run(feed, Path(options.out), options)
    except SplitError as error:
        print(f"split.py: {error}", file=sys.stderr)
        return REFUSED
    except FeedError as error:
        print(f"split.py: {error}", file=sys.stderr)
    except BrokenPipeError:
        sys.stdout = open("/dev/null", "w", encoding="utf-8")
    except OSError as error:
        print(f"split.py: {error.filename or options.out}: {error.strerror or error}", file=sys.stderr)
    except MemoryError:
        print("split.py: no memory", file=sys.stderr)
    return FAILED


if __name__ == "__main__":
    sys.exit(main(sys.argv[1:]))
