"""What keep.py knows of a feed's trips: which there are, when they run, and the service date that a message means."""

from __future__ import annotations

import json
from dataclasses import dataclass
from datetime import date, datetime, timedelta
from functools import lru_cache
from pathlib import Path
from typing import NamedTuple
from zoneinfo import ZoneInfo

from feeds import Feed, clock

HALF_A_DAY = timedelta(hours=12)


class Trip(NamedTuple):
    """A trip: its service, its first and last time in seconds of the service date, and whether it has a headway."""

    service: str
    begins: int
    ends: int
    headway: bool


@dataclass(frozen=True)
class Trips:
    """The trips of a feed by id, and the dates of each service."""

    trips: dict[str, Trip]
    services: dict[str, frozenset[date]]
    zone: ZoneInfo

    def date_of(self, trip: str, moment: int) -> date:
        """The service date of the run of a trip that is under way at a moment, or nearest to it. It is the moment's own date where
        the timetable does not know the trip: what `serve` takes for a date that is missing."""
        today = datetime.fromtimestamp(moment, self.zone).date()
        known = self.trips.get(trip)
        if known is None:
            return today
        dates = self.services.get(known.service, frozenset())
        near = [day for day in (today, today - timedelta(days=1), today + timedelta(days=1)) if day in dates]
        distances = {day: self._distance(known, day, moment) for day in near}
        return min(distances, key=distances.__getitem__, default=today)

    def _distance(self, trip: Trip, day: date, moment: int) -> float:
        """Seconds between a moment and the nearest moment of a run."""
        # Times count from noon less twelve hours.
        start = (datetime(day.year, day.month, day.day, 12, tzinfo=self.zone).timestamp()) - HALF_A_DAY.total_seconds()
        return max(start + trip.begins - moment, moment - start - trip.ends, 0.0)


def read_trips(feed: Feed, zone: ZoneInfo) -> Trips:
    """Reads the trips of a feed. One pass over each file."""
    read = lru_cache(maxsize=200_000)(clock)
    spans: dict[str, tuple[int, int]] = {}
    times = feed.table("stop_times.txt")
    if times is not None:
        for trip, arrival, departure in times.rows("trip_id", "arrival_time", "departure_time"):
            for seconds in (read(arrival), read(departure)):
                if seconds is not None:
                    least, most = spans.get(trip, (seconds, seconds))
                    spans[trip] = (min(least, seconds), max(most, seconds))
    starts = headway_spans(feed)
    trips: dict[str, Trip] = {}
    table = feed.table("trips.txt")
    if table is not None:
        for trip, service in table.rows("trip_id", "service_id"):
            begins, ends = spans.get(trip, (0, 0))
            if trip in starts:
                first, last = starts[trip]
                begins, ends = first, last + ends - begins
            trips[trip] = Trip(service, begins, ends, trip in starts)
    services = {service: frozenset(dates) for service, dates in feed.service_dates().items()}
    return Trips(trips, services, zone)


def headway_spans(feed: Feed) -> dict[str, tuple[int, int]]:
    """The first start and the end of the starts of each trip in frequencies.txt."""
    spans: dict[str, tuple[int, int]] = {}
    table = feed.table("frequencies.txt")
    if table is not None:
        for trip, begin, end in table.rows("trip_id", "start_time", "end_time"):
            first, last = clock(begin), clock(end)
            if first is not None and last is not None:
                least, most = spans.get(trip, (first, last))
                spans[trip] = (min(least, first), max(most, last))
    return spans


def save(trips: Trips, path: Path) -> None:
    """Keeps the trips beside the feed, so that a restart need not read stop_times.txt."""
    services = {service: [day.toordinal() for day in sorted(dates)] for service, dates in trips.services.items()}
    path.write_text(json.dumps({"trips": trips.trips, "services": services}))


def saved(path: Path, zone: ZoneInfo) -> Trips:
    """The trips that were kept. Raises OSError or ValueError where there are none."""
    table = json.loads(path.read_text())
    services = {service: frozenset(map(date.fromordinal, days)) for service, days in table["services"].items()}
    return Trips({trip: Trip(*fields) for trip, fields in table["trips"].items()}, services, zone)
