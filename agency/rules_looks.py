"""What looks wrong in a feed that the program takes all the same. Each has a code of letter W."""

from __future__ import annotations

import re
from datetime import date
from pathlib import Path

import feeds
from feeds import Feed
from rules import Report, Scope, Stops, Tables, Trips

ZONES = Path("/usr/share/zoneinfo")
UTC_NAMES = ("UTC", "Etc/UTC", "Etc/UCT", "Etc/Universal", "Etc/Zulu", "GMT", "Etc/GMT", "Zulu", "Universal", "UCT")

# A rule as in the variable TZ, with the hours of RFC 9636.
NAME = r"(?:[A-Za-z]{3,}|<[A-Za-z0-9+-]{3,}>)"
HOURS = r"[+-]?\d{1,3}(?::\d{1,2}(?::\d{1,2})?)?"
CHANGE = rf"(?:M\d{{1,2}}\.\d\.\d|J?\d{{1,3}})(?:/{HOURS})?"
RULE = re.compile(rf"{NAME}{HOURS}(?:{NAME}(?:{HOURS})?,{CHANGE},{CHANGE})?", re.ASCII)


def look(feed: Feed, report: Report, scope: Scope, tables: Tables) -> None:
    """Adds what looks wrong. Linear in the rows."""
    look_at_zone(feed, report, scope)
    look_at_stops(feed, report, tables)
    look_at_trips(report, tables)
    look_at_dates(feed, report, scope, tables.trips)


def judge_zone(report: Report, word: str | None) -> None:
    """Rule 15: the value of --zone says no zone."""
    if word is None or word == "utc":
        return
    says = ""
    if word.startswith("file:"):
        try:
            if not is_zone_file(Path(word[5:]).read_bytes()):
                says = f"{word[5:]!r} is no zone file"
        except (OSError, ValueError) as error:
            says = f"{word[5:]!r} cannot be read: {getattr(error, 'strerror', None) or error}"
    elif not (word.startswith("posix:") and RULE.fullmatch(word[6:])):
        says = f"{word!r} is no zone"
    if says:
        report.refuse("F15", "--zone", 0, says, line=f"error feed F15 {word} row 0")


def is_zone_file(text: bytes) -> bool:
    return text[:4] == b"TZif" and len(text) >= 44


def look_at_zone(feed: Feed, report: Report, scope: Scope) -> None:
    zones = feed.zones()
    if not zones:
        report.warn("W6", "agency.txt", 0, "no agency_timezone says in which zone the times are", "add the file with the zone")
        return
    if len(zones) > 1:
        says = f"agencies have several zones, and times are taken to be of one: {', '.join(zones)}"
        report.warn("W6", "agency.txt", 0, says, "write the times in one zone, or make a feed of each")
    if scope.zone is not None and not any(is_same_zone(scope.zone, zone) for zone in zones):
        says = f"agency_timezone is {zones[0]}, and --zone is {scope.zone}"
        report.warn("W6", "agency.txt", 0, says, f"use --zone file:{ZONES}/{zones[0]}")


def is_same_zone(word: str, zone: str) -> bool:
    """Whether the value of --zone and an agency_timezone say one clock: by their names, their files or the rule for times to come."""
    if word == "utc":
        return zone in UTC_NAMES
    if word == f"file:{ZONES / zone}":
        return True
    theirs = zone_bytes(ZONES / zone)
    if theirs is None:
        return False
    if word.startswith("file:"):
        return zone_bytes(Path(word[5:])) == theirs
    return theirs.rstrip(b"\n").rpartition(b"\n")[2].decode("ascii", "replace") == word.removeprefix("posix:")


def zone_bytes(path: Path) -> bytes | None:
    try:
        return path.read_bytes()
    except (OSError, ValueError):
        return None


def look_at_stops(feed: Feed, report: Report, tables: Tables) -> None:
    """Stops without rows, and those that a map cannot show."""
    stops = tables.stops
    if tables.times.trip:
        used = bytearray(len(stops.parents))
        for place in tables.times.stop:
            if place >= 0:
                used[place] = 1
        stations = set(stops.parents)
        for (name, place), row in zip(stops.places.items(), stops.rows):
            if not used[place] and stops.plain[place] and name not in stations:
                report.warn("W3", "stops.txt", row, f"no row of stop_times.txt names the stop {name!r}", "remove it, or add the rows")
    look_at_places(feed, report, stops)


def look_at_places(feed: Feed, report: Report, stops: Stops) -> None:
    table = feed.table("stops.txt")
    if table is None or not stops.is_read or table.place("stop_lat") is None or table.place("stop_lon") is None:
        return
    width = len(table.columns)
    at = [table.place(column) for column in ("stop_id", "stop_lat", "stop_lon", "location_type")]
    for row, record in enumerate(table.records(), 1):
        if len(record) != width:
            continue
        stop, north, east, kind = ("" if place is None else record[place].strip(" ") for place in at)
        # Nodes and boarding areas of a station need no place of their own.
        if kind not in ("3", "4") and not is_place(north, east):
            report.warn("W10", "stops.txt", row, f"the stop {stop!r} is at {north!r}, {east!r}", "write where it is, in degrees")


def is_place(north: str, east: str) -> bool:
    try:
        y, x = float(north), float(east)
    except ValueError:
        return False
    return -90 <= y <= 90 and -180 <= x <= 180 and (abs(y) > 0.01 or abs(x) > 0.01)


def look_at_trips(report: Report, tables: Tables) -> None:
    """Trips that are left out, and trips without a connection."""
    times, trips = tables.times, tables.trips
    if not times.trip:
        return
    for (name, place), row in zip(trips.places.items(), trips.rows):
        if place in times.stopless:
            says = f"the trip {name!r} is left out: one of its rows in stop_times.txt names no stop"
            report.warn("W2", "trips.txt", row, says, "fill stop_id; zones and groups of stops are not read")
        elif times.count[place] < 2:
            rows = "one row" if times.count[place] else "no rows"
            report.warn("W1", "trips.txt", row, f"the trip {name!r} has {rows} in stop_times.txt", "add its rows, or remove it")


def look_at_dates(feed: Feed, report: Report, scope: Scope, trips: Trips) -> None:
    """Services without dates, and dates outside the window."""
    calendars = [name for name in ("calendar.txt", "calendar_dates.txt") if feed.table(name) is not None]
    if not calendars or not trips.is_read:
        return
    dates = feed.service_dates()
    idle: dict[str, list[int]] = {}
    for service, row in zip(trips.services, trips.rows):
        if service and service not in dates:
            idle.setdefault(service, []).append(row)
    for service, rows in idle.items():
        says = f"the service {service!r}, of {len(rows)} trips from here on, runs on no date"
        report.warn("W4", "trips.txt", rows[0], says, "add it to calendar.txt or calendar_dates.txt, or mend the id")
    every = [when for found in dates.values() for when in (found[0], found[-1])]
    if every:
        look_at_window(report, scope.begin(feed), scope.days, min(every), max(every), calendars[0])
    else:
        report.warn("W5", calendars[0], 0, "no service runs on any date", "add dates")


def look_at_window(report: Report, first: date, days: int, begin: date, end: date, file: str) -> None:
    last = feeds.clamped(first, days - 1)
    has = f"the window is from {first:%Y%m%d} to {last:%Y%m%d}, and the feed has dates from {begin:%Y%m%d} to {end:%Y%m%d}"
    if end < first or begin > last:
        report.warn("W5", file, 0, f"{has}: nothing runs", "take a newer feed, or another first date")
    elif end < last:
        report.warn("W5", file, 0, f"{has}: the last days are empty", "take a newer feed, or fewer days")


