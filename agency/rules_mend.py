"""Mends a feed: writes one that `lc check` takes, and says each row that is changed or left out.

What is mended is what has one likely meaning. Where a file or a column is missing a person has to decide, and nothing is written. A trip
whose times cannot be mended is left out as a whole: none is published with times that somebody guessed.
"""

from __future__ import annotations

import csv
import re
import shutil
from dataclasses import dataclass, field
from pathlib import Path
from typing import Callable, Iterator

import feeds
from feeds import Feed, FeedError, Table, clock, day, number
from rules import NO_TIME, NOTHING, REQUIRED, Times, append_row, text_of

HALF_DAY = 43_200
DAY = 86_400
MOST_RAISED = 3_600  # A time that is earlier by more than so many seconds is no slip of a minute.
END_OF_TIMES = 360_000
UNLOOKED_CLOCK = re.compile(r"(\d{1,2}):(\d{1,2})(?::(\d{1,2}))?", re.ASCII)
UNLOOKED_NUMBER = re.compile(r"\+?(\d{1,10})(?:\.0*)?", re.ASCII)
UNLOOKED_DATE = re.compile(r"(\d{4})[-/.](\d{2})[-/.](\d{2})", re.ASCII)

# Says what was done: the code of the rule, the file, the row and the words.
Tell = Callable[[str, str, int, str], None]


class MendError(Exception):
    """Why a feed cannot be mended."""


@dataclass
class Plan:
    """How one file is written anew."""

    name: str
    table: Table
    tell: Tell
    columns: list[str]
    added: int = 0  # empty columns at the end
    dropped: set[int] = field(default_factory=set)
    changed: dict[int, dict[int, str]] = field(default_factory=dict)

    def place(self, column: str) -> int | None:
        return self.columns.index(column) if column in self.columns else None

    def is_new(self) -> bool:
        """Whether what is written differs from what was read."""
        renamed = self.columns != self.table.columns
        return bool(self.dropped or self.changed or renamed or self.table.utf8_fault is not None)

    def drop(self, row: int, code: str, why: str) -> None:
        self.dropped.add(row)
        self.tell(code, self.name, row, f"left out: {why}")

    def change(self, row: int, code: str, column: str, old: str, new: str) -> None:
        at = self.place(column)
        assert at is not None
        self.changed.setdefault(row, {})[at] = new
        self.tell(code, self.name, row, f"{column} {old!r} is written {new!r}")

    def records(self) -> Iterator[tuple[int, list[str]]]:
        """The rows that are not left out, with as many fields as there are columns and what was changed in them."""
        for row, record in enumerate(self.table.records(), 1):
            if row in self.dropped:
                continue
            even = self._even(record)
            for at, text in self.changed.get(row, {}).items():
                even[at] = text
            yield row, even

    def _even(self, record: list[str]) -> list[str]:
        width = len(self.columns)
        return (record + [""] * width)[:width]

    def drop_uneven(self) -> None:
        """Rule 5. Empty fields after the last column go. Fields may lack at the end where the program does not read them."""
        width = len(self.columns) - self.added
        needed = max((at for at in map(self.place, REQUIRED[self.name]) if at is not None and at < width), default=-1)
        for row, record in enumerate(self.table.records(), 1):
            if len(record) == width:
                continue
            if len(record) > width and not any(text.strip(" ") for text in record[width:]):
                self.changed.setdefault(row, {})
                self.tell("F5", self.name, row, f"{len(record) - width} empty fields after the last column go")
            elif needed < len(record) < width:
                self.changed.setdefault(row, {})
                self.tell("F5", self.name, row, f"{width - len(record)} fields that lack at the end are taken as empty")
            else:
                self.drop(row, "F5", f"it has {len(record)} fields, and the header {width}")


def plan_of(feed: Feed, name: str, needed: bool, tell: Tell) -> Plan | None:
    """The plan of a file whose rows can be told apart, none where it is absent and need not be there."""
    table = feed.table(name)
    if table is None:
        if needed:
            raise MendError(f"{name} is absent: add it (F1)")
        return None
    if not table.has_header:
        if needed:
            raise MendError(f"{name} has no header: add the row with the columns' names (F3)")
        tell("F3", name, 0, "left out: it has no header")
        return None
    if table.utf8_fault is not None:
        tell("F2", name, 0, f"line {table.utf8_fault} is not UTF-8: the file is read as Windows-1252, and written in UTF-8")
    plan = Plan(name, table, tell, list(table.columns))
    for column in REQUIRED[name]:
        if column not in plan.columns:
            add_column(plan, column)
    plan.drop_uneven()
    return plan


def add_column(plan: Plan, column: str) -> None:
    """Rule 4: a column that is written in another way is named; one of the two times of a row stands for both."""
    for at, name in enumerate(plan.columns):
        if name.strip(" \t\ufeff\"'").lower() == column and column not in plan.columns:
            plan.columns[at] = column
            plan.tell("F4", plan.name, 0, f"the column {name!r} is written {column!r}")
            return
    times = {"arrival_time": "departure_time", "departure_time": "arrival_time"}
    if times.get(column) in plan.columns:
        plan.columns.append(column)
        plan.added += 1
        plan.tell("F4", plan.name, 0, f"an empty column {column} is added: each row has its other time for both")
        return
    raise MendError(f"{plan.name} has no column {column}: add it (F4)")


def mend(feed: Feed, out: Path, tell: Tell) -> None:
    """Writes a mended feed into a directory that is made. Nothing is left of it where the feed cannot be mended."""
    if out.exists():
        raise FeedError(f"{out} is there already")
    plans = plans_of(feed, tell)
    part = out.with_name(out.name + ".part")
    shutil.rmtree(part, ignore_errors=True)
    try:
        part.mkdir(parents=True)
        for name in feed.names():
            plan = plans.get(name)
            if name in plans and plan is None:
                continue
            if plan is None or not plan.is_new():
                shutil.copyfile(feed.path(name), part / name)
            else:
                write(plan, part / name)
        part.rename(out)
    except OSError as error:
        raise FeedError(f"{out}: {error.strerror or error}") from None
    finally:
        shutil.rmtree(part, ignore_errors=True)


def write(plan: Plan, to: Path) -> None:
    with open(to, "w", encoding="utf-8", newline="") as file:
        writer = csv.writer(file, lineterminator="\n")
        writer.writerow(plan.columns)
        for _, record in plan.records():
            writer.writerow(record)


def plans_of(feed: Feed, tell: Tell) -> dict[str, Plan | None]:
    """How each file is written, none where it is left out."""
    stops = plan_of(feed, "stops.txt", True, tell)
    trips = plan_of(feed, "trips.txt", True, tell)
    times = plan_of(feed, "stop_times.txt", True, tell)
    calendar = plan_of(feed, "calendar.txt", feed.table("calendar_dates.txt") is None, tell)
    dates = plan_of(feed, "calendar_dates.txt", calendar is None, tell)
    frequencies = plan_of(feed, "frequencies.txt", False, tell)
    transfers = plan_of(feed, "transfers.txt", False, tell)
    assert stops is not None and trips is not None and times is not None
    stop_ids = mend_stops(stops)
    trip_rows = mend_trips(trips)
    if calendar is not None:
        mend_calendar(calendar)
    if dates is not None:
        mend_dates(dates)
    lost = {} if frequencies is None else mend_frequencies(frequencies, trip_rows)
    lost |= mend_stop_times(times, stop_ids, trip_rows, lost)
    for trip, why in lost.items():
        trips.drop(trip_rows[trip], *why)
    if frequencies is not None:
        drop_trips(frequencies, lost)
    if transfers is not None:
        mend_transfers(transfers, stop_ids)
    plans = (stops, trips, times, calendar, dates, frequencies, transfers)
    return {name: plan for name, plan in zip(feeds.FILES, plans) if feed.table(name) is not None}


# A trip that is left out, with the rule and why.
Lost = dict[str, tuple[str, str]]


def mend_stops(plan: Plan) -> set[str]:
    """The ids of the stops that stay."""
    at, parent_at = plan.place("stop_id") or 0, plan.place("parent_station")
    stops: set[str] = set()
    parents: list[tuple[int, str]] = []
    for row, record in plan.records():
        stop = record[at].strip(" ")
        if not stop:
            plan.drop(row, "F6", "stop_id is empty")
        elif stop in stops:
            plan.drop(row, "F7", f"stop_id {stop!r} comes a second time")
        else:
            stops.add(stop)
            if parent_at is not None and record[parent_at].strip(" "):
                parents.append((row, record[parent_at].strip(" ")))
    for row, parent in parents:
        if parent not in stops:
            plan.change(row, "F10", "parent_station", parent, "")
    return stops


def mend_trips(plan: Plan) -> dict[str, int]:
    """The row of each trip that stays."""
    at, service_at = plan.place("trip_id") or 0, plan.place("service_id") or 0
    rows: dict[str, int] = {}
    for row, record in plan.records():
        trip, service = record[at].strip(" "), record[service_at].strip(" ")
        if not trip or not service:
            plan.drop(row, "F6", f"{'service_id' if trip else 'trip_id'} is empty")
        elif trip in rows:
            plan.drop(row, "F7", f"trip_id {trip!r} comes a second time")
        else:
            rows[trip] = row
    return rows


def mended_date(plan: Plan, row: int, column: str, text: str) -> bool:
    """Whether the field is a date, once it is mended."""
    if day(text) is not None:
        return True
    found = UNLOOKED_DATE.fullmatch(text)
    if found is None or day("".join(found.groups())) is None:
        plan.drop(row, "F12", f"{column} {text!r} is no date")
        return False
    plan.change(row, "F12", column, text, "".join(found.groups()))
    return True


def mend_calendar(plan: Plan) -> None:
    at = {column: plan.place(column) or 0 for column in REQUIRED["calendar.txt"]}
    services: set[str] = set()
    for row, record in plan.records():
        service = record[at["service_id"]].strip(" ")
        if not service or service in services:
            plan.drop(row, *(("F7", f"service_id {service!r} comes a second time") if service else ("F6", "service_id is empty")))
        elif all(mended_date(plan, row, column, record[at[column]].strip(" ")) for column in ("start_date", "end_date")):
            services.add(service)
            for weekday in feeds.WEEKDAYS:
                text = record[at[weekday]].strip(" ")
                if text not in ("0", "1"):
                    plan.change(row, "F11", weekday, text, "0")


def mend_dates(plan: Plan) -> None:
    at, date_at, kind_at = (plan.place(column) or 0 for column in REQUIRED["calendar_dates.txt"])
    seen: set[tuple[str, str]] = set()
    for row, record in plan.records():
        service, when, kind = record[at].strip(" "), record[date_at].strip(" "), record[kind_at].strip(" ")
        if not service:
            plan.drop(row, "F6", "service_id is empty")
        elif kind not in ("1", "2"):
            plan.drop(row, "F11", f"exception_type is {kind!r}, neither 1 nor 2")
        elif mended_date(plan, row, "date", when):
            when = plan.changed.get(row, {}).get(date_at, when)
            if (service, when) in seen:
                plan.drop(row, "F7", f"service_id {service!r} has the date {when} a second time")
            seen.add((service, when))


def mended_clock(text: str) -> str | None:
    """A time that lacks its seconds or a zero, as it has to be written."""
    found = UNLOOKED_CLOCK.fullmatch(text.strip())
    if found is None:
        return None
    written = ":".join(f"{int(part or 0):02}" for part in found.groups())
    return written if clock(written) is not None else None


def mended_number(text: str) -> str | None:
    """A number with a sign or a point behind it, as it has to be written."""
    found = UNLOOKED_NUMBER.fullmatch(text.strip())
    return found[1] if found is not None and number(found[1]) is not None else None


def mend_frequencies(plan: Plan, trips: dict[str, int]) -> Lost:
    """The trips that are left out, since none of their rows can be read: they would run once, when no row says so."""
    at, begin_at, end_at, headway_at = (plan.place(column) or 0 for column in REQUIRED["frequencies.txt"])
    kept: set[str] = set()
    refused: dict[str, str] = {}
    for row, record in plan.records():
        trip = record[at].strip(" ")
        if not trip:
            plan.drop(row, "F6", "trip_id is empty")
            continue
        if trip not in trips:
            plan.drop(row, "F9", f"trip_id {trip!r} is not in trips.txt")
            continue
        why = ""
        for column, place in (("start_time", begin_at), ("end_time", end_at), ("headway_secs", headway_at)):
            why = why or mend_field(plan, row, column, record[place].strip(" "))
        if why:
            plan.drop(row, "F11" if why.startswith("headway") else "F12", why)
            refused[trip] = why
        else:
            kept.add(trip)
    return {trip: ("F11" if why.startswith("headway") else "F12", f"its rows of frequencies.txt are: {why}") for trip, why in refused.items() if trip not in kept}


def mend_field(plan: Plan, row: int, column: str, text: str) -> str:
    """What is wrong with a field that cannot be mended, and nothing where it can be read."""
    if column == "headway_secs":
        good, mended, code, kind = bool(number(text)), mended_number(text), "F11", "number from 1 on"
        mended = mended if mended and number(mended) else None
    else:
        good, mended, code, kind = clock(text) is not None, mended_clock(text), "F12", "time"
    if good:
        return ""
    if mended is None:
        return f"{column} {text!r} is no {kind}"
    plan.change(row, code, column, text, mended)
    return ""


def drop_trips(plan: Plan, lost: Lost) -> None:
    """Leaves out the rows of frequencies.txt of trips that are left out."""
    at = plan.place("trip_id") or 0
    for row, record in plan.records():
        trip = record[at].strip(" ")
        if trip in lost:
            plan.drop(row, lost[trip][0], f"the trip {trip!r} is left out")


def mend_transfers(plan: Plan, stops: set[str]) -> None:
    begin_at, end_at = (plan.place(column) or 0 for column in REQUIRED["transfers.txt"])
    some = [at for column in ("from_route_id", "to_route_id", "from_trip_id", "to_trip_id") if (at := plan.place(column)) is not None]
    for row, record in plan.records():
        numbers = {}
        for column in ("transfer_type", "min_transfer_time"):
            at = plan.place(column)
            text = "" if at is None else record[at].strip(" ")
            mended = mended_number(text)
            if text and number(text) is None and mended is not None:
                plan.change(row, "F11", column, text, mended)
                text = mended
            numbers[column] = text
        wrong = next((column for column, text in numbers.items() if text and number(text) is None), None)
        if wrong is not None:
            plan.drop(row, "F11", f"{wrong} {numbers[wrong]!r} is no number")
            continue
        begin, end, kind = record[begin_at].strip(" "), record[end_at].strip(" "), number(numbers["transfer_type"]) or 0
        passed = kind > 3 or not begin or not end or any(record[at].strip(" ") for at in some)
        stray = next((stop for stop in (begin, end) if stop not in stops), None)
        if not passed and stray is not None:
            plan.drop(row, "F8", f"stop_id {stray!r} is not in stops.txt")


def mend_stop_times(plan: Plan, stops: set[str], trips: dict[str, int], lost: Lost) -> Lost:
    """The trips that are left out, since their times cannot be mended. Their rows are left out, and those of the trips given."""
    names = list(trips)
    times = read_rows(plan, stops, {name: place for place, name in enumerate(names)})
    found: Lost = {}
    for trip, name in enumerate(names):
        why = lost.get(name) or mend_trip(plan, times, trip)
        if why is not None:
            rows = [place + 1 for place in times.places_of(trip)]
            plan.dropped.update(rows)
            found[name] = (why[0], f"the trip {name!r}{spans(rows)}: {why[1]}")
    return found


def spans(rows: list[int]) -> str:
    """Rows in words, as stretches."""
    parts: list[list[int]] = []
    for row in sorted(rows):
        if parts and row == parts[-1][1] + 1:
            parts[-1][1] = row
        else:
            parts.append([row, row])
    said = ", ".join(f"{first}" if first == last else f"{first} to {last}" for first, last in parts)
    return f" with the rows {said} of stop_times.txt" if said else ""


def read_rows(plan: Plan, stops: set[str], trips: dict[str, int]) -> Times:
    """Mends each row by itself, and gives what is left of all of them."""
    at, stop_at, sequence_at, arrival_at, departure_at = (plan.place(name) or 0 for name in REQUIRED["stop_times.txt"])
    times = Times(len(trips))
    for row, record in plan.records():
        while len(times.trip) < row - 1:
            append_row(times, NOTHING, NOTHING, -1, NO_TIME, NO_TIME)
        trip_text, stop_text = record[at].strip(" "), record[stop_at].strip(" ")
        trip = trips.get(trip_text, NOTHING)
        sequence = mended_sequence(plan, row, record[sequence_at].strip(" "))
        code, why = wrong_row(trip_text, trip, stop_text, stops, record[sequence_at].strip(" "), sequence)
        if code:
            plan.drop(row, code, why)
            append_row(times, NOTHING, NOTHING, -1, NO_TIME, NO_TIME)
            continue
        if stop_text:
            arrival = mended_time(plan, row, "arrival_time", record[arrival_at].strip(" "))
            departure = mended_time(plan, row, "departure_time", record[departure_at].strip(" "))
        else:
            arrival = departure = NO_TIME
            times.stopless.add(trip)
        note_trip(times, trip, len(times.trip), sequence)
        append_row(times, trip, 0, sequence, arrival, departure)
    times.arrange()
    return times


def note_trip(times: Times, trip: int, place: int, sequence: int) -> None:
    """Notes where the rows of a trip begin, and whether they are together and in order."""
    if not times.count[trip]:
        times.begin[trip] = place
    else:
        before = times.begin[trip] + times.count[trip] - 1
        if times.together and before != place - 1:
            times.together = False
        if not times.together or sequence <= times.sequence[before]:
            times.mixed.add(trip)
    times.count[trip] += 1


def wrong_row(trip: str, place: int, stop: str, stops: set[str], sequence_text: str, sequence: int) -> tuple[str, str]:
    if not trip:
        return "F6", "trip_id is empty"
    if stop and stop not in stops:
        return "F8", f"stop_id {stop!r} is not in stops.txt"
    if place == NOTHING:
        return "F9", f"trip_id {trip!r} is not in trips.txt"
    if sequence < 0:
        return "F11", f"stop_sequence {sequence_text!r} is no number"
    return "", ""


def mended_sequence(plan: Plan, row: int, text: str) -> int:
    value = number(text)
    if value is None:
        mended = mended_number(text)
        if mended is None:
            return -1
        plan.change(row, "F11", "stop_sequence", text, mended)
        value = number(mended) or 0
    return value


def mended_time(plan: Plan, row: int, column: str, text: str) -> int:
    """The seconds of a time, once it is mended. One that cannot be read is emptied: the times beside it say when."""
    if not text:
        return NO_TIME
    seconds = clock(text)
    if seconds is None:
        mended = mended_clock(text)
        plan.change(row, "F12", column, text, mended or "")
        seconds = None if mended is None else clock(mended)
    return NO_TIME if seconds is None else seconds


def mend_trip(plan: Plan, times: Times, trip: int) -> tuple[str, str] | None:
    """Mends the rows of a trip together. Why the trip is left out, if it is."""
    places = list(times.places_of(trip))
    count = len(places)
    places = drop_seconds(plan, times, places)
    if trip in times.stopless:
        return None
    for end in (0, -1):
        while places and times.arrival[places[end]] == times.departure[places[end]] == NO_TIME:
            plan.drop(places.pop(end) + 1, "F13", f"the {'first' if end == 0 else 'last'} row of the trip has neither time")
    if len(places) < 2 and len(places) < count:
        return "F13", "fewer than two rows are left of it"
    return raise_times(plan, times, places)


def drop_seconds(plan: Plan, times: Times, places: list[int]) -> list[int]:
    """Leaves out the rows whose sequence comes a second time."""
    kept: list[int] = []
    for place in places:
        if kept and times.sequence[kept[-1]] == times.sequence[place]:
            plan.drop(place + 1, "F7", f"stop_sequence {times.sequence[place]} comes a second time")
        else:
            kept.append(place)
    return kept


def raise_times(plan: Plan, times: Times, places: list[int]) -> tuple[str, str] | None:
    """Rule 14. Times that begin anew at midnight get 24 hours more; one that is a little early takes the time before it, as the
    program does with a message. Why the trip is left out, if its times fall otherwise."""
    raised: list[tuple[int, str, int, int]] = []
    before = 0
    for place in places:
        both = (("arrival_time", times.arrival[place]), ("departure_time", times.departure[place]))
        for column, old in both:
            if old == NO_TIME:
                continue
            new = old
            while before - new >= HALF_DAY:
                new += DAY
            if before - new > MOST_RAISED or new >= END_OF_TIMES:
                return "F14", f"in row {place + 1} {text_of(old)} is earlier than {text_of(before)} before it"
            new = max(new, before)
            if new != old:
                raised.append((place + 1, column, old, new))
            before = new
    for row, column, old, new in raised:
        plan.change(row, "F14", column, text_of(old), text_of(new))
    return None
