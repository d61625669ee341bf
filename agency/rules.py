"""The rules of a feed (docs/USAGE.md, "What is refused" and "Limits"), all that a feed breaks, in the order in which `lc check` looks.

`check` ends at the first rule that is broken. Here reading goes on: a row that breaks one rule is held against the others too, and a file
that cannot be read does not make the rows of others suspect. The first finding is the one that `check` names.
"""

from __future__ import annotations

from array import array
from dataclasses import dataclass, field
from datetime import date, datetime, timedelta, timezone
from typing import Iterable, Iterator
from zoneinfo import ZoneInfo

import feeds
from feeds import Feed, Table, clock, day, number

REQUIRED = {
    "stops.txt": ("stop_id",),
    "trips.txt": ("trip_id", "service_id"),
    "stop_times.txt": ("trip_id", "stop_id", "stop_sequence", "arrival_time", "departure_time"),
    "calendar.txt": ("service_id", *feeds.WEEKDAYS, "start_date", "end_date"),
    "calendar_dates.txt": ("service_id", "date", "exception_type"),
    "frequencies.txt": ("trip_id", "start_time", "end_time", "headway_secs"),
    "transfers.txt": ("from_stop_id", "to_stop_id"),
}
MOST_ROWS = {"stops.txt": ("stops", 100_000), "trips.txt": ("trips", 500_000), "stop_times.txt": ("stop times", 8_000_000)}
MOST_CONNECTIONS = 4_000_000
MOST_BARE_RUNS = 4_000_000
MOST_CHANGES = 1_000_000
MOST_STARTS = 360_000  # in a service day

# How to mend what breaks a rule.
MENDS = {
    "F1": "add the file",
    "F2": "convert it, as by iconv -t UTF-8",
    "F3": "add the first row with the columns' names",
    "F4": "add the column; names are compared exactly",
    "F5": "look for a missing quote or comma in that row",
    "F6": "fill it",
    "F7": "remove or rename one; 1 and 01 are one sequence",
    "F8": "add the stop, or mend the id",
    "F9": "add the trip, or remove the row",
    "F10": "add the station, or empty the field",
    "F11": "write one to ten digits, without a sign",
    "F12": "write HH:MM:SS, and YYYYMMDD of a day that exists",
    "F13": "add the time",
    "F14": "mend the times, or the sequences; times after midnight are 24:00:00 and more",
    "F15": "use utc, posix:RULE, or file:NAME of a zone file",
    "limit": "ask for fewer days, or part the feed by agency/split.py",
    "size": "leave out what is not needed: the program reads 1 GiB of a file",
}

# The parts of a file, in the order in which `check` looks at them.
WHOLE, RAGGED, LIMIT, ROWS, TRIPS = range(5)
NO_TIME, NO_CLOCK = -1, -2  # an empty time, and one that cannot be read
NOTHING, UNKNOWN = -1, -2  # an empty id, and one that is in no other file


@dataclass(frozen=True)
class Scope:
    """For which window a feed is judged, as `check` takes it, and how many findings of one kind are kept with their texts."""

    first: date | None = None
    days: int = 7
    zone: str | None = None
    most: int = 10

    def begin(self, feed: Feed) -> date:
        """The first date: yesterday in the feed's zone where none is given."""
        return self.first if self.first is not None else yesterday(feed)


def yesterday(feed: Feed) -> date:
    zones = feed.zones()
    try:
        zone = ZoneInfo(zones[0]) if zones else timezone.utc
    except (OSError, ValueError):
        zone = timezone.utc
    return datetime.now(zone).date() - timedelta(days=1)


@dataclass(frozen=True)
class Finding:
    """What is wrong in a row, counted from 1 after the header, or in a file as a whole (row 0)."""

    code: str
    file: str
    row: int
    says: str
    mend: str


@dataclass
class Group:
    """All findings of one code in one file: how many, and the first of them."""

    count: int = 0
    kept: list[tuple[tuple[int, int, int, int], Finding]] = field(default_factory=list)


@dataclass
class Report:
    """What was found. Codes of letter W look wrong, and `check` takes them; all others it refuses."""

    most: int
    groups: dict[tuple[str, str], Group] = field(default_factory=dict)
    _first: tuple[tuple[int, int, int, int], str] | None = None

    def refuse(
        self, code: str, file: str, row: int, says: str, part: int = ROWS, at: int | None = None, line: str = "", mend: str = ""
    ) -> None:
        """Adds what `check` refuses. `at` is the place within the part where it is not the row, and `line` what `check` prints."""
        place = (order_of(file), part, row if at is None else at, int(code[1:]) if code[1:].isdigit() else 0)
        if self._first is None or place < self._first[0]:
            self._first = (place, line or f"error feed {code} {file} row {row}")
        self._add(place, Finding(code, file, row, says, mend or MENDS[code]))

    def warn(self, code: str, file: str, row: int, says: str, mend: str) -> None:
        """Adds what looks wrong."""
        self._add((order_of(file), ROWS, row, 100), Finding(code, file, row, says, mend))

    def _add(self, place: tuple[int, int, int, int], finding: Finding) -> None:
        group = self.groups.setdefault((finding.code, finding.file), Group())
        group.count += 1
        if len(group.kept) < self.most:
            group.kept.append((place, finding))

    @property
    def first(self) -> str | None:
        """The line that `check` prints, none where it takes the feed."""
        return None if self._first is None else self._first[1]

    @property
    def refused(self) -> int:
        return sum(group.count for (code, _), group in self.groups.items() if not code.startswith("W"))

    @property
    def warnings(self) -> int:
        return sum(group.count for (code, _), group in self.groups.items() if code.startswith("W"))

    @property
    def findings(self) -> list[Finding]:
        """The findings that were kept, first what is refused, each in the order in which `check` looks."""
        kept = [pair for group in self.groups.values() for pair in group.kept]
        kept.sort(key=lambda pair: (pair[1].code.startswith("W"), pair[0]))
        return [finding for _, finding in kept]


def order_of(file: str) -> int:
    """The place of a file in the order of reading. The value of --zone comes before all files, and what is made of them after."""
    if file in feeds.FILES:
        return feeds.FILES.index(file)
    return {"--zone": -1, "connections": 7, "runs": 8, "changes": 9}.get(file, 10)


@dataclass
class Stops:
    """The stops of stops.txt: the place of each id among them, and of each its parent and whether its row is one where vehicles stop."""

    places: dict[str, int] = field(default_factory=dict)
    parents: list[str] = field(default_factory=list)
    rows: array[int] = field(default_factory=lambda: array("i"))
    plain: bytearray = field(default_factory=bytearray)
    uneven: set[str] = field(default_factory=set)  # ids in rows that break rule 5
    is_read: bool = False

    def lacks(self, stop: str) -> bool:
        """Whether an id is unknown. None is where stops.txt cannot be read."""
        return self.is_read and stop not in self.places and stop not in self.uneven


@dataclass
class Trips:
    """The trips of trips.txt, in its order: the place of each id among them, and of each its service and its row."""

    places: dict[str, int] = field(default_factory=dict)
    services: list[str] = field(default_factory=list)
    rows: array[int] = field(default_factory=lambda: array("i"))
    uneven: set[str] = field(default_factory=set)  # ids in rows that break rule 5
    is_read: bool = False

    def lacks(self, trip: str) -> bool:
        """Whether an id is unknown. None is where trips.txt cannot be read."""
        return self.is_read and trip not in self.places and trip not in self.uneven


class Times:
    """The rows of stop_times.txt as numbers, one of each array for a row. Trips that trips.txt does not have come after its own."""

    def __init__(self, known: int) -> None:
        self.known = known
        self.trip = array("i")
        self.stop = array("i")
        self.sequence = array("q")
        self.arrival = array("i")
        self.departure = array("i")
        self.begin = array("i", [0]) * known  # of each trip, where its rows begin
        self.count = array("i", [0]) * known  # and how many there are
        self.together = True  # whether the rows of each trip are side by side
        self.mixed: set[int] = set()  # trips whose rows are not by rising sequence
        self.stopless: set[int] = set()  # trips of which a row names no stop
        self._order: array[int] | None = None

    def places_of(self, trip: int) -> Iterable[int]:
        """The places of the rows of a trip, by sequence; of equal ones in the order of the file."""
        begin, count = self.begin[trip], self.count[trip]
        if self.together:
            places: Iterable[int] = range(begin, begin + count)
        else:
            places = self._by_trip()[begin : begin + count]
        return sorted(places, key=self.sequence.__getitem__) if trip in self.mixed else places

    def _by_trip(self) -> array[int]:
        # Rows of one trip are not side by side: they are counted, and then laid by trip. Linear in the rows.
        if self._order is None:
            following = array("i", [0]) * len(self.count)
            total = 0
            for trip, count in enumerate(self.count):
                self.begin[trip] = following[trip] = total
                total += count
            self._order = array("i", [0]) * total
            for place, trip in enumerate(self.trip):
                if trip >= 0:
                    self._order[following[trip]] = place
                    following[trip] += 1
        return self._order

    def arrange(self) -> None:
        """Has `begin` right where the rows of a trip are scattered."""
        if not self.together:
            self._by_trip()

    def trips(self) -> Iterator[int]:
        """The trips of trips.txt, in its order, that are not left out."""
        return (trip for trip in range(self.known) if trip not in self.stopless)


@dataclass
class Frequency:
    """A row of frequencies.txt that can be read."""

    begin: int
    end: int
    headway: int

    def starts(self) -> range:
        return range(self.begin, max(self.begin, self.end), self.headway)


@dataclass
class Transfer:
    """A row of transfers.txt that is not passed over."""

    begin: str
    end: str
    kind: int
    seconds: int | None


@dataclass
class Tables:
    """What the files of a feed say, as far as they can be read."""

    stops: Stops
    trips: Trips
    times: Times
    frequencies: dict[int, list[Frequency]]
    transfers: list[Transfer]


def judge_tables(feed: Feed, report: Report) -> Tables:
    """What the files say, each held against the rules 1 to 14 and the limits on rows. Linear in the bytes, but for a sort of rows that
    are out of order."""
    stops = judge_stops(feed, report)
    trips = judge_trips(feed, report)
    times = judge_stop_times(feed, report, stops, trips)
    has_calendar = judge_calendar(feed, report)
    judge_dates(feed, report, has_calendar)
    frequencies = judge_frequencies(feed, report, trips)
    transfers = judge_transfers(feed, report, stops)
    return Tables(stops, trips, times, frequencies, transfers)


def sound_table(feed: Feed, report: Report, name: str, needed: bool) -> Table | None:
    """The file, if its rows can be told apart: rules 1 to 4."""
    table = feed.table(name)
    if table is None:
        if needed:
            report.refuse("F1", name, 0, "the file is absent", WHOLE)
        return None
    if feeds.is_too_long(table.path):
        report.refuse("size", name, 0, "the file has more than 1 GiB", WHOLE, -1, "error folder")
    if table.utf8_fault is not None:
        report.refuse("F2", name, 0, f"line {table.utf8_fault} is not UTF-8", WHOLE)
    if not table.has_header:
        report.refuse("F3", name, 0, "the file has no header", WHOLE)
        return None
    missing = [column for column in REQUIRED[name] if table.place(column) is None]
    for column in missing:
        report.refuse("F4", name, 0, f"the column {column} is missing", WHOLE)
    for column in sorted({column for column in table.columns if table.columns.count(column) > 1}):
        report.warn("W12", name, 0, f"several columns have the name {column!r}", "the first of them is read: remove the others")
    return None if missing else table


def even_rows(table: Table, report: Report, name: str, at: int = 0, uneven: set[str] | None = None) -> Iterator[tuple[int, list[str]]]:
    """The rows with as many fields as the header, counted from 1. The others break rule 5, and the ids that stand in them are noted:
    they count as known, so that one missing comma is one finding. The limit on rows comes last."""
    width = len(table.columns)
    row = 0
    for record in table.records():
        row += 1
        if len(record) == width:
            yield row, record
        else:
            report.refuse("F5", name, row, f"the row has {len(record)} fields, and the header {width}", RAGGED)
            if uneven is not None and len(record) > at:
                uneven.add(record[at].strip(" "))
    what, most = MOST_ROWS.get(name, ("", row))
    if row > most:
        says = f"the file has {row} rows, and {most} are read"
        report.refuse("limit", name, 0, says, LIMIT, row, f"error too large {what} {row}")


def judge_stops(feed: Feed, report: Report) -> Stops:
    stops = Stops()
    table = sound_table(feed, report, "stops.txt", True)
    if table is None:
        return stops
    stops.is_read = True
    at, parent_at, kind_at = table.place("stop_id") or 0, table.place("parent_station"), table.place("location_type")
    parents: list[tuple[int, str]] = []
    for row, record in even_rows(table, report, "stops.txt", at, stops.uneven):
        stop = record[at].strip(" ")
        parent = "" if parent_at is None else record[parent_at].strip(" ")
        if not stop:
            report.refuse("F6", "stops.txt", row, "stop_id is empty")
        elif stop in stops.places:
            report.refuse("F7", "stops.txt", row, f"stop_id {stop!r} comes a second time")
        else:
            stops.places[stop] = len(stops.parents)
            stops.parents.append(parent)
            stops.rows.append(row)
            stops.plain.append(kind_at is None or record[kind_at].strip(" ") in ("", "0"))
        if parent:
            parents.append((row, parent))
    for row, parent in parents:
        if stops.lacks(parent):
            report.refuse("F10", "stops.txt", row, f"parent_station {parent!r} is no stop_id of the file")
    return stops


def judge_trips(feed: Feed, report: Report) -> Trips:
    trips = Trips()
    table = sound_table(feed, report, "trips.txt", True)
    if table is None:
        return trips
    trips.is_read = True
    at, service_at = table.place("trip_id") or 0, table.place("service_id") or 0
    for row, record in even_rows(table, report, "trips.txt", at, trips.uneven):
        trip, service = record[at].strip(" "), record[service_at].strip(" ")
        if not trip or not service:
            report.refuse("F6", "trips.txt", row, f"{'service_id' if trip else 'trip_id'} is empty")
        if trip in trips.places:
            report.refuse("F7", "trips.txt", row, f"trip_id {trip!r} comes a second time")
        elif trip:
            trips.places[trip] = len(trips.services)
            trips.services.append(service)
            trips.rows.append(row)
    return trips


def judge_stop_times(feed: Feed, report: Report, stops: Stops, trips: Trips) -> Times:
    times = Times(len(trips.services))
    table = sound_table(feed, report, "stop_times.txt", True)
    if table is None:
        return times
    strangers = read_stop_times(table, report, stops, trips, times)
    times.arrange()
    judge_second_rows(report, trips, times, strangers)
    for trip in times.trips():
        judge_timing(report, times, trip)
    return times


def read_stop_times(table: Table, report: Report, stops: Stops, trips: Trips, times: Times) -> dict[str, int]:
    """Reads all rows, and holds each against the rules 6, 8, 9, 11 and 12. What there is of trips that are in no trips.txt."""
    at, stop_at, sequence_at, arrival_at, departure_at = (table.place(name) or 0 for name in REQUIRED["stop_times.txt"])
    clocks: dict[str, int] = {"": NO_TIME}
    numbers: dict[str, int] = {}
    strangers: dict[str, int] = {}
    stop_places, trip_places = stops.places, trips.places
    begin, count = times.begin, times.count
    last, trip, stray, sequence_before = "", NOTHING, False, -1
    name = "stop_times.txt"

    def read_clock(text: str) -> int:
        seconds = clock(text)
        clocks[text] = value = NO_CLOCK if seconds is None else seconds
        return value

    def read_number(text: str) -> int:
        value = number(text)
        numbers[text] = value = -1 if value is None else value
        return value

    for row, record in even_rows(table, report, name):
        place = len(times.trip)
        while place < row - 1:
            # A row that breaks rule 5 has its place all the same, so that places and rows go together.
            append_row(times, NOTHING, NOTHING, -1, NO_TIME, NO_TIME)
            place += 1
        text = record[at].strip(" ")
        if text != last:
            last, sequence_before = text, -1
            trip = trip_places.get(text, NOTHING)
            stray = trip == NOTHING and text != "" and trips.lacks(text)
            if trip == NOTHING and text:
                trip = strangers.setdefault(text, len(count))
                if trip == len(count):
                    begin.append(0)
                    count.append(0)
            if trip >= 0:
                if count[trip]:
                    times.together = False
                    times.mixed.add(trip)
                else:
                    begin[trip] = place
        if trip == NOTHING:
            report.refuse("F6", name, row, "trip_id is empty")
        else:
            count[trip] += 1
            if stray:
                report.refuse("F9", name, row, f"trip_id {text!r} is not in trips.txt")
        stop_text = record[stop_at].strip(" ")
        stop = NOTHING
        if stop_text:
            stop = stop_places.get(stop_text, UNKNOWN)
            if stop == UNKNOWN and stops.lacks(stop_text):
                report.refuse("F8", name, row, f"stop_id {stop_text!r} is not in stops.txt")
        elif trip >= 0:
            times.stopless.add(trip)
        sequence_text = record[sequence_at].strip(" ")
        sequence = numbers.get(sequence_text)
        if sequence is None:
            sequence = read_number(sequence_text)
        if sequence < 0:
            report.refuse("F11", name, row, f"stop_sequence {sequence_text!r} is no number")
        if sequence <= sequence_before and trip >= 0:
            times.mixed.add(trip)
        sequence_before = sequence
        arrival_text, departure_text = record[arrival_at].strip(" "), record[departure_at].strip(" ")
        arrival = clocks.get(arrival_text)
        if arrival is None:
            arrival = read_clock(arrival_text)
        departure = clocks.get(departure_text)
        if departure is None:
            departure = read_clock(departure_text)
        if stop_text and (arrival == NO_CLOCK or departure == NO_CLOCK):
            wrong = f"arrival_time {arrival_text!r}" if arrival == NO_CLOCK else f"departure_time {departure_text!r}"
            report.refuse("F12", name, row, f"{wrong} is no time")
        append_row(times, trip, stop, sequence, arrival, departure)
    return strangers


def append_row(times: Times, trip: int, stop: int, sequence: int, arrival: int, departure: int) -> None:
    times.trip.append(trip)
    times.stop.append(stop)
    times.sequence.append(sequence)
    times.arrival.append(arrival)
    times.departure.append(departure)


def judge_second_rows(report: Report, trips: Trips, times: Times, strangers: dict[str, int]) -> None:
    """Rule 7: a trip and a sequence come a second time. Only trips whose sequences do not rise are looked at."""
    seconds: list[tuple[int, int]] = []
    for trip in times.mixed:
        before = -1
        for place in times.places_of(trip):
            sequence = times.sequence[place]
            if sequence >= 0 and sequence == before:
                seconds.append((place + 1, trip))
            before = sequence
    if not seconds:
        return
    names = {place: name for name, place in (*trips.places.items(), *strangers.items())}
    for row, trip in sorted(seconds):
        says = f"trip_id {names[trip]!r} has stop_sequence {times.sequence[row - 1]} a second time"
        report.refuse("F7", "stop_times.txt", row, says)


def judge_timing(report: Report, times: Times, trip: int) -> None:
    """Rules 13 and 14 along a trip. A time that cannot be read says nothing here: it has its finding."""
    places = [place for place in times.places_of(trip) if times.sequence[place] >= 0]
    if not places:
        return
    arrivals, departures = times.arrival, times.departure
    for nth, (word, place) in enumerate((("first", places[0]), ("last", places[-1]))):
        if arrivals[place] == departures[place] == NO_TIME and (nth == 0 or place != places[0]):
            says = f"the {word} row of the trip has neither time"
            report.refuse("F13", "stop_times.txt", place + 1, says, TRIPS, trip * 3 + nth)
    before = 0
    for place in places:
        arrival, departure = arrivals[place], departures[place]
        if arrival < 0:
            arrival = departure
        if departure < 0:
            departure = arrival
        if arrival < 0:
            continue
        if arrival < before or departure < arrival:
            early, late = (arrival, before) if arrival < before else (departure, arrival)
            says = f"{text_of(early)} is earlier than {text_of(late)} before it"
            report.refuse("F14", "stop_times.txt", place + 1, says, TRIPS, trip * 3 + 2)
        before = max(before, departure)


def text_of(seconds: int) -> str:
    return f"{seconds // 3600:02}:{seconds // 60 % 60:02}:{seconds % 60:02}"


def judge_calendar(feed: Feed, report: Report) -> bool:
    """Whether calendar.txt is there."""
    name = "calendar.txt"
    needed = feed.table("calendar_dates.txt") is None
    table = sound_table(feed, report, name, needed)
    if table is None:
        return feed.table(name) is not None
    at = {column: table.place(column) or 0 for column in REQUIRED[name]}
    services: set[str] = set()
    for row, record in even_rows(table, report, name):
        service = record[at["service_id"]].strip(" ")
        if not service:
            report.refuse("F6", name, row, "service_id is empty")
        elif service in services:
            report.refuse("F7", name, row, f"service_id {service!r} comes a second time")
        services.add(service)
        weekdays = [record[at[weekday]].strip(" ") for weekday in feeds.WEEKDAYS]
        for weekday, text in zip(feeds.WEEKDAYS, weekdays):
            if text not in ("0", "1"):
                report.refuse("F11", name, row, f"{weekday} is {text!r}, neither 0 nor 1")
                break
        begin, end = (day(record[at[column]].strip(" ")) for column in ("start_date", "end_date"))
        if begin is None or end is None:
            column = "start_date" if begin is None else "end_date"
            report.refuse("F12", name, row, f"{column} {record[at[column]].strip(' ')!r} is no date")
        elif end < begin:
            report.warn("W8", name, row, f"the service {service!r} ends before it begins", "mend the dates")
    return True


def judge_dates(feed: Feed, report: Report, has_calendar: bool) -> None:
    name = "calendar_dates.txt"
    table = sound_table(feed, report, name, False)
    if table is None:
        return
    at, date_at, kind_at = (table.place(column) or 0 for column in REQUIRED[name])
    seen: set[tuple[str, str]] = set()
    for row, record in even_rows(table, report, name):
        service, when, kind = record[at].strip(" "), record[date_at].strip(" "), record[kind_at].strip(" ")
        if not service:
            report.refuse("F6", name, row, "service_id is empty")
        elif (service, when) in seen:
            report.refuse("F7", name, row, f"service_id {service!r} has the date {when} a second time")
        seen.add((service, when))
        if kind not in ("1", "2"):
            report.refuse("F11", name, row, f"exception_type is {kind!r}, neither 1 nor 2")
        if day(when) is None:
            report.refuse("F12", name, row, f"date {when!r} is no date")


def judge_frequencies(feed: Feed, report: Report, trips: Trips) -> dict[int, list[Frequency]]:
    """The rows of each trip, by its place."""
    name = "frequencies.txt"
    found: dict[int, list[Frequency]] = {}
    table = sound_table(feed, report, name, False)
    if table is None:
        return found
    at, begin_at, end_at, headway_at = (table.place(column) or 0 for column in REQUIRED[name])
    for row, record in even_rows(table, report, name):
        trip, headway_text = record[at].strip(" "), record[headway_at].strip(" ")
        begin_text, end_text = record[begin_at].strip(" "), record[end_at].strip(" ")
        if not trip:
            report.refuse("F6", name, row, "trip_id is empty")
        elif trips.lacks(trip):
            report.refuse("F9", name, row, f"trip_id {trip!r} is not in trips.txt")
        headway, begin, end = number(headway_text), clock(begin_text), clock(end_text)
        if not headway:
            report.refuse("F11", name, row, f"headway_secs {headway_text!r} is no number from 1 on")
        if begin is None or end is None:
            wrong = f"start_time {begin_text!r}" if begin is None else f"end_time {end_text!r}"
            report.refuse("F12", name, row, f"{wrong} is no time")
        elif end <= begin:
            report.warn("W7", name, row, f"no start is from {begin_text} on and before {end_text}", "mend the times, or remove the row")
        place = trips.places.get(trip, NOTHING)
        if headway and begin is not None and end is not None and place >= 0:
            found.setdefault(place, []).append(Frequency(begin, end, headway))
    return found


def judge_transfers(feed: Feed, report: Report, stops: Stops) -> list[Transfer]:
    """The rows that are not passed over."""
    name = "transfers.txt"
    found: list[Transfer] = []
    table = sound_table(feed, report, name, False)
    if table is None:
        return found
    some = [at for column in ("from_route_id", "to_route_id", "from_trip_id", "to_trip_id") if (at := table.place(column)) is not None]
    begin_at, end_at = (table.place(column) or 0 for column in REQUIRED[name])
    kind_at, seconds_at = table.place("transfer_type"), table.place("min_transfer_time")
    for row, record in even_rows(table, report, name):
        begin, end = record[begin_at].strip(" "), record[end_at].strip(" ")
        kind_text = "" if kind_at is None else record[kind_at].strip(" ")
        seconds_text = "" if seconds_at is None else record[seconds_at].strip(" ")
        kind = number(kind_text) if kind_text else 0
        seconds = number(seconds_text) if seconds_text else None
        passed = kind is None or kind > 3 or not begin or not end or any(record[at].strip(" ") for at in some)
        if not passed:
            for stop in dict.fromkeys((begin, end)):
                if stops.lacks(stop):
                    report.refuse("F8", name, row, f"stop_id {stop!r} is not in stops.txt")
        if kind is None or (seconds_text and seconds is None):
            wrong = f"transfer_type {kind_text!r}" if kind is None else f"min_transfer_time {seconds_text!r}"
            report.refuse("F11", name, row, f"{wrong} is no number")
        elif not passed and kind is not None:
            found.append(Transfer(begin, end, kind, seconds))
    return found
