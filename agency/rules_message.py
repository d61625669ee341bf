"""A realtime message: its faults as `lc` names them (docs/USAGE.md, "Faults of a message"), and what it says of trips.

The wire format of Protocol Buffers is read here byte by byte, since a fault is named with the byte at which its field begins.
"""

from __future__ import annotations

from dataclasses import dataclass, field
from datetime import datetime, timedelta, timezone
from typing import Iterator

from feeds import clock, day
from rules import NOTHING, Report, Tables

MOST_BYTES = 16_777_216
LAST_MOMENT = 253_402_128_000  # 9999-12-30T00:00:00Z, from which on there is no moment
LAST_FIELD = 536_870_911
SCHEDULED, ADDED, UNSCHEDULED, CANCELED = 0, 1, 2, 3
MOST_AHEAD = 60  # seconds that a message may be ahead of the clock
MOST_DELAY = 6 * 3600  # seconds
MENDS = {
    "R1": "send a FeedMessage of GTFS Realtime in the wire format",
    "R2": "send fewer entities, or differential messages",
    "W20": "post the messages of the timetable that is served",
    "W21": "fill trip_id; of other relationships than SCHEDULED, ADDED and CANCELED nothing is read",
    "W22": "set the clock of the sender: no message with an earlier timestamp is taken after this one",
    "W23": "do not post it: as a full message it takes back all that was said before",
    "W24": "mend stop_sequence, or stop_id",
    "W25": "mend the times: no call becomes earlier than the one before it",
    "W26": "write start_date: without it the trip is one of the date of the message",
    "W27": "mend the delay",
    "W28": "write one entity for each id",
}


class MessageFault(Exception):
    """The first fault of bytes that are no message, as `lc` prints it."""


@dataclass
class StopUpdate:
    sequence: int | None = None
    stop: str = ""
    relationship: int = 0
    arrival: tuple[int | None, int | None] | None = None  # delay and time
    departure: tuple[int | None, int | None] | None = None


@dataclass
class TripUpdate:
    trip: str | None = None
    date: str = ""
    start: str = ""
    relationship: int = SCHEDULED
    stops: list[StopUpdate] = field(default_factory=list)

    def is_passed(self) -> bool:
        """Whether the program passes it over."""
        return (
            self.trip is None
            or self.relationship not in (SCHEDULED, ADDED, CANCELED)
            or (self.date != "" and day(self.date) is None)
            or (self.start != "" and clock(self.start) is None)
        )


@dataclass
class Entity:
    id: bytes = b""
    deleted: bool = False
    trip: TripUpdate | None = None
    vehicle: bool = False
    alert: bool = False


@dataclass
class Message:
    moment: int
    full: bool
    entities: list[Entity]


def read(body: bytes) -> Message:
    """What a message says, or its first fault. Linear in the bytes."""
    head: tuple[int, bool] | None = None
    entities: list[Entity] = []
    for tag, value in fields(body, 0, len(body)):
        if tag == 1 and isinstance(value, range):
            if head is not None:
                raise MessageFault("repeated header")
            head = read_header(body, value)
        elif tag == 2 and isinstance(value, range):
            entities.append(read_entity(body, value))
    if head is None:
        raise MessageFault("missing header")
    return Message(head[0], head[1], entities)


def fields(body: bytes, at: int, to: int) -> Iterator[tuple[int, int | range]]:
    """The fields of the message between two places: of each its number, and its number or the places of its bytes."""
    while at < to:
        place = at
        tag, at = varint(body, at, to, place)
        if not 1 <= tag >> 3 <= LAST_FIELD:
            raise MessageFault(f"field {place}")
        kind = tag & 7
        if kind == 0:
            value, at = varint(body, at, to, place)
            yield tag >> 3, value
        elif kind == 2:
            length, at = varint(body, at, to, place)
            if length > to - at:
                raise MessageFault(f"cut {place}")
            yield tag >> 3, range(at, at + length)
            at += length
        elif kind in (1, 5):
            at += 8 if kind == 1 else 4
            if at > to:
                raise MessageFault(f"cut {place}")
        else:
            raise MessageFault(f"{'group' if kind in (3, 4) else 'field'} {place}")


def varint(body: bytes, at: int, to: int, place: int) -> tuple[int, int]:
    """The number that begins at a place, and the place after it."""
    value = 0
    for shift in range(0, 70, 7):
        if at >= to:
            raise MessageFault(f"cut {place}")
        byte = body[at]
        at += 1
        value |= (byte & 127) << shift
        if byte < 128:
            return value & 0xFFFF_FFFF_FFFF_FFFF, at
    raise MessageFault(f"varint {place}")


def read_header(body: bytes, span: range) -> tuple[int, bool]:
    has_version, incrementality, timestamp = False, 0, None
    for tag, value in fields(body, span.start, span.stop):
        if tag == 1 and isinstance(value, range):
            has_version = True
        elif tag == 2 and isinstance(value, int):
            incrementality = low(value)
        elif tag == 3 and isinstance(value, int):
            timestamp = value
    if not has_version:
        raise MessageFault("missing version")
    if timestamp is None or timestamp >= LAST_MOMENT:
        raise MessageFault("no moment")
    return timestamp, incrementality != 1


def low(value: int) -> int:
    """The low 32 bits, as an enumeration has them."""
    return value & 0xFFFF_FFFF


def signed(value: int, bits: int) -> int:
    value &= (1 << bits) - 1
    return value - (1 << bits) if value >> (bits - 1) else value


def text(body: bytes, span: range) -> str:
    return body[span.start : span.stop].decode("utf-8", "replace")


def read_entity(body: bytes, span: range) -> Entity:
    entity, has_id = Entity(), False
    for tag, value in fields(body, span.start, span.stop):
        if tag == 1 and isinstance(value, range):
            entity.id, has_id = body[value.start : value.stop], True
        elif tag == 2 and isinstance(value, int):
            entity.deleted = value != 0
        elif tag == 3 and isinstance(value, range):
            if entity.trip is not None:
                raise MessageFault("repeated trip_update")
            entity.trip = read_trip(body, value)
        elif tag == 4 and isinstance(value, range):
            entity.vehicle = True
        elif tag == 5 and isinstance(value, range):
            entity.alert = True
    if not has_id:
        raise MessageFault("missing id")
    return entity


def read_trip(body: bytes, span: range) -> TripUpdate:
    update, has_trip = TripUpdate(), False
    for tag, value in fields(body, span.start, span.stop):
        if tag == 1 and isinstance(value, range):
            if has_trip:
                raise MessageFault("repeated trip")
            has_trip = True
            read_descriptor(body, value, update)
        elif tag == 2 and isinstance(value, range):
            update.stops.append(read_stop(body, value))
    if not has_trip:
        raise MessageFault("missing trip")
    return update


def read_descriptor(body: bytes, span: range, update: TripUpdate) -> None:
    for tag, value in fields(body, span.start, span.stop):
        if isinstance(value, int):
            if tag == 4:
                update.relationship = low(value)
        elif tag == 1:
            update.trip = text(body, value)
        elif tag == 2:
            update.start = text(body, value)
        elif tag == 3:
            update.date = text(body, value)


def read_stop(body: bytes, span: range) -> StopUpdate:
    update = StopUpdate()
    for tag, value in fields(body, span.start, span.stop):
        if isinstance(value, int):
            if tag == 1:
                update.sequence = low(value)
            elif tag == 5:
                update.relationship = low(value)
        elif tag == 2:
            if update.arrival is not None:
                raise MessageFault("repeated arrival")
            update.arrival = read_event(body, value)
        elif tag == 3:
            if update.departure is not None:
                raise MessageFault("repeated departure")
            update.departure = read_event(body, value)
        elif tag == 4:
            update.stop = text(body, value)
    return update


def read_event(body: bytes, span: range) -> tuple[int | None, int | None]:
    """The delay and the time of an arrival or a departure."""
    delay = time = None
    for tag, value in fields(body, span.start, span.stop):
        if isinstance(value, int) and tag == 1:
            delay = signed(value, 32)
        elif isinstance(value, int) and tag == 2:
            time = signed(value, 64)
    return delay, time


def judge_message(body: bytes, name: str, report: Report, now: datetime) -> Message | None:
    """Holds a message against the rules that `lc` has for it, and against the clock. None where it is no message."""
    if len(body) > MOST_BYTES:
        says = f"the message has {len(body)} bytes, and {MOST_BYTES} are taken"
        refuse(report, "R2", name, says, f"error too large update {len(body)}")
        return None
    try:
        message = read(body)
    except MessageFault as fault:
        refuse(report, "R1", name, f"it is no realtime message: {fault}", f"error update {name} {fault}")
        return None
    look_at_message(message, name, report, now)
    return message


def refuse(report: Report, code: str, name: str, says: str, line: str) -> None:
    report.refuse(code, name, 0, says, line=line, mend=MENDS[code])


def warn(report: Report, code: str, name: str, row: int, says: str) -> None:
    report.warn(code, name, row, says, MENDS[code])


def look_at_message(message: Message, name: str, report: Report, now: datetime) -> None:
    """What looks wrong without a timetable. Rows are entities, counted from 1."""
    ahead = message.moment - now.timestamp()
    if ahead > MOST_AHEAD:
        moment = datetime.fromtimestamp(0, timezone.utc) + timedelta(seconds=message.moment)
        warn(report, "W22", name, 0, f"its timestamp {moment:%Y-%m-%dT%H:%M:%SZ} is {round(ahead)} s ahead of the clock")
    if message.full and message.entities and all(entity.trip is None for entity in message.entities):
        warn(report, "W23", name, 0, "it is full and has no trip update")
    seen: set[bytes] = set()
    for row, entity in enumerate(message.entities, 1):
        if entity.id in seen:
            warn(report, "W28", name, row, f"the id {entity.id.decode('utf-8', 'replace')!r} comes a second time")
        seen.add(entity.id)
        if entity.trip is not None and not entity.deleted:
            look_at_update(entity.trip, name, row, report)


def look_at_update(update: TripUpdate, name: str, row: int, report: Report) -> None:
    if update.is_passed():
        what = "no trip_id" if update.trip is None else f"relationship {update.relationship}, date {update.date!r} and start {update.start!r}"
        warn(report, "W21", name, row, f"the trip update is passed over: it has {what}")
        return
    before = None
    for stop in update.stops:
        for delay, time in filter(None, (stop.arrival, stop.departure)):
            if delay is not None and abs(delay) > MOST_DELAY:
                warn(report, "W27", name, row, f"trip {update.trip!r} has a delay of {delay} s")
                return
            if time is not None and before is not None and time < before:
                warn(report, "W25", name, row, f"trip {update.trip!r} has a time that is {before - time} s earlier than the one before it")
                return
            before = time if time is not None else before


def judge_against(message: Message, name: str, report: Report, tables: Tables) -> tuple[int, int]:
    """Holds a message against a feed. How many trip updates name a trip, and how many of these the feed does not know."""
    trips, times = tables.trips, tables.times
    named = unknown = 0
    for row, entity in enumerate(message.entities, 1):
        update = entity.trip
        if update is None or entity.deleted or update.is_passed() or update.relationship == ADDED:
            continue
        named += 1
        trip = trips.places.get(update.trip or "", NOTHING)
        if trip == NOTHING:
            unknown += 1
            warn(report, "W20", name, row, f"trip_id {update.trip!r} is not in trips.txt")
            continue
        places = list(times.places_of(trip))
        if not update.date and places and max(times.departure[place] for place in places) >= 86_400:
            warn(report, "W26", name, row, f"trip {update.trip!r} runs past midnight, and the update has no start_date")
        look_at_calls(update, name, row, report, tables, places)
    return named, unknown


def look_at_calls(update: TripUpdate, name: str, row: int, report: Report, tables: Tables, places: list[int]) -> None:
    """Stops of an update that its trip does not call at."""
    times = tables.times
    sequences = {times.sequence[place] for place in places}
    stops = {times.stop[place] for place in places}
    for stop in update.stops:
        if stop.sequence is not None:
            if stop.sequence not in sequences:
                warn(report, "W24", name, row, f"trip {update.trip!r} has no stop_sequence {stop.sequence}")
                return
        elif stop.stop and tables.stops.places.get(stop.stop, NOTHING) not in stops - {NOTHING}:
            warn(report, "W24", name, row, f"trip {update.trip!r} does not call at {stop.stop!r}")
            return
