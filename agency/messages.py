"""Realtime messages: what they say of runs, what is mended in them, and the form in which they are posted.

A *run* is a trip on a service date, with its start where it has a headway. Messages are posted with the run as the id of an entity, since
many feeds number their entities anew in each message. So an entity of two messages is the same where it is of the same run.
"""

from __future__ import annotations

from dataclasses import dataclass
from datetime import date
from typing import Iterable
from warnings import filterwarnings

from google.protobuf.message import DecodeError

from clock import day_text
from feeds import clock, day
from gtfs_realtime_pb2 import FeedEntity, FeedHeader, FeedMessage, TripDescriptor
from trips import Trips

filterwarnings("ignore", "Unexpected end-group tag", RuntimeWarning)

MOST_BYTES = 16_777_216  # of one message, as `serve` takes it
MOST_MOMENT = 253_402_128_000  # 9999-12-30T00:00:00Z: `serve` takes no message of then or later
VERSION = "2.0"

# The relationships that `serve` reads. Trip updates of others are passed over.
READ = {TripDescriptor.SCHEDULED, TripDescriptor.ADDED, TripDescriptor.CANCELED}


class MessageError(Exception):
    """Why bytes are no message, in one line."""


@dataclass(frozen=True)
class Update:
    """What a message says of one run: the id of its entity, the run, and the entity as it is posted."""

    entity: str
    run: str
    body: bytes


@dataclass(frozen=True)
class Message:
    """A message as it came, its trip updates mended."""

    moment: int
    full: bool
    entities: int
    updates: list[Update]
    deleted: list[str]  # ids of entities
    dated: int  # trip updates that had no start date
    passed_over: int  # trip updates that `serve` would pass over
    unknown: int  # trip updates of trips that no timetable has

    def says_nothing_of_trips(self) -> bool:
        """Whether it has entities, and none of a trip: vehicles or alerts alone."""
        return self.entities > 0 and not self.updates and not self.deleted and not self.passed_over


@dataclass(frozen=True)
class Posted:
    """A message as it is posted."""

    moment: int
    full: bool
    body: bytes


def read(body: bytes, timetables: list[Trips]) -> Message:
    """Reads a message. Dates that are missing are those of the first timetable that knows the trip. Raises MessageError."""
    if not body:
        raise MessageError("the body is empty")
    found = FeedMessage()
    try:
        taken = found.ParseFromString(body)
        lacking = found.FindInitializationErrors()
        # An end of a group that has no beginning ends the parser without an error.
        if taken != len(body) or lacking:
            raise MessageError(f"{what_it_looks_like(body)}: " + (f"{', '.join(lacking[:3])} missing" if lacking else f"it ends at byte {taken}"))
        return mended(found, timetables)
    except (DecodeError, UnicodeDecodeError) as error:
        raise MessageError(f"{what_it_looks_like(body)}: {one_line(str(error))}") from None


def what_it_looks_like(body: bytes) -> str:
    """A guess at what came in place of a message, for the log."""
    front = body[:200].lstrip().lower()
    if front.startswith((b"<!doctype", b"<html", b"<?xml", b"<")):
        return "HTML or XML in place of a message"
    if front.startswith((b"{", b"[")):
        return "JSON in place of a message"
    if body.startswith(b"\x1f\x8b"):
        return "gzip in place of a message"
    return "no message"


def one_line(said: str) -> str:
    return " ".join(said.split())[:200]


def mended(found: FeedMessage, timetables: list[Trips]) -> Message:
    """The trip updates of a message in the form in which they are posted."""
    moment = int(found.header.timestamp)
    if not 0 < moment < MOST_MOMENT:
        raise MessageError("the header has no timestamp")
    updates: list[Update] = []
    deleted: list[str] = []
    dated = passed_over = unknown = 0
    for entity in found.entity:
        if entity.is_deleted:
            deleted.append(entity.id)
        elif entity.HasField("trip_update"):
            trip = entity.trip_update.trip
            dated += trip.trip_id != "" and trip.start_date == ""
            run = run_of(trip, moment, timetables)
            if run is None:
                passed_over += 1
                continue
            unknown += is_unknown(trip, timetables)
            updates.append(Update(entity.id, run, posted_entity(entity, run)))
    full = found.header.incrementality == FeedHeader.FULL_DATASET
    return Message(moment, full, len(found.entity), updates, deleted, dated, passed_over, unknown)


def timetable_of(trip: str, timetables: list[Trips]) -> Trips:
    """The first timetable that knows a trip, or else the first one."""
    return next((one for one in timetables if trip in one.trips), timetables[0])


def is_unknown(trip: TripDescriptor, timetables: list[Trips]) -> bool:
    """Whether the timetable should have a trip and does not."""
    return trip.schedule_relationship != TripDescriptor.ADDED and not any(trip.trip_id in one.trips for one in timetables)


def run_of(trip: TripDescriptor, moment: int, timetables: list[Trips]) -> str | None:
    """The run of a trip update, whose date is filled in. None where `serve` passes the update over."""
    if trip.trip_id == "" or trip.schedule_relationship not in READ:
        return None
    timetable = timetable_of(trip.trip_id, timetables)
    if trip.start_date == "":
        trip.start_date = day_text(timetable.date_of(trip.trip_id, moment))
    when: date | None = day(trip.start_date)
    if when is None:
        return None
    known = timetable.trips.get(trip.trip_id)
    # A trip of the timetable without a headway has one run a date, whatever its start is said to be.
    headway = known.headway if known else trip.start_time != ""
    start = "-"
    if headway:
        seconds = clock(trip.start_time)
        if seconds is None:
            return None
        start = f"{seconds // 3600:02}{seconds // 60 % 60:02}{seconds % 60:02}"
    return f"{trip.trip_id}/{trip.start_date}/{start}"


def posted_entity(entity: FeedEntity, run: str) -> bytes:
    """The trip update of an entity, with its run as the entity's id. Fields that the schema here does not know stay.

    The moment at which a trip update was measured goes: `serve` does not read it, and else nothing would ever be the same as before."""
    posted = FeedEntity(id=run, trip_update=entity.trip_update)
    posted.trip_update.ClearField("timestamp")
    return bytes(posted.SerializeToString(deterministic=True))


class Source:
    """What the messages of one URL say: the last update of each of its entities, and the moment of the last message."""

    def __init__(self) -> None:
        self.moment = 0
        self.entities: dict[str, Update] = {}

    def after(self, message: Message) -> "Source":
        """The source once it has said one more message. The source itself stays as it is, for where the message cannot be archived."""
        next_one = Source()
        next_one.moment = message.moment
        next_one.entities = {} if message.full else dict(self.entities)
        for entity in message.deleted:
            next_one.entities.pop(entity, None)
        for update in message.updates:
            # Of several updates of one run the last counts, so an entity that comes again goes to the end.
            next_one.entities.pop(update.entity, None)
            next_one.entities[update.entity] = update
        return next_one


def joined(sources: Iterable[Source]) -> dict[str, bytes]:
    """What several sources say together, by run. Of several updates of one run the last counts."""
    return {update.run: update.body for source in sources for update in source.entities.values()}


def full_form(moment: int, state: dict[str, bytes]) -> Posted:
    """The whole state as one message."""
    return Posted(moment, True, written(moment, True, state.values()))


def posted_form(moment: int, before: dict[str, bytes], after: dict[str, bytes]) -> Posted | None:
    """The message that leads from one state to another, none where they are the same. It is differential where that is at most half as long.
    Raises MessageError where the whole state is longer than a message may be."""
    changed = [body for run, body in after.items() if before.get(run) != body]
    gone = [deletion(run) for run in before if run not in after]
    full = full_form(moment, after)
    if len(full.body) > MOST_BYTES:
        raise MessageError(f"all sources together say {len(full.body)} bytes, and a message has at most {MOST_BYTES}")
    if not changed and not gone:
        return None
    differential = written(moment, False, [*gone, *changed])
    return Posted(moment, False, differential) if len(differential) * 2 <= len(full.body) else full


def state_after(before: dict[str, bytes], body: bytes) -> dict[str, bytes]:
    """The state that a posted message leads to: what `posted_form` wrote, read back from the archive."""
    found = FeedMessage()
    found.ParseFromString(body)
    state = {} if found.header.incrementality == FeedHeader.FULL_DATASET else dict(before)
    for entity in found.entity:
        if entity.is_deleted:
            state.pop(entity.id, None)
        else:
            state[entity.id] = bytes(entity.SerializeToString(deterministic=True))
    return state


def deletion(run: str) -> bytes:
    return bytes(FeedEntity(id=run, is_deleted=True).SerializeToString(deterministic=True))


def written(moment: int, full: bool, entities: Iterable[bytes]) -> bytes:
    """The bytes of a message. Serialized entities are joined as they are: fields 1 and 2 of FeedMessage, each with its length."""
    kind = FeedHeader.FULL_DATASET if full else FeedHeader.DIFFERENTIAL
    header = FeedHeader(gtfs_realtime_version=VERSION, incrementality=kind, timestamp=moment)
    parts = [FeedMessage(header=header).SerializeToString(deterministic=True)]
    for entity in entities:
        parts.append(b"\x12" + varint(len(entity)) + entity)
    return b"".join(parts)


def varint(number: int) -> bytes:
    out = bytearray()
    while number > 127:
        out.append(number % 128 + 128)
        number //= 128
    out.append(number)
    return bytes(out)

