"""What becomes of a message: it is read, left out or joined with what other sources say, archived, and only then given to publishers."""

from __future__ import annotations

import hashlib
import sqlite3
from collections import Counter
from dataclasses import dataclass, field, replace

from archive import Archive, Came, Held, Window
from fetching import Outcome
from log import Log
from messages import Message, MessageError, Posted, Source, joined, posted_form, read, state_after
from rollover import Limits, has_room
from trips import Trips

AHEAD_SECONDS = 60  # A message may be so far ahead of the clock.

# Why a message is left out.
AHEAD = "ahead of the clock"
NOT_NEWER = "not newer"
NO_TRIPS = "no trip updates"
TOO_LONG = "too long"


@dataclass
class Sender:
    """A source of messages, and what is known of it."""

    name: str
    number: int
    source: Source = field(default_factory=Source)
    digest: bytes | None = None  # of the last message
    came: float | None = None  # when the last message came
    failures: int = 0  # since a message came
    failed: int = 0
    error: str | None = None
    updates: int = 0  # trip updates of the last message, and how many of them are of unknown trips
    unknown: int = 0


@dataclass
class Numbers:
    """What was counted since the start."""

    came: int = 0
    bytes_came: int = 0
    again: int = 0
    no_message: int = 0
    left_out: Counter[str] = field(default_factory=Counter)
    nothing_new: int = 0
    posted_full: int = 0
    posted_differential: int = 0
    dated: int = 0
    passed_over: int = 0
    unknown: int = 0
    updates: int = 0


@dataclass
class Shelf:
    """A window, and what it holds. It is open until it takes no more messages."""

    window: Window
    held: Held

    def close(self, when: float) -> None:
        self.window = replace(self.window, closed=int(when))

    def answered(self, moment: int) -> None:
        """Its publisher admitted one more message."""
        self.held = replace(self.held, versions=self.held.versions + 1, last_version=moment)

    def put(self, posting: int, length: int) -> None:
        self.held = replace(self.held, messages=self.held.messages + 1, bytes=self.held.bytes + length, last_posting=posting)


class Intake:
    """Takes messages into the archive. Its own state changes only once the archive has a message on the disk."""

    def __init__(self, archive: Archive, limits: Limits, log: Log) -> None:
        self.numbers = Numbers()
        self.senders: dict[str, Sender] = {}
        self.state: dict[str, bytes] = {}  # what was posted, by run
        self.moment = 0  # of the last posting or the last window's begin: the next one is later
        self.archive_error: str | None = None
        self._archive = archive
        self._limits = limits
        self._log = log

    def listen_to(self, names: list[str], timetables: list[Trips]) -> None:
        """Sets the sources. What each said last comes from the archive."""
        self.senders = {name: self.senders.get(name) or self._recovered(name, timetables) for name in names}

    def _recovered(self, name: str, timetables: list[Trips]) -> Sender:
        sender = Sender(name, self._archive.source(name))
        sender.digest = self._archive.last_of(sender.number)
        for body in self._archive.said_by(sender.number):
            sender.source = sender.source.after(read(body, timetables))
        return sender

    def recover(self, window: Window) -> None:
        """The state that was posted to a window. One pass over its messages."""
        last = 0
        while rows := self._archive.postings(window.id, last, 1000):
            for row in rows:
                self.state = state_after(self.state, row.body)
            last = rows[-1].id

    def take(self, name: str, body: bytes, now: float, timetables: list[Trips], shelves: list[Shelf]) -> Outcome:
        """Does all that is to be done with a message that came."""
        sender = self.senders[name]
        digest = hashlib.sha256(body).digest()
        sender.failures, sender.error = 0, None
        if digest == sender.digest:
            sender.came = now
            self.numbers.again += 1
            return Outcome("archived", "the same as the message before")
        try:
            message = read(body, timetables)
        except MessageError as error:
            self.numbers.no_message += 1
            self.failed(name, str(error))
            return Outcome("refused", str(error))
        try:
            outcome = self._archived(sender, message, body, now, shelves)
        except sqlite3.Error as error:
            self.archive_error = str(error)
            self._log.error("the archive cannot be written: the message is not posted", source=name, moment=message.moment, error=str(error))
            return Outcome("failed", f"the archive cannot be written: {error}")
        self.archive_error = None
        sender.digest, sender.came = digest, now
        self._count(sender, message, len(body))
        return outcome

    def failed(self, name: str, error: str) -> None:
        """Notes that a source gave no message."""
        sender = self.senders[name]
        sender.failures += 1
        sender.failed += 1
        sender.error = error
        self._log.warning("no message", source=name, error=error, failures=sender.failures)

    def _archived(self, sender: Sender, message: Message, body: bytes, now: float, shelves: list[Shelf]) -> Outcome:
        came = Came(sender.number, now, message.moment, message.full, body)
        cause = self._cause(sender, message, now)
        after = sender.source.after(message)
        posted: Posted | None = None
        state = self.state
        if cause is None:
            state = joined(after if one is sender else one.source for one in self.senders.values())
            try:
                posted = posted_form(max(message.moment, self.moment + 1), self.state, state)
            except MessageError:
                cause = TOO_LONG
        if cause is not None:
            with self._archive.transaction():
                self._archive.add_message(came, None, cause)
            self.numbers.left_out[cause] += 1
            self._log.warning("left out", source=sender.name, moment=message.moment, cause=cause, bytes=len(body))
            return Outcome("archived", f"left out: {cause}")
        with self._archive.transaction():
            posting = None if posted is None else self._archive.add_posting(posted)
            self._archive.add_message(came, posting, None)
            roomy = [one for one in shelves if posted is not None and has_room(one.held, len(posted.body), self._limits)]
            if posting is not None:
                self._archive.admit([one.window.id for one in roomy], posting)
                # A window that lacks a message gets none after it, for they may be differential.
                full = [one for one in shelves if one not in roomy]
                for shelf in full:
                    self._archive.close_window(shelf.window.id, now)
        sender.source = after
        if posted is None or posting is None:
            self.numbers.nothing_new += 1
            return Outcome("archived", "it says nothing new")
        self.state, self.moment = state, posted.moment
        for shelf in full:
            shelf.close(now)
            self._log.error("a publisher is full before the next one took its place", window=shelf.window.name)
        for shelf in roomy:
            shelf.put(posting, len(posted.body))
        return self._posted(sender, message, posted, len(body))

    def _cause(self, sender: Sender, message: Message, now: float) -> str | None:
        """Why a message is left out, none where it is not."""
        if max(message.moment, self.moment + 1) > now + AHEAD_SECONDS:
            return AHEAD
        if message.moment <= sender.source.moment:
            return NOT_NEWER
        if message.says_nothing_of_trips():
            return NO_TRIPS
        return None

    def _posted(self, sender: Sender, message: Message, posted: Posted, length: int) -> Outcome:
        form = "full" if posted.full else "differential"
        if posted.full:
            self.numbers.posted_full += 1
        else:
            self.numbers.posted_differential += 1
        counts = {"updates": len(message.updates), "unknown": message.unknown, "passed_over": message.passed_over, "dated": message.dated}
        self._log.info("archived", source=sender.name, moment=posted.moment, bytes=length, form=form, posts=len(posted.body), **counts)
        return Outcome("archived", f"posted as {form}")

    def _count(self, sender: Sender, message: Message, length: int) -> None:
        numbers = self.numbers
        numbers.came += 1
        numbers.bytes_came += length
        numbers.dated += message.dated
        numbers.passed_over += message.passed_over
        numbers.unknown += message.unknown
        numbers.updates += len(message.updates)
        sender.updates, sender.unknown = len(message.updates), message.unknown
        if message.unknown * 2 > len(message.updates):
            self._log.error(
                "MORE THAN HALF OF THE TRIPS ARE UNKNOWN: these messages are of another timetable",
                source=sender.name, unknown=message.unknown, of=len(message.updates),
            )
