"""The archive: every message that came, what was posted in its place, the windows and their feeds, in one SQLite file.

What `commit` returned from is on the disk. One process writes to an archive, which a lock beside it sees to; threads of it read by connections of their own.
"""

from __future__ import annotations

import fcntl
import hashlib
import sqlite3
import zlib
from contextlib import contextmanager
from dataclasses import dataclass
from datetime import date, timedelta
from pathlib import Path
from typing import IO, Any, Iterator

from clock import day_text
from feeds import day
from messages import Posted

APPLICATION = 0x4D4F4E54  # "MONT", by which SQLite files of others are told
LAYOUT = 1
NO_CONTENT = 204  # the status of a message that `serve` admitted

SCHEMA = """
CREATE TABLE archive (name TEXT NOT NULL, base TEXT NOT NULL);
CREATE TABLE feed (hash TEXT PRIMARY KEY, came INTEGER NOT NULL);
CREATE TABLE feed_file (feed TEXT NOT NULL REFERENCES feed, name TEXT NOT NULL, body BLOB NOT NULL, PRIMARY KEY (feed, name));
CREATE TABLE source (id INTEGER PRIMARY KEY, name TEXT NOT NULL UNIQUE);
-- A feed's timetable on `days` service dates. It takes messages until `closed`, and is served until `ended`.
CREATE TABLE window (
  id INTEGER PRIMARY KEY, name TEXT NOT NULL UNIQUE, feed TEXT NOT NULL REFERENCES feed, first TEXT NOT NULL, days INTEGER NOT NULL,
  zone TEXT NOT NULL, change INTEGER NOT NULL, cuts TEXT NOT NULL, base TEXT NOT NULL, base_moment INTEGER NOT NULL,
  began INTEGER NOT NULL, closed INTEGER, ended INTEGER);
-- What was posted, in its order. Moments do not rise where a window begins: its first message says again what the last one led to.
CREATE TABLE posting (
  id INTEGER PRIMARY KEY, moment INTEGER NOT NULL, full INTEGER NOT NULL, length INTEGER NOT NULL, sha256 BLOB NOT NULL, body BLOB NOT NULL);
-- A message as it came. `left_out` says why it did not count. Else `posting` is what was posted in its place, none where it said nothing new.
CREATE TABLE message (
  id INTEGER PRIMARY KEY, source INTEGER NOT NULL REFERENCES source, came REAL NOT NULL, moment INTEGER NOT NULL, full INTEGER NOT NULL,
  length INTEGER NOT NULL, sha256 BLOB NOT NULL, body BLOB NOT NULL, posting INTEGER REFERENCES posting, left_out TEXT);
CREATE INDEX message_source ON message (source, id);
-- Which windows a posting goes to, and the status with which each answered. None: it is still to be posted.
CREATE TABLE admission (
  window INTEGER NOT NULL REFERENCES window, posting INTEGER NOT NULL REFERENCES posting, status INTEGER, PRIMARY KEY (window, posting)) WITHOUT ROWID;
"""


class ArchiveError(Exception):
    """Why an archive cannot be used, in one line."""


@dataclass(frozen=True)
class Window:
    """A window: a feed's timetable on some service dates, as a publisher serves it under a path of its own."""

    id: int
    name: str
    feed: str
    first: date
    days: int
    zone: str
    change: int
    cuts: str
    base: str
    base_moment: int
    began: int
    closed: int | None
    ended: int | None

    @property
    def last(self) -> date:
        """The last service date."""
        return self.first + timedelta(days=self.days - 1)


WINDOW_COLUMNS = "id, name, feed, first, days, zone, change, cuts, base, base_moment, began, closed, ended"


@dataclass(frozen=True)
class Came:
    """A message as it came: from which source, when, with which moment, and whether it is a full one."""

    source: int
    came: float
    moment: int
    full: bool
    body: bytes


@dataclass(frozen=True)
class Posting:
    """A message that a window is to get, or got."""

    id: int
    moment: int
    body: bytes
    status: int | None


@dataclass(frozen=True)
class Held:
    """How much a window holds: messages and their bytes, and what its publisher admitted of them."""

    messages: int
    bytes: int
    versions: int
    last_version: int | None
    last_posting: int


def packed(body: bytes) -> bytes:
    return zlib.compress(body, 6)


def lock(path: Path) -> IO[str]:
    """Takes the archive for this process. The file has to be kept open."""
    try:
        path.parent.mkdir(parents=True, exist_ok=True)
        file = open(path.with_name(path.name + ".lock"), "w")
    except OSError as error:
        raise ArchiveError(f"{path}: {error.strerror}") from None
    try:
        fcntl.flock(file, fcntl.LOCK_EX | fcntl.LOCK_NB)
    except OSError:
        file.close()
        raise ArchiveError(f"{path}: another keep.py has this archive") from None
    return file


class Archive:
    """A connection to an archive. Errors of SQLite come out as they are, and then nothing of the transaction is in it."""

    def __init__(self, path: Path, connection: sqlite3.Connection) -> None:
        self.path = path
        self._sql = connection

    @classmethod
    def writer(cls, path: Path, name: str, base: str) -> "Archive":
        """The archive of an agency, made where it is missing. Raises ArchiveError where the file is another one."""
        try:
            connection = sqlite3.connect(path, isolation_level=None, timeout=30)
            if connection.execute("PRAGMA application_id").fetchone()[0] == 0 and not connection.execute("SELECT 1 FROM sqlite_master").fetchone():
                create(connection, name, base)
            connection.execute("PRAGMA synchronous = FULL")
            archive = cls(path, connection)
            archive._be_of(name, base)
            return archive
        except sqlite3.Error as error:
            raise ArchiveError(f"{path}: {error}") from None

    @classmethod
    def reader(cls, path: Path) -> "Archive":
        """An archive that is only read."""
        try:
            connection = sqlite3.connect(f"{path.absolute().as_uri()}?mode=ro", uri=True, isolation_level=None, timeout=30)
            archive = cls(path, connection)
            archive._be_an_archive()
            return archive
        except sqlite3.Error as error:
            raise ArchiveError(f"{path}: {error}") from None

    def close(self) -> None:
        self._sql.close()

    @contextmanager
    def transaction(self) -> Iterator[None]:
        """All of what is written within, or nothing where it fails."""
        self._sql.execute("BEGIN IMMEDIATE")
        try:
            yield
            self._sql.execute("COMMIT")
        except BaseException:
            if self._sql.in_transaction:
                self._sql.execute("ROLLBACK")
            raise

    def _be_an_archive(self) -> None:
        application = self._sql.execute("PRAGMA application_id").fetchone()[0]
        layout = self._sql.execute("PRAGMA user_version").fetchone()[0]
        if application != APPLICATION:
            raise ArchiveError(f"{self.path}: this SQLite file is no archive of keep.py")
        if layout != LAYOUT:
            raise ArchiveError(f"{self.path}: the archive has layout {layout}, and this keep.py has layout {LAYOUT}")

    def _be_of(self, name: str, base: str) -> None:
        self._be_an_archive()
        has = self._sql.execute("SELECT name, base FROM archive").fetchone()
        if has != (name, base):
            raise ArchiveError(f"{self.path}: this is the archive of {has[0]} under {has[1]}, and CONFIG names {name} under {base}")

    # Feeds

    def has_feed(self, digest: str) -> bool:
        return self._sql.execute("SELECT 1 FROM feed WHERE hash = ?", (digest,)).fetchone() is not None

    def add_feed(self, digest: str, came: float, files: dict[str, bytes]) -> None:
        """Keeps the packed files of a feed where they are new, within a transaction."""
        if not self.has_feed(digest):
            self._sql.execute("INSERT INTO feed VALUES (?, ?)", (digest, int(came)))
            self._sql.executemany("INSERT INTO feed_file VALUES (?, ?, ?)", [(digest, name, body) for name, body in files.items()])

    def lay_feed(self, digest: str, folder: Path) -> None:
        """Writes the files of a feed into a directory."""
        for name, body in self._sql.execute("SELECT name, body FROM feed_file WHERE feed = ?", (digest,)):
            (folder / name).write_bytes(zlib.decompress(body))

    # Windows

    def windows(self) -> list[Window]:
        """All windows, the oldest first."""
        return [window_of(row) for row in self._sql.execute(f"SELECT {WINDOW_COLUMNS} FROM window ORDER BY id")]

    def add_window(self, window: Window, first: Posted | None) -> Window:
        """A new window, whose publisher gets a message first if one is given. Within a transaction."""
        values = (window.name, window.feed, day_text(window.first), window.days, window.zone, window.change, window.cuts, window.base, window.base_moment, window.began)
        names = "name, feed, first, days, zone, change, cuts, base, base_moment, began"
        cursor = self._sql.execute(f"INSERT INTO window ({names}) VALUES (?, ?, ?, ?, ?, ?, ?, ?, ?, ?)", values)
        number = cursor.lastrowid
        if first is not None:
            self._admit(number, self.add_posting(first))
        return window_of(self._sql.execute(f"SELECT {WINDOW_COLUMNS} FROM window WHERE id = ?", (number,)).fetchone())

    def close_window(self, window: int, when: float) -> None:
        self._sql.execute("UPDATE window SET closed = ? WHERE id = ?", (int(when), window))

    def end_window(self, window: int, when: float) -> None:
        self._sql.execute("UPDATE window SET ended = ?, closed = coalesce(closed, ?) WHERE id = ?", (int(when), int(when), window))

    def held(self, window: int) -> Held:
        """How much a window holds. One pass over its messages."""
        every = "SELECT count(*), coalesce(sum(length), 0), coalesce(max(posting), 0) FROM admission JOIN posting ON posting.id = posting WHERE window = ?"
        messages, length, last = self._sql.execute(every, (window,)).fetchone()
        admitted = "SELECT count(*), max(moment) FROM admission JOIN posting ON posting.id = posting WHERE window = ? AND status = ?"
        versions, version = self._sql.execute(admitted, (window, NO_CONTENT)).fetchone()
        return Held(messages, length, versions, version, last)

    def versions(self, window: int) -> list[int]:
        """The moments of the messages that a window admitted, in order."""
        query = "SELECT moment FROM admission JOIN posting ON posting.id = posting WHERE window = ? AND status = ? ORDER BY posting"
        return [moment for (moment,) in self._sql.execute(query, (window, NO_CONTENT))]

    # Messages

    def source(self, name: str) -> int:
        """The number of a source, which it gets where it is new."""
        self._sql.execute("INSERT OR IGNORE INTO source (name) VALUES (?)", (name,))
        return int(self._sql.execute("SELECT id FROM source WHERE name = ?", (name,)).fetchone()[0])

    def add_posting(self, posted: Posted) -> int:
        values = (posted.moment, posted.full, len(posted.body), hashlib.sha256(posted.body).digest(), packed(posted.body))
        return int(self._sql.execute("INSERT INTO posting (moment, full, length, sha256, body) VALUES (?, ?, ?, ?, ?)", values).lastrowid or 0)

    def add_message(self, came: Came, posting: int | None, left_out: str | None) -> None:
        digest = hashlib.sha256(came.body).digest()
        values = (came.source, came.came, came.moment, came.full, len(came.body), digest, packed(came.body), posting, left_out)
        names = "source, came, moment, full, length, sha256, body, posting, left_out"
        self._sql.execute(f"INSERT INTO message ({names}) VALUES (?, ?, ?, ?, ?, ?, ?, ?, ?)", values)

    def admit(self, windows: list[int], posting: int) -> None:
        """Says that windows are to get a posting."""
        for window in windows:
            self._admit(window, posting)

    def _admit(self, window: int | None, posting: int) -> None:
        self._sql.execute("INSERT INTO admission (window, posting) VALUES (?, ?)", (window, posting))

    def set_status(self, window: int, posting: int, status: int) -> bool:
        """Notes how a window answered a posting. False where that stands there already."""
        query = "UPDATE admission SET status = ? WHERE window = ? AND posting = ? AND status IS NOT ?"
        return self._sql.execute(query, (status, window, posting, status)).rowcount > 0

    def postings(self, window: int, after: int, most: int) -> list[Posting]:
        """The next postings of a window: those that its publisher admitted, and those that it did not get yet."""
        query = """SELECT posting.id, moment, body, status FROM admission JOIN posting ON posting.id = posting
                   WHERE window = ? AND posting > ? AND (status IS NULL OR status = ?) ORDER BY posting LIMIT ?"""
        return [Posting(number, moment, zlib.decompress(body), status) for number, moment, body, status in self._sql.execute(query, (window, after, NO_CONTENT, most))]

    def said_by(self, source: int) -> list[bytes]:
        """The last full message of a source that counted, and those after it."""
        counted = "SELECT {} FROM message WHERE source = ? AND left_out IS NULL"
        first = self._sql.execute(counted.format("coalesce(max(id), 0)") + " AND full", (source,)).fetchone()[0]
        query = counted.format("body") + " AND id >= ? ORDER BY id"
        return [zlib.decompress(body) for (body,) in self._sql.execute(query, (source, first))]

    def last_posted(self) -> int:
        """The moment of the last posting, 0 where there is none."""
        return int(self._sql.execute("SELECT coalesce(max(moment), 0) FROM posting").fetchone()[0])

    def last_of(self, source: int) -> bytes | None:
        """The SHA-256 of the last message of a source, whether it counted or not."""
        found = self._sql.execute("SELECT sha256 FROM message WHERE source = ? ORDER BY id DESC LIMIT 1", (source,)).fetchone()
        return None if found is None else bytes(found[0])

    def totals(self) -> tuple[int, int]:
        """How many messages came, and how many bytes they had. One pass over all of them."""
        count, length = self._sql.execute("SELECT count(*), coalesce(sum(length), 0) FROM message").fetchone()
        return count, length

    def size(self) -> int:
        """The bytes of the archive."""
        return int(self._sql.execute("SELECT page_count * page_size FROM pragma_page_count, pragma_page_size").fetchone()[0])


def create(connection: sqlite3.Connection, name: str, base: str) -> None:
    """Makes an empty archive."""
    connection.execute("PRAGMA journal_mode = WAL")
    connection.execute("PRAGMA synchronous = FULL")
    connection.execute("BEGIN IMMEDIATE")
    for statement in SCHEMA.split(";"):
        connection.execute(statement)
    connection.execute("INSERT INTO archive VALUES (?, ?)", (name, base))
    connection.execute(f"PRAGMA application_id = {APPLICATION}")
    connection.execute(f"PRAGMA user_version = {LAYOUT}")
    connection.execute("COMMIT")


def window_of(row: tuple[Any, ...]) -> Window:
    """A window from its row, in the order of WINDOW_COLUMNS."""
    fields = dict(zip(WINDOW_COLUMNS.split(", "), row))
    fields["first"] = day(fields["first"])
    return Window(**fields)
