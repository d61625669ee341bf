"""A GTFS Schedule feed as it comes: a directory, a zip file or the URL of one, and the tables of its files.

Files are read as `lc check` reads them (docs/USAGE.md, "What is read"): CSV in UTF-8, of two columns with one name the first,
without the spaces at both ends of a field, rows counted from 1 after the header.
"""

from __future__ import annotations

import codecs
import csv
import hashlib
import http.client
import os
import shutil
import sys
import tempfile
import urllib.error
import urllib.parse
import urllib.request
import zipfile
from contextlib import contextmanager
from datetime import date, timedelta
from pathlib import Path, PurePosixPath
from typing import IO, Iterator

# The files that the program reads, in its order.
FILES = ("stops.txt", "trips.txt", "stop_times.txt", "calendar.txt", "calendar_dates.txt", "frequencies.txt", "transfers.txt")
WEEKDAYS = ("monday", "tuesday", "wednesday", "thursday", "friday", "saturday", "sunday")
MOST_FILE_BYTES = 1 << 30  # of one file, as the program takes it
MOST_DOWNLOAD_BYTES = 2 << 30  # of a zip file behind a URL
CHUNK = 1 << 20
MOST_NUMBER = 4_294_967_295

# A field may be as long as its file.
csv.field_size_limit(sys.maxsize)


class FeedError(Exception):
    """Why a feed cannot be read, in one line."""


def number(text: str) -> int | None:
    """The number that one to ten digits say, up to 4,294,967,295."""
    if not 1 <= len(text) <= 10 or not text.isascii() or not text.isdigit():
        return None
    value = int(text)
    return value if value <= MOST_NUMBER else None


def clock(text: str) -> int | None:
    """The seconds that HH:MM:SS or H:MM:SS says, below 100 hours."""
    if len(text) == 7:
        text = "0" + text
    if len(text) != 8 or text[2] != ":" or text[5] != ":" or not text.isascii():
        return None
    hours, minutes, seconds = text[:2], text[3:5], text[6:]
    if not (hours.isdigit() and minutes.isdigit() and seconds.isdigit()) or minutes > "59" or seconds > "59":
        return None
    return int(hours) * 3600 + int(minutes) * 60 + int(seconds)


def day(text: str) -> date | None:
    """The date that YYYYMMDD says."""
    if len(text) != 8 or not text.isascii() or not text.isdigit():
        return None
    try:
        return date(int(text[:4]), int(text[4:6]), int(text[6:]))
    except ValueError:
        return None


class Table:
    """One CSV file. It is read anew by each pass over its rows, so that memory does not grow with it."""

    def __init__(self, path: Path) -> None:
        self.path = path
        self.utf8_fault = first_bad_line(path)
        header = next(self._records(), None)
        self.has_header = header is not None
        self.columns = [name.strip(" ") for name in header or []]

    def place(self, column: str) -> int | None:
        """Where the first column of this name is."""
        return self.columns.index(column) if column in self.columns else None

    def records(self) -> Iterator[list[str]]:
        """The rows after the header, as they are written. One may have another number of fields than the header."""
        records = self._records()
        next(records, None)
        return records

    def rows(self, *columns: str) -> Iterator[tuple[str, ...]]:
        """The fields of these columns, without spaces round them and empty where there is no such column. Ragged rows are passed over."""
        places = [self.place(column) for column in columns]
        width = len(self.columns)
        for record in self.records():
            if len(record) == width:
                yield tuple("" if place is None else record[place].strip(" ") for place in places)

    def _records(self) -> Iterator[list[str]]:
        # A text that is not UTF-8 is read all the same, so that its other faults show too.
        encoding = "utf-8-sig" if self.utf8_fault is None else "cp1252"
        try:
            with open(self.path, encoding=encoding, errors="replace", newline="") as file:
                for record in csv.reader(file):
                    # A line without a character is no row.
                    if record:
                        yield record
        except OSError as error:
            raise FeedError(f"{self.path}: {error.strerror}") from None


def first_bad_line(path: Path) -> int | None:
    """The line, counted from 1, in which a file stops being UTF-8."""
    decoder = codecs.getincrementaldecoder("utf-8")("strict")
    line = 1
    try:
        with open(path, "rb") as file:
            while chunk := file.read(CHUNK):
                try:
                    decoder.decode(chunk)
                except UnicodeDecodeError as error:
                    return line + error.object[: error.start].count(b"\n")
                line += chunk.count(b"\n")
        decoder.decode(b"", final=True)
    except UnicodeDecodeError:
        return line
    except OSError as error:
        raise FeedError(f"{path}: {error.strerror}") from None
    return None


class Feed:
    """The files of a feed in a directory."""

    def __init__(self, folder: Path) -> None:
        self.folder = folder

    def names(self) -> list[str]:
        """The text files of the feed, sorted."""
        return sorted(path.name for path in self.folder.glob("*.txt") if path.is_file())

    def path(self, name: str) -> Path:
        return self.folder / name

    def table(self, name: str) -> Table | None:
        """A file of the feed, none where it is absent."""
        path = self.path(name)
        return Table(path) if path.is_file() else None

    def digest(self) -> str:
        """The SHA-256 of the names and the bytes of all text files, in hexadecimal. It does not depend on how they were packed."""
        whole = hashlib.sha256()
        for name in self.names():
            one = hashlib.sha256()
            with open(self.path(name), "rb") as file:
                while chunk := file.read(CHUNK):
                    one.update(chunk)
            whole.update(f"{name} {one.hexdigest()}\n".encode())
        return whole.hexdigest()

    def zones(self) -> list[str]:
        """The time zones that agency.txt names, each once."""
        table = self.table("agency.txt")
        zones = [] if table is None else [zone for (zone,) in table.rows("agency_timezone") if zone]
        return list(dict.fromkeys(zones))

    def days(self) -> tuple[date, date] | None:
        """The first and the last date on which a service runs, none where none does. Linear in the dates of both calendars."""
        found = self.service_dates()
        every = [one for dates in found.values() for one in (dates[0], dates[-1])]
        return (min(every), max(every)) if every else None

    def service_dates(self, first: date | None = None, days: int = 0) -> dict[str, list[date]]:
        """The dates of each service that has any, sorted: those of so many days from the first on, or all where none is given.
        Rows that cannot be read are passed over."""
        taken: set[tuple[str, date]] = set()
        added: set[tuple[str, date]] = set()
        table = self.table("calendar_dates.txt")
        if table is not None:
            for service, text, kind in table.rows("service_id", "date", "exception_type"):
                when = day(text)
                if when is not None and kind in ("1", "2"):
                    (added if kind == "1" else taken).add((service, when))
        last = None if first is None else clamped(first, days - 1)
        listed = added | set(self._weekly_dates(first, last))
        found: dict[str, list[date]] = {}
        for service, when in sorted(listed - taken):
            if first is None or last is None or first <= when <= last:
                found.setdefault(service, []).append(when)
        return found

    def _weekly_dates(self, first: date | None, last: date | None) -> Iterator[tuple[str, date]]:
        table = self.table("calendar.txt")
        if table is None:
            return
        for service, start, end, *weekdays in table.rows("service_id", "start_date", "end_date", *WEEKDAYS):
            when, stop = day(start), day(end)
            if when is None or stop is None:
                continue
            when = when if first is None else max(when, first)
            stop = stop if last is None else min(stop, last)
            # A range of a thousand years is a slip, and no timetable.
            for ordinal in range(when.toordinal(), min(stop.toordinal(), when.toordinal() + 36_525) + 1):
                one = date.fromordinal(ordinal)
                if weekdays[one.weekday()] == "1":
                    yield service, one


def clamped(first: date, days: int) -> date:
    """So many days after a date, at most the last date that there is."""
    return first + min(timedelta(days=days), date.max - first)


@contextmanager
def opened(given: str, seconds: float = 60.0) -> Iterator[Feed]:
    """A feed: a directory is read where it is. A zip file, or the URL of one, is laid in a directory that goes at the end."""
    if Path(given).is_dir() and not is_url(given):
        yield Feed(Path(given))
        return
    with tempfile.TemporaryDirectory(prefix="feed-") as room:
        folder = Path(room) / "feed"
        lay(given, folder, seconds)
        yield Feed(folder)


def lay(given: str, into: Path, seconds: float = 60.0) -> None:
    """Lays the text files of a feed into a directory that is made. Where that fails nothing is left of it."""
    if into.exists():
        raise FeedError(f"{into} is there already")
    try:
        into.mkdir(parents=True)
        if is_url(given):
            with tempfile.TemporaryFile() as file:
                download(given, file, seconds)
                unpack(file, into, given)
        elif Path(given).is_dir():
            for name in Feed(Path(given)).names():
                shutil.copyfile(Path(given) / name, into / name)
        else:
            with open(given, "rb") as file:
                unpack(file, into, given)
    except OSError as error:
        shutil.rmtree(into, ignore_errors=True)
        raise FeedError(f"{given}: {error.strerror or error}") from None
    except BaseException:
        shutil.rmtree(into, ignore_errors=True)
        raise


def is_url(given: str) -> bool:
    return given.lower().startswith(("http://", "https://"))


def download(url: str, file: IO[bytes], seconds: float, most: int = MOST_DOWNLOAD_BYTES) -> None:
    """Writes what a URL answers, and goes back to the start. A server that sends nothing for so many seconds is given up."""
    try:
        with urllib.request.urlopen(url, timeout=seconds) as reply:
            length = 0
            while chunk := reply.read(CHUNK):
                length += len(chunk)
                if length > most:
                    raise FeedError(f"{url}: more than {most} bytes")
                file.write(chunk)
    except urllib.error.HTTPError as error:
        raise FeedError(f"{url}: status {error.code}") from None
    except (urllib.error.URLError, http.client.HTTPException, TimeoutError, ValueError) as error:
        raise FeedError(f"{url}: {getattr(error, 'reason', None) or error or type(error).__name__}") from None
    file.seek(0)


def unpack(file: IO[bytes], into: Path, given: str) -> None:
    """Lays the text files of a zip file, which stand at its top or all in one folder."""
    try:
        with zipfile.ZipFile(file) as archive:
            for info in members(archive, given):
                copy_member(archive, info, into / PurePosixPath(info.filename).name, given)
    except (zipfile.BadZipFile, zipfile.LargeZipFile, EOFError, NotImplementedError, RuntimeError, ValueError) as error:
        raise FeedError(f"{given}: no zip file that can be read: {error}") from None
    except Exception as error:
        # zlib, bz2 and lzma have errors of their own.
        if isinstance(error, (FeedError, OSError)):
            raise
        raise FeedError(f"{given}: the zip file is damaged: {error}") from None


def members(archive: zipfile.ZipFile, given: str) -> list[zipfile.ZipInfo]:
    """The text files at the top of an archive, or else those of the one folder that has a stops.txt. Others are passed over."""
    texts = [info for info in archive.infolist() if info.filename.endswith(".txt") and not info.is_dir()]
    folders = {PurePosixPath(info.filename).parent for info in texts if PurePosixPath(info.filename).name == "stops.txt"}
    top = PurePosixPath(".")
    if top in folders or not folders:
        folder = top
    elif len(folders) == 1:
        folder = folders.pop()
    else:
        raise FeedError(f"{given}: several folders have a stops.txt: {', '.join(sorted(map(str, folders)))}")
    found = [info for info in texts if PurePosixPath(info.filename).parent == folder]
    if not found:
        raise FeedError(f"{given}: the zip file has no .txt file")
    return found


def copy_member(archive: zipfile.ZipFile, info: zipfile.ZipInfo, to: Path, given: str) -> None:
    """Copies a file out of an archive, whatever length the archive claims for it."""
    left = MOST_FILE_BYTES
    with archive.open(info) as source, open(to, "wb") as target:
        while chunk := source.read(CHUNK):
            left -= len(chunk)
            if left < 0:
                raise FeedError(f"{given}: {info.filename} has more than {MOST_FILE_BYTES} bytes")
            target.write(chunk)


def is_too_long(path: Path) -> bool:
    """Whether a file has more bytes than the program reads."""
    return os.stat(path).st_size > MOST_FILE_BYTES
