"""The feeds that windows are made from: fetched, checked by `lc check`, mended where it refuses them, and kept in the archive and as files.

Beside the archive ARCHIVE.feeds/ has a directory for each feed, named by its hash, which `lc serve` reads, and a file of its trips. Both are made anew
from the archive where they are missing.
"""

from __future__ import annotations

import os
import shutil
import subprocess
import sys
import tempfile
from dataclasses import dataclass
from datetime import date, timedelta
from pathlib import Path
from zoneinfo import ZoneInfo

import trips as trips_of_feeds
from archive import Archive, packed
from clock import day_in, day_text
from config import Config
from feeds import Feed, FeedError, lay
from trips import Trips

LINTER = Path(__file__).with_name("lint.py")
CHECK_SECONDS = 1800.0
UTC = "Etc/UTC"


@dataclass(frozen=True)
class Scope:
    """Which part of a feed a window takes, and by which settings."""

    first: date
    days: int
    zone: str
    change: int

    def options(self) -> list[str]:
        return ["--days", str(self.days), "--zone", f"file:/usr/share/zoneinfo/{self.zone}"]


@dataclass(frozen=True)
class Prepared:
    """A feed that a window can be made from."""

    digest: str
    feed: Feed
    files: dict[str, bytes]  # the files, packed as the archive keeps them
    trips: Trips
    scope: Scope
    mended: list[str]  # what `check` refused of it first, and what was mended then, a line each
    connections: int


class FeedStore:
    """The directories of feeds beside an archive."""

    def __init__(self, archive: Path) -> None:
        self.folder = archive.with_name(archive.name + ".feeds")

    def path(self, digest: str) -> Path:
        return self.folder / digest

    def fetch(self, given: str) -> Path:
        """Lays a feed into a new directory. Raises FeedError."""
        self.folder.mkdir(parents=True, exist_ok=True)
        room = Path(tempfile.mkdtemp(prefix="new-", dir=self.folder))
        lay(given, room / "feed")
        return room / "feed"

    def adopt(self, folder: Path, scope: Scope, mended: list[str], connections: int) -> Prepared:
        """Keeps a checked feed under its hash."""
        digest = Feed(folder).digest()
        path = self.path(digest)
        if not path.is_dir():
            os.replace(folder, path)
        feed = Feed(path)
        files = {name: packed((path / name).read_bytes()) for name in feed.names()}
        return Prepared(digest, feed, files, self.trips(digest, scope.zone), scope, mended, connections)

    def laid(self, archive: Archive, digest: str) -> Feed:
        """The directory of a feed of the archive, made anew where it is missing or another. Raises FeedError."""
        path = self.path(digest)
        if path.is_dir() and Feed(path).digest() == digest:
            return Feed(path)
        self.folder.mkdir(parents=True, exist_ok=True)
        shutil.rmtree(path, ignore_errors=True)
        room = Path(tempfile.mkdtemp(prefix="new-", dir=self.folder))
        archive.lay_feed(digest, room)
        if Feed(room).digest() != digest:
            shutil.rmtree(room, ignore_errors=True)
            raise FeedError(f"{archive.path}: the feed {digest} is damaged")
        os.replace(room, path)
        return Feed(path)

    def trips(self, digest: str, zone: str) -> Trips:
        """The trips of a feed. They are read once, and kept in a file."""
        path = self.folder / f"{digest}.trips.json"
        try:
            return trips_of_feeds.saved(path, ZoneInfo(zone))
        except (OSError, ValueError, KeyError, TypeError):
            found = trips_of_feeds.read_trips(Feed(self.path(digest)), ZoneInfo(zone))
            aside = path.with_suffix(".new")
            trips_of_feeds.save(found, aside)
            os.replace(aside, path)
            return found

    def sweep(self) -> None:
        """Removes what an end in the middle of a fetch left."""
        for room in self.folder.glob("new-*"):
            shutil.rmtree(room, ignore_errors=True)


def zone_of(config: Config, feed: Feed) -> str:
    """The zone of CONFIG, or else the one of agency.txt. Raises FeedError where that is none."""
    zones = [config.zone] if config.zone else feed.zones() or [UTC]
    try:
        ZoneInfo(zones[0])
    except (KeyError, ValueError, OSError):
        raise FeedError(f"agency.txt names the zone {zones[0]}, which is none: set `zone`") from None
    return zones[0]


@dataclass(frozen=True)
class Verdict:
    """What `lc check` says of a feed: what it refuses, none where it takes it, and how many connections the window has."""

    refused: str | None
    connections: int


def checked(program: str, folder: Path, scope: Scope) -> Verdict:
    """Asks `lc check`. Raises FeedError where it cannot say."""
    run = said_by([program, "check", str(folder), day_text(scope.first), *scope.options(), "--change", str(scope.change)])
    counts = dict(line.rsplit(" ", 1) for line in run.stdout.splitlines() if " " in line)
    if run.returncode == 0:
        return Verdict(None, int(counts.get("connections", 0)))
    refused = next((line for line in run.stdout.splitlines() if line.startswith("error ")), None)
    return Verdict(refused or f"status {run.returncode} {run.stderr.strip()[-200:]}", 0)


def mend(folder: Path, into: Path, scope: Scope) -> list[str]:
    """Writes a feed without what `lc check` refuses, by the linter. Gives what it changed, a line each. Raises FeedError."""
    run = said_by([sys.executable, str(LINTER), str(folder), "--mend", str(into), "--first", day_text(scope.first), *scope.options()])
    if not into.is_dir():
        raise FeedError(f"{LINTER.name} --mend: status {run.returncode} {run.stderr.strip()[-200:]}")
    return run.stdout.splitlines()


def said_by(command: list[str]) -> subprocess.CompletedProcess[str]:
    try:
        return subprocess.run(command, stdin=subprocess.DEVNULL, capture_output=True, text=True, errors="replace", timeout=CHECK_SECONDS)
    except (OSError, subprocess.TimeoutExpired) as error:
        raise FeedError(f"{command[0]}: {error}") from None


def prepare(config: Config, store: FeedStore, now: float, first: date | None = None) -> Prepared:
    """Fetches the feed of CONFIG and has it ready for a window from a date on, yesterday where none is given. Raises FeedError, and leaves nothing then."""
    folder = store.fetch(config.feed)
    room = folder.parent
    try:
        zone = zone_of(config, Feed(folder))
        scope = Scope(first or day_in(ZoneInfo(zone), now) - timedelta(days=1), config.days, zone, config.change)
        verdict = checked(config.program, folder, scope)
        mended: list[str] = []
        if verdict.refused is not None:
            mended = [verdict.refused, *mend(folder, room / "mended", scope)]
            folder = room / "mended"
            verdict = checked(config.program, folder, scope)
        if verdict.refused is not None:
            raise FeedError(f"{config.feed}: {verdict.refused}, after mending {mended[0]}")
        return store.adopt(folder, scope, mended, verdict.connections)
    finally:
        shutil.rmtree(room, ignore_errors=True)
