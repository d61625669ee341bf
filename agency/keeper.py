"""The keeper: one loop that takes what happens, one thing after the other, and sees to it that every window is served.

Threads fetch, give messages to processes, prepare feeds and answer /status. What they find comes into one queue. Only the loop writes to the
archive and starts processes, so nothing here needs a lock.
"""

from __future__ import annotations

import queue
import shlex
import signal
import sqlite3
import subprocess
import threading
import time
from collections.abc import Callable
from dataclasses import dataclass, replace
from datetime import date
from pathlib import Path
from typing import Any
from zoneinfo import ZoneInfo

import documents
import rollover
from archive import NO_CONTENT, Archive, Window
from clock import Clock, day_in, day_text, version_text
from config import Config, ConfigError
from documents import Listed, TimeMap
from feed_store import FeedStore, Prepared, prepare
from feeds import Feed, FeedError
from fetching import Arrived, Failed, Fetcher, Outcome
from intake import Intake, Shelf
from messages import full_form
from log import Log
from publisher import Answered, CaughtUp, Ended, Launch, Listens, Publisher, free_port
from ready import say_ready
from rollover import Limits
from trips import Trips
from windows import Live

BEHIND_SECONDS = 60  # A window without messages is known since a minute before its start, so that a message of just before has room.
TURN_SECONDS = 0.5
PREPARE_AGAIN = 600.0
RELOAD_SECONDS = 30.0
AGAIN_SECONDS = 10.0
POSTED = "post"  # the source of messages that are handed in by --post

# The keys of CONFIG that are read at a start alone.
FIXED = ("name", "base", "archive", "public", "proxy", "port", "status_port", "clock", "most_messages", "most_bytes")


@dataclass(frozen=True)
class FeedReady:
    """A feed is ready for a window."""

    prepared: Prepared


@dataclass(frozen=True)
class FeedFailed:
    """No feed is to be had."""

    error: str


class Keeper:
    """All that one keep.py keeps."""

    def __init__(self, config: Config, archive: Archive, clock: Clock, log: Log, reread: Callable[[], Config]) -> None:
        self.config = config
        self.archive = archive
        self.clock = clock
        self.log = log
        self.limits = Limits(config.most_messages, config.most_bytes)
        self.intake = Intake(archive, self.limits, log)
        self.store = FeedStore(config.archive)
        self.events: queue.Queue[Any] = queue.Queue()
        self.windows: list[Live] = []
        self.fetchers: list[Fetcher] = []
        self.problems: dict[str, str] = {}
        self.unwritten: list[Answered] = []
        self.steady_from = 0.0  # Windows begin and end once the clock has been steady for a while.
        self.stopping = False
        self._reread = reread
        self._reload_wanted = False
        self._preparing = False
        self._prepare_from = 0.0
        self._documents_stale = True
        self._documents_from = 0.0
        self._routes: list[documents.Route] | None = None
        self._routes_stale = True
        self._routes_from = 0.0
        self._totals = archive.totals()

    # The start

    def start(self) -> None:
        """Takes up what the archive has, or begins the first window. Raises FeedError where there is no feed to begin with."""
        self.store.sweep()
        ports = documents.routed_ports(self.config.proxy, self.config.name)
        for window in self.archive.windows():
            if window.ended is None:
                feed = self.store.laid(self.archive, window.feed)
                live = self._live(window, feed, self.store.trips(window.feed, window.zone))
                # What the proxy and the catalog say stays, until there is something new to say.
                live.ports = ports.get(window.name, [])
                live.listed = bool(live.ports)
        self.intake.moment = max([self.archive.last_posted(), *(live.window.base_moment for live in self.windows)])
        if self.windows:
            self.intake.recover(self.windows[-1].window)
        else:
            prepared = prepare(self.config, self.store, self.clock.now(), self.config.first)
            self._begin(prepared)
        self._listen()
        self.log.info("started", windows=[live.window.name for live in self.windows], version=version_text(self.intake.moment))

    def _live(self, window: Window, feed: Feed, trips: Trips) -> Live:
        shelf = Shelf(window, self.archive.held(window.id))
        live = Live(shelf, feed, trips, TimeMap(self._folder(window) / "timemap", window))
        self.windows.append(live)
        return live

    def _folder(self, window: Window) -> Path:
        return self.config.public / self.config.name / window.name

    def _listen(self) -> None:
        """Starts the fetchers of the sources that CONFIG names."""
        for fetcher in self.fetchers:
            fetcher.stop()
        self.intake.listen_to([*self.config.realtime, POSTED], self.timetables())
        self.fetchers = [Fetcher(source, self.config.every, self.config.headers, self.events) for source in self.config.realtime]
        for fetcher in self.fetchers:
            fetcher.start()

    def timetables(self) -> list[Trips]:
        """The trips of the windows, of the newest one first."""
        return [live.trips for live in reversed(self.windows)]

    # The loop

    def run(self, after_turn: Callable[[], None]) -> None:
        """Goes on until it is told to stop."""
        self.turn()
        while not self.stopping:
            try:
                event = self.events.get(timeout=TURN_SECONDS)
            except queue.Empty:
                event = None
            if event is not None:
                self.handle(event)
            self.turn()
            after_turn()

    def archive_totals(self) -> tuple[int, int, int]:
        """How many messages the archive has, how many bytes they had when they came, and how many bytes it has."""
        numbers = self.intake.numbers
        messages, length = self._totals
        return messages + numbers.came, length + numbers.bytes_came, self.archive.size()

    def stop(self) -> None:
        """Ends all that was started. What came is in the archive."""
        for fetcher in self.fetchers:
            fetcher.stop()
        every = [one for live in self.windows for one in live.publishers]
        for publisher in every:
            publisher.leaving = True
            publisher.stop()
        for publisher in every:
            publisher.join(10.0)
        while not self.events.empty():
            event = self.events.get()
            if isinstance(event, Answered):
                self._answered(event)
            elif isinstance(event, Arrived) and event.receipt is not None:
                event.receipt.give(Outcome("failed", "keep.py ends"))
        self._write_statuses()

    def signalled(self, number: int, frame: object) -> None:
        """SIGTERM and SIGINT end the loop, SIGHUP has CONFIG and the feed read anew."""
        if number == signal.SIGHUP:
            self._reload_wanted = True
        else:
            self.stopping = True

    def handle(self, event: object) -> None:
        """Does what one event asks for."""
        if isinstance(event, Arrived):
            self._arrived(event)
        elif isinstance(event, Failed):
            if event.source in self.intake.senders:
                self.intake.failed(event.source, event.error)
        elif isinstance(event, Answered):
            self._answered(event)
        elif isinstance(event, CaughtUp):
            self._caught_up(event)
        elif isinstance(event, Ended):
            self._ended(event)
        elif isinstance(event, Listens):
            self.log.info("listens", window=event.publisher.window.name, port=event.publisher.port)
        elif isinstance(event, FeedReady):
            self._preparing = False
            self.problems.pop("feed", None)
            self._feed_ready(event.prepared)
        elif isinstance(event, FeedFailed):
            self._feed_failed(event.error)

    def turn(self) -> None:
        """Does what time asks for."""
        self._watch_the_clock()
        if self._reload_wanted:
            self._reload_wanted = False
            self._reload()
        self._write_statuses()
        self._roll_over()
        self._close_full()
        for live in list(self.windows):
            self._manage(live)
        self._write_routes()
        self._list_windows()
        self._write_documents()

    # Messages

    def _arrived(self, event: Arrived) -> None:
        if event.source not in self.intake.senders:
            outcome = Outcome("failed", "this source is not listened to any more")
        else:
            shelves = [live.shelf for live in self.windows if live.window.closed is None]
            outcome = self.intake.take(event.source, event.body, self.clock.now(), self.timetables(), shelves)
            for live in self.windows:
                live.wake()
        if event.receipt is not None:
            event.receipt.give(outcome)

    def _answered(self, event: Answered) -> None:
        """Notes the status with which a window answered a message. Replicas answer the same, so the first one counts."""
        live = self._live_of(event.publisher)
        if live is not None:
            self.unwritten.append(event)

    def _write_statuses(self) -> None:
        """Writes the statuses that came. Where the disk is full they wait."""
        if not self.unwritten:
            return
        try:
            with self.archive.transaction():
                news = [event for event in self.unwritten if self.archive.set_status(event.publisher.window.id, event.posting, event.status)]
        except sqlite3.Error as error:
            self.problems["archive"] = f"statuses cannot be written: {error}"
            return
        self.unwritten.clear()
        self.problems.pop("archive", None)
        for event in news:
            self._status_written(event)

    def _status_written(self, event: Answered) -> None:
        live = self._live_of(event.publisher)
        if live is None:
            return
        if event.status != NO_CONTENT:
            self.log.error("serve did not take a message", window=live.window.name, port=event.publisher.port, posting=event.posting, status=event.status)
            return
        live.shelf.answered(event.moment)
        self._documents_stale = True
        if not live.time_map_stale:
            try:
                live.time_map.append(event.moment)
            except OSError as error:
                live.time_map_stale = True
                self.log.error("a document cannot be written", error=str(error))

    # Processes

    def _live_of(self, publisher: Publisher) -> Live | None:
        return next((live for live in self.windows if publisher in live.publishers), None)

    def _caught_up(self, event: CaughtUp) -> None:
        publisher = event.publisher
        live = self._live_of(publisher)
        if live is None or publisher.leaving:
            return
        publisher.ready = True
        live.failures = 0
        self._routes_stale = True
        self.log.info("ready", window=live.window.name, port=publisher.port, messages=event.messages, seconds=round(event.seconds, 3))

    def _ended(self, event: Ended) -> None:
        live = self._live_of(event.publisher)
        if live is not None:
            if self.stopping:
                event.publisher.leaving = True
            live.ended(event.publisher, event.status, self.log)
            self._routes_stale = True

    def _manage(self, live: Live) -> None:
        """Starts the processes that a window lacks, and lets those go that have done their part."""
        if self.stopping:
            return
        now = time.monotonic()
        for publisher in live.publishers:
            # A process that the proxy may still ask stays.
            if publisher.leaving and now >= publisher.leaves_at and not self._routes_stale:
                publisher.stop()
        if live.ending:
            for publisher in live.staying() if now >= live.unroute_at else []:
                self._leave(publisher, self.config.drain)
            if not live.publishers:
                self.windows.remove(live)
            return
        staying, ready = live.staying(), live.ready()
        worn = [one for one in ready if live.due(one, self.config.renew * 3600)]
        if len(staying) < self.config.replicas:
            self._start_one(live)
        elif worn and self.config.reload is None:
            # The proxy knows the ports that it knows: the next process needs the same one.
            self._leave(worn[0], 0.0)
        elif worn and len(staying) == self.config.replicas:
            self._start_one(live)
        if len(ready) > self.config.replicas:
            self._leave((worn or ready)[0], self.config.drain)

    def _leave(self, publisher: Publisher, seconds: float) -> None:
        publisher.leaving = True
        publisher.leaves_at = time.monotonic() + seconds
        self._routes_stale = True

    def _start_one(self, live: Live) -> None:
        if time.monotonic() < live.next_start:
            return
        port = self._port_for(live)
        if port is None:
            self.problems["ports"] = f"no port from {self.config.port} on is free"
            live.next_start = time.monotonic() + 10.0
            return
        self.problems.pop("ports", None)
        launch = Launch(self.config.program, live.feed.folder, self.config.archive, self.config.connections)
        try:
            live.start(launch, port, self.events, self.log)
            self.log.info("starting", window=live.window.name, port=port)
        except OSError as error:
            live.next_start = time.monotonic() + 10.0
            self.log.error("serve cannot be started", window=live.window.name, error=str(error))

    def _port_for(self, live: Live) -> int | None:
        """A port for the next process. With `reload` it is another than the proxy knows, else one of those if there is one."""
        used = {one.port for other in self.windows for one in other.publishers}
        known = {port for other in self.windows for port in other.ports}
        if self.config.reload is None:
            for port in live.ports:
                if port not in used and free_port(port, set()) == port:
                    return port
        return free_port(self.config.port, used | known | {self.config.status_port})

    # Windows

    def _begin(self, prepared: Prepared) -> None:
        """Begins a window with a feed. Raises sqlite3.Error."""
        scope = prepared.scope
        draft = Window(0, "", prepared.digest, scope.first, scope.days, scope.zone, scope.change, self.config.cuts, "", 0, 0, None, None)
        self._open(draft, prepared.files, prepared.feed, prepared.trips)
        self.log.info("feed", hash=prepared.digest, connections=prepared.connections, mended=len(prepared.mended))
        for line in prepared.mended:
            self.log.warning("mended", says=line)
        if prepared.connections == 0:
            self.log.error("THE FEED HAS NO CONNECTIONS IN THE WINDOW", first=day_text(scope.first), days=scope.days)

    def _open(self, draft: Window, files: dict[str, bytes], feed: Feed, trips: Trips) -> None:
        """Opens a window as drafted, under a name and with a base moment of its own. The state of now is its first message."""
        now = self.clock.now()
        name = rollover.window_name(draft.first, {window.name for window in self.archive.windows()})
        first = full_form(self.intake.moment, self.intake.state) if self.intake.state else None
        base_moment = int(now) - BEHIND_SECONDS if first is None else self.intake.moment - 1
        draft = replace(draft, name=name, base=self.config.window_base(name), base_moment=base_moment, began=int(now))
        with self.archive.transaction():
            self.archive.add_feed(draft.feed, now, files)
            window = self.archive.add_window(draft, first)
        self.intake.moment = max(self.intake.moment, base_moment)
        self._live(window, feed, trips)
        self.log.info("window begins", window=name, base=window.base, first=day_text(window.first), last=day_text(window.last), feed=window.feed)

    def _roll_over(self) -> None:
        """Begins the next window where it is time, and ends those whose last day is over."""
        if time.monotonic() < self.steady_from:
            return
        newest = self.windows[-1]
        if time.monotonic() >= self._prepare_from and not self._preparing:
            if rollover.is_nearly_full(newest.shelf.held, self.limits):
                self._succeed(newest)
            elif self._today(newest) >= rollover.next_due(newest.window, self.config.overlap):
                self._prepare()
        if newest.listed:
            for live in self.windows[:-1]:
                if not live.ending and rollover.is_over(live.window, self._today(live)):
                    self._end(live)

    def _today(self, live: Live) -> date:
        return day_in(ZoneInfo(live.window.zone), self.clock.now())

    def _succeed(self, live: Live) -> None:
        """Begins the publisher after one that is nearly full: the same timetable under another path."""
        held = live.shelf.held
        self.log.info("nearly full", window=live.window.name, messages=held.messages, bytes=held.bytes)
        try:
            self._open(replace(live.window, closed=None), {}, live.feed, live.trips)
        except sqlite3.Error as error:
            self._feed_failed(f"the archive cannot be written: {error}")

    def _prepare(self) -> None:
        """Has a thread fetch the feed for the next window. On the last day of the newest one its feed has to do where there is no other."""
        self._preparing = True
        newest = self.windows[-1]
        fallback = newest.window.feed if self._today(newest) >= newest.window.last else None
        threading.Thread(target=self._prepared, args=(self.config, self.clock.now(), fallback), daemon=True).start()

    def _prepared(self, config: Config, now: float, fallback: str | None) -> None:
        try:
            self.events.put(FeedReady(prepare(config, self.store, now)))
        except (FeedError, OSError) as error:
            try:
                if fallback is None:
                    raise
                self.log.error("no fresh feed: the one before is used again", error=str(error))
                self.events.put(FeedReady(prepare(replace(config, feed=str(self.store.path(fallback))), self.store, now)))
            except (FeedError, OSError) as last:
                self.events.put(FeedFailed(str(last)))

    def _feed_ready(self, prepared: Prepared) -> None:
        """Begins a window with a feed, where it is time for one or something is new in it."""
        newest = self.windows[-1]
        due = self._today(newest) >= rollover.next_due(newest.window, self.config.overlap)
        if not due and not self._differs(newest.window, prepared):
            self.log.info("the feed is the same as before", hash=prepared.digest)
            return
        try:
            self._begin(prepared)
        except sqlite3.Error as error:
            self._feed_failed(f"the archive cannot be written: {error}")

    def _differs(self, window: Window, prepared: Prepared) -> bool:
        """Whether a window would be another one if it were begun with this feed and CONFIG."""
        scope = prepared.scope
        wanted = (prepared.digest, scope.days, scope.zone, scope.change, self.config.cuts)
        return wanted != (window.feed, window.days, window.zone, window.change, window.cuts)

    def _feed_failed(self, error: str) -> None:
        self._preparing = False
        self._prepare_from = time.monotonic() + PREPARE_AGAIN
        self.problems["feed"] = error
        self.log.error("no window can be begun", error=error, again_in=PREPARE_AGAIN)

    def _close_full(self) -> None:
        """A publisher that is nearly full takes no more messages once a newer one is there."""
        for live in self.windows[:-1]:
            if live.window.closed is None and self.windows[-1].listed and rollover.is_nearly_full(live.shelf.held, self.limits):
                self.archive.close_window(live.window.id, self.clock.now())
                live.shelf.close(self.clock.now())
                self._documents_stale = True
                self.log.info("window takes no more messages", window=live.window.name)

    def _end(self, live: Live) -> None:
        """Ends a window whose last day is over. It stays in the archive."""
        try:
            self.archive.end_window(live.window.id, self.clock.now())
        except sqlite3.Error as error:
            self.problems["archive"] = f"the end of a window cannot be written: {error}"
            return
        live.ending = True
        live.unroute_at = time.monotonic() + TURN_SECONDS + self.config.drain
        self._documents_stale = True
        self.log.info("window ends", window=live.window.name)

    def _reload(self) -> None:
        """Takes CONFIG, the feed and the program anew."""
        try:
            config = self._reread()
        except ConfigError as error:
            self.log.error("CONFIG is not read anew", error=str(error))
            return
        fixed = [key for key in FIXED if getattr(config, key) != getattr(self.config, key)]
        if fixed:
            self.log.error("these keys are read at a start alone", keys=fixed)
        self.config = replace(config, **{key: getattr(self.config, key) for key in FIXED})
        self.log.info("CONFIG is read anew")
        self._listen()
        for live in self.windows:
            for publisher in live.staying():
                publisher.worn = True
        if not self._preparing:
            self._prepare()

    def _watch_the_clock(self) -> None:
        jump = self.clock.jump()
        if jump:
            self.steady_from = time.monotonic() + self.config.settle
            self.problems["clock"] = f"the clock jumped by {jump:.0f} s: no window begins or ends within {self.config.settle:g} s"
            self.log.error("the clock jumped", seconds=round(jump))
        elif time.monotonic() >= self.steady_from:
            self.problems.pop("clock", None)

    # Documents

    def _write_routes(self) -> None:
        """Says to the proxy which processes it may ask. A window whose processes are all gone keeps its ports."""
        if not self._routes_stale or time.monotonic() < self._routes_from:
            return
        for live in self.windows:
            live.ports = [one.port for one in live.ready()] or live.ports
        routes = [documents.route_of(live.window, live.ports) for live in self.windows if live.ports and (live.staying() or not live.ending)]
        if routes != self._routes:
            error = self._tell_proxy(routes)
            if error is not None:
                self.problems["proxy"] = error
                self._routes_from = time.monotonic() + AGAIN_SECONDS
                self.log.error("the proxy does not know the ports", error=error)
                return
            self.problems.pop("proxy", None)
            self._routes = routes
        self._routes_stale = False
        for live in self.windows:
            if live.routed is None and live.ready():
                live.routed = time.monotonic()

    def _list_windows(self) -> None:
        """Lists windows in the catalog once the proxy sends requests there, which takes it a moment after `reload`."""
        patience = 0.0 if self.config.reload is None else self.config.drain
        for live in self.windows:
            if not live.listed and live.routed is not None and time.monotonic() >= live.routed + patience:
                live.listed = True
                self._documents_stale = True

    def _tell_proxy(self, routes: list[documents.Route]) -> str | None:
        """Writes the files for the proxy and has it read them. Gives what went wrong."""
        try:
            documents.write_routes(self.config.proxy, self.config.name, routes)
            self.log.info("ports", windows={one.window: one.ports for one in routes})
            if self.config.reload is not None:
                run = subprocess.run(shlex.split(self.config.reload), stdin=subprocess.DEVNULL, capture_output=True, text=True, errors="replace", timeout=RELOAD_SECONDS)
                if run.returncode != 0:
                    return f"{self.config.reload}: status {run.returncode} {run.stderr.strip()[-200:]}"
        except (OSError, ValueError, subprocess.TimeoutExpired) as error:
            return str(error)
        return None

    def _write_documents(self) -> None:
        """Writes the static documents that are not as they should be, at most once in half a second. systemd hears of the first that are written."""
        if not self._documents_stale or time.monotonic() < self._documents_from:
            return
        self._documents_from = time.monotonic() + TURN_SECONDS
        served = [live for live in self.windows if live.listed and not live.ending]
        if not served:
            return
        try:
            for live in served:
                folder = self._folder(live.window)
                if not (folder / "names.json").exists():
                    documents.write(folder / "names.json", documents.names(live.feed, live.window.zone))
                if live.time_map_stale:
                    live.time_map.write(self.archive.versions(live.window.id))
                    live.time_map_stale = False
            listed = [Listed(live.window, live.shelf.held.versions, live.shelf.held.last_version or live.window.base_moment) for live in served]
            catalog = documents.catalog(self.config, listed, served[-1].window.name)
            documents.write(self.config.public / self.config.name / "catalog.json", catalog)
        except (OSError, FeedError) as error:
            self.problems["documents"] = f"documents cannot be written: {error}"
            self._documents_from = time.monotonic() + AGAIN_SECONDS
            self.log.error("documents cannot be written", error=str(error))
            return
        self._documents_stale = False
        self.problems.pop("documents", None)
        if self.windows[-1].ready():
            say_ready(f"window {self.windows[-1].window.name} is served")
