"""A process of `lc serve`: started, given the messages of its window from the archive, watched until it ends.

A process that starts gets what the window has in the archive, and then what is added to it, by the same way: a thread posts what the process does
not have yet. What it says stands in the queue of events of the keeper, which alone writes to the archive.
"""

from __future__ import annotations

import http.client
import queue
import socket
import sqlite3
import subprocess
import threading
import time
from dataclasses import dataclass
from pathlib import Path
from urllib.parse import urlsplit

from archive import NO_CONTENT, Archive, Posting, Window
from clock import day_text, version_text
from log import Log

CONFLICT = 409
BATCH = 90  # messages on one connection of HTTP, of which `serve` answers 100
ANSWER_SECONDS = 120.0  # within which `serve` has to answer a message, slow clients before it included
TRIES = 3
PROGRESS_SECONDS = 5.0
PORTS = 100  # how many ports from the first one on are used


@dataclass(frozen=True)
class Listens:
    """A process listens."""

    publisher: "Publisher"


@dataclass(frozen=True)
class Answered:
    """A process answered a message of its window."""

    publisher: "Publisher"
    posting: int
    moment: int
    status: int


@dataclass(frozen=True)
class CaughtUp:
    """A process has all that its window has in the archive."""

    publisher: "Publisher"
    messages: int
    seconds: float


@dataclass(frozen=True)
class Ended:
    """A process ended."""

    publisher: "Publisher"
    status: int


PublisherEvent = Listens | Answered | CaughtUp | Ended


@dataclass(frozen=True)
class Launch:
    """How processes of a window are started."""

    program: str
    feed: Path
    archive: Path
    connections: int


def arguments(window: Window, launch: Launch, port: int, base: str) -> list[str]:
    """The command of a process. It dies with this one, so that no process without a keeper holds a port."""
    serve = [launch.program, "serve", str(launch.feed), day_text(window.first), "--days", str(window.days)]
    times = ["--zone", f"file:/usr/share/zoneinfo/{window.zone}", "--change", str(window.change), "--cuts", window.cuts]
    pages = ["--base", base, "--base-moment", version_text(window.base_moment)]
    door = ["--port", str(port), "--connections", str(launch.connections), "--accept-updates"]
    return ["setpriv", "--pdeathsig", "KILL", "--", *serve, *times, *pages, *door]


class Publisher:
    """One process of a window, and the threads that read its output and give it messages."""

    def __init__(self, window: Window, launch: Launch, port: int, events: queue.Queue[PublisherEvent], log: Log) -> None:
        self.window = window
        self.port = port
        self.ready = False  # The keeper says so, once the process has the whole archive.
        self.leaving = False
        self.worn = False  # It is to be changed over.
        self.leaves_at = 0.0
        self.began = time.monotonic()
        self.posted_up_to = 0
        self._launch = launch
        self._events = events
        self._log = log
        self._news = threading.Event()
        self._stopped = threading.Event()
        self._listening = threading.Event()
        # The signal at the keeper's death is that of the thread that starts the process: this has to be the main thread.
        command = arguments(window, launch, port, window.base)
        self.process = subprocess.Popen(command, stdin=subprocess.DEVNULL, stdout=subprocess.PIPE, stderr=subprocess.STDOUT, text=True, errors="replace")
        self._threads = [threading.Thread(target=one, daemon=True) for one in (self._read_output, self._give_messages)]
        for thread in self._threads:
            thread.start()

    def wake(self) -> None:
        """Says that the archive has more messages."""
        self._news.set()

    def stop(self) -> None:
        """Ends the process. It has nothing to write down."""
        self._stopped.set()
        self._news.set()
        self._listening.set()
        if self.process.poll() is None:
            self.process.terminate()

    def join(self, seconds: float) -> None:
        """Waits for the process to end, and kills it where it does not."""
        try:
            self.process.wait(seconds)
        except subprocess.TimeoutExpired:
            self.process.kill()
            self.process.wait()
        for thread in self._threads:
            thread.join(seconds)

    def _read_output(self) -> None:
        assert self.process.stdout is not None
        for line in self.process.stdout:
            said = line.rstrip("\n")
            self._log.info("serve", window=self.window.name, port=self.port, says=said)
            if said == f"listening {self.port}":
                self._events.put(Listens(self))
                self._listening.set()
        status = self.process.wait()
        self._stopped.set()
        self._news.set()
        self._listening.set()
        self._events.put(Ended(self, status))

    def _give_messages(self) -> None:
        """Posts what the archive has of the window, and goes on with what comes."""
        self._listening.wait()
        try:
            archive = Archive.reader(self._launch.archive)
            try:
                self._give(archive)
            finally:
                archive.close()
        except (OSError, http.client.HTTPException, sqlite3.Error) as error:
            if not self._stopped.is_set():
                self._log.error("serve does not answer", window=self.window.name, port=self.port, error=f"{type(error).__name__}: {error}")
                self.process.kill()

    def _give(self, archive: Archive) -> None:
        begun = said = time.monotonic()
        count = 0
        caught_up = False
        while not self._stopped.is_set():
            self._news.clear()
            rows = archive.postings(self.window.id, self.posted_up_to, BATCH)
            if rows:
                self._post_with_patience(rows)
                count += len(rows)
                if not caught_up and time.monotonic() - said > PROGRESS_SECONDS:
                    said = time.monotonic()
                    self._log.info("posting the archive", window=self.window.name, port=self.port, messages=count, seconds=round(said - begun, 1))
            elif not caught_up:
                caught_up = True
                self._events.put(CaughtUp(self, count, time.monotonic() - begun))
            else:
                self._news.wait(1.0)

    def _post_with_patience(self, rows: list[Posting]) -> None:
        """Posts messages, and tries again where a connection fails. What was posted in vain may have arrived."""
        tries = 0
        while rows := [row for row in rows if row.id > self.posted_up_to]:
            try:
                self._post(rows, again=tries > 0)
            except (OSError, http.client.HTTPException):
                tries += 1
                if tries == TRIES or self._stopped.wait(0.2):
                    raise

    def _post(self, rows: list[Posting], again: bool) -> None:
        path = urlsplit(self.window.base).path + "updates"
        connection = http.client.HTTPConnection("127.0.0.1", self.port, timeout=ANSWER_SECONDS)
        try:
            for row in rows:
                # An idle connection would hold up other clients.
                fields = {"Host": urlsplit(self.window.base).netloc, "Connection": "close" if row is rows[-1] else "keep-alive"}
                connection.request("POST", path, row.body, fields)
                reply = connection.getresponse()
                reply.read()
                status = NO_CONTENT if again and reply.status == CONFLICT else reply.status
                again = False
                self.posted_up_to = row.id
                if row.status != status:
                    self._events.put(Answered(self, row.id, row.moment, status))
        finally:
            connection.close()


def free_port(first: int, taken: set[int]) -> int | None:
    """The lowest port from the first one on that is not taken, and at which nobody listens. None where there is none."""
    for port in range(first, first + PORTS):
        if port not in taken and is_free(port):
            return port
    return None


def is_free(port: int) -> bool:
    with socket.socket() as probe:
        # As `serve` listens: connections of an ended process that linger do not matter.
        probe.setsockopt(socket.SOL_SOCKET, socket.SO_REUSEADDR, 1)
        try:
            probe.bind(("127.0.0.1", port))
            return True
        except OSError:
            return False
