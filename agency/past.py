"""--past: serves a window of the archive again, as it was."""

from __future__ import annotations

import queue
import sys
import tempfile
import threading
from datetime import date, datetime, timedelta
from pathlib import Path
from typing import Any
from zoneinfo import ZoneInfo

from archive import Archive, Window
from clock import Clock, version_text
from config import Config
from feeds import day
from log import Log
from publisher import CaughtUp, Ended, Launch, Publisher


class PastError(Exception):
    """Why a window cannot be served again, in one line."""


def window_of(windows: list[Window], wanted: str) -> Window:
    """The window of a name, or the one that was the newest at the end of a day. Raises PastError."""
    for window in windows:
        if window.name == wanted:
            return window
    when = day(wanted)
    if when is None:
        raise PastError(f"{wanted} is neither a date as 20261201 nor a window; there are {', '.join(window.name for window in windows) or 'none'}")
    begun = [window for window in windows if window.began < end_of(when, window) and window.first <= when <= window.last]
    if not begun:
        raise PastError(f"no window of the archive was served on {wanted}; there are {', '.join(window.name for window in windows) or 'none'}")
    return begun[-1]


def end_of(when: date, window: Window) -> float:
    """The moment at which a day is over in a window's zone."""
    after = when + timedelta(days=1)
    return datetime(after.year, after.month, after.day, tzinfo=ZoneInfo(window.zone)).timestamp()


def serve(config: Config, wanted: str, port: int, stop: threading.Event) -> int:
    """Serves a window until it is told to stop. Raises PastError and the errors of the archive."""
    archive = Archive.reader(config.archive)
    window = window_of(archive.windows(), wanted)
    log = Log(Clock(), sys.stderr)
    events: queue.Queue[Any] = queue.Queue()
    with tempfile.TemporaryDirectory(prefix="past-") as room:
        archive.lay_feed(window.feed, Path(room))
        publisher = Publisher(window, Launch(config.program, Path(room), config.archive, config.connections), port, events, log)
        try:
            return watch(publisher, events, stop)
        finally:
            publisher.stop()
            publisher.join(10.0)


def watch(publisher: Publisher, events: "queue.Queue[Any]", stop: threading.Event) -> int:
    """Says when the process has the whole window, and waits. Gives the status to end with."""
    window = publisher.window
    while not stop.is_set():
        try:
            event = events.get(timeout=0.2)
        except queue.Empty:
            continue
        if isinstance(event, CaughtUp):
            versions = f"{event.messages} versions after {version_text(window.base_moment)}"
            print(f"window {window.name} with {versions} is served as {window.base} on port {publisher.port}", flush=True)
        elif isinstance(event, Ended):
            if event.status != 0:
                raise PastError(f"serve ended with status {event.status}")
            return 0
    return 0
