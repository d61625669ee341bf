"""A window that is served: its feed, what it holds, its processes, and which of them a proxy may ask."""

from __future__ import annotations

import queue
import time
from dataclasses import dataclass, field
from typing import Any

from archive import Window
from documents import TimeMap
from feeds import Feed
from intake import Shelf
from log import Log
from publisher import Launch, Publisher
from trips import Trips

SHORT_LIFE = 10.0  # A process that ends within so many seconds is started again after a wait.
LONGEST_WAIT = 60.0
PORT_TAKEN = 10  # the status of `serve` where its port is taken


@dataclass
class Live:
    """A window that is served, or is about to be."""

    shelf: Shelf
    feed: Feed
    trips: Trips
    time_map: TimeMap
    publishers: list[Publisher] = field(default_factory=list)
    ports: list[int] = field(default_factory=list)  # as the proxy knows them
    listed: bool = False  # in the catalog
    routed: float | None = None  # since when the proxy knows it
    ending: bool = False
    unroute_at: float = 0.0  # when an ending window's processes may leave: clients read the catalog before they ask
    time_map_stale: bool = True
    restarts: int = 0
    failures: int = 0  # processes that ended at once, one after the other
    next_start: float = 0.0
    lifetime: float | None = None  # how long a process lived that used its connections up

    @property
    def window(self) -> Window:
        return self.shelf.window

    def staying(self) -> list[Publisher]:
        return [one for one in self.publishers if not one.leaving]

    def ready(self) -> list[Publisher]:
        return [one for one in self.staying() if one.ready]

    def wake(self) -> None:
        """Says to the processes that the archive has more."""
        for publisher in self.publishers:
            publisher.wake()

    def ended(self, publisher: Publisher, status: int, log: Log) -> None:
        """Notes that a process ended, and when the next one may start."""
        self.publishers.remove(publisher)
        if publisher.leaving:
            return
        lived = time.monotonic() - publisher.began
        self.restarts += 1
        self.failures = self.failures + 1 if lived < SHORT_LIFE else 0
        # A port that another program took is no reason to wait: the next process tries another.
        wait = 0.0 if self.failures <= 1 or status == PORT_TAKEN else min(LONGEST_WAIT, 2.0 ** (self.failures - 1))
        self.next_start = time.monotonic() + wait
        if status == 0:
            self.lifetime = lived
        log.error("serve ended", window=self.window.name, port=publisher.port, status=status, lived=round(lived, 1), again_in=wait)

    def due(self, publisher: Publisher, renew_seconds: float) -> bool:
        """Whether a process should be changed over, before its connections are used up."""
        lifetime = renew_seconds if self.lifetime is None else min(renew_seconds, 0.8 * self.lifetime)
        return publisher.ready and (publisher.worn or time.monotonic() - publisher.began > lifetime)

    def start(self, launch: Launch, port: int, events: "queue.Queue[Any]", log: Log) -> None:
        """Starts a process. Only the main thread may. Raises OSError."""
        self.publishers.append(Publisher(self.window, launch, port, events, log))
