"""/status and /metrics on the loopback address, and the door for messages that are handed in by --post."""

from __future__ import annotations

import json
import queue
import threading
from http.server import BaseHTTPRequestHandler, ThreadingHTTPServer
from typing import Any, Iterator, Sequence

from prometheus_client import CollectorRegistry, generate_latest
from prometheus_client.core import CounterMetricFamily, GaugeMetricFamily, Metric
from prometheus_client.registry import Collector

from archive import Window
from clock import day_text, iso, version_text
from fetching import Arrived, Outcome, Receipt
from intake import Sender
from keeper import POSTED, Keeper
from messages import MOST_BYTES
from rollover import next_due
from windows import Live

POST_SECONDS = 60.0
SILENT_TURNS = 20  # A source that says nothing new for so many turns is a problem.
SILENT_SECONDS = 600.0


def seconds_since(now: float, moment: float | None) -> float | None:
    return None if moment is None else round(now - moment, 1)


def source_status(sender: Sender, now: float) -> dict[str, object]:
    return {
        "source": sender.name,
        "age": seconds_since(now, sender.came),
        "moment": version_text(sender.source.moment) if sender.source.moment else None,
        "failures": sender.failures,
        "failed": sender.failed,
        "error": sender.error,
        "updates": sender.updates,
        "unknown": sender.unknown,
    }


def window_status(live: Live) -> dict[str, object]:
    window, held = live.window, live.shelf.held
    return {
        "window": window.name,
        "base": window.base,
        "last": day_text(window.last),
        "takesMessages": window.closed is None,
        "ending": live.ending,
        "versions": held.versions,
        "lastVersion": version_text(held.last_version or window.base_moment),
        "messages": held.messages,
        "bytes": held.bytes,
        "restarts": live.restarts,
        "processes": [{"port": one.port, "pid": one.process.pid, "ready": one.ready, "leaving": one.leaving} for one in live.publishers],
    }


def problems_of(keeper: Keeper, now: float) -> list[str]:
    """What an administrator should look at."""
    found = [f"{key}: {says}" for key, says in keeper.problems.items()]
    if keeper.intake.archive_error is not None:
        found.append(f"archive: messages are not posted, since they cannot be archived: {keeper.intake.archive_error}")
    for sender in keeper.intake.senders.values():
        if sender.failures:
            found.append(f"source {sender.name}: {sender.error}, {sender.failures} times in a row")
        elif sender.name != POSTED and sender.came is not None and now - sender.came > max(SILENT_SECONDS, SILENT_TURNS * keeper.config.every):
            found.append(f"source {sender.name}: no message for {now - sender.came:.0f} s")
        if sender.unknown * 2 > sender.updates:
            found.append(f"source {sender.name}: the timetable does not know {sender.unknown} of {sender.updates} trips")
    for live in keeper.windows:
        if not live.ending and not live.ready():
            found.append(f"window {live.window.name}: no process is ready")
    return found


def status_of(keeper: Keeper) -> dict[str, object]:
    """All that /status says. The loop makes it, so that it is of one moment."""
    now = keeper.clock.now()
    numbers = keeper.intake.numbers
    problems = problems_of(keeper, now)
    newest: Window = keeper.windows[-1].window
    messages, length, size = keeper.archive_totals()
    return {
        "name": keeper.config.name,
        "ok": not problems,
        "problems": problems,
        "at": iso(now),
        "sources": [source_status(sender, now) for sender in keeper.intake.senders.values()],
        "came": numbers.came,
        "again": numbers.again,
        "noMessage": numbers.no_message,
        "leftOut": dict(numbers.left_out),
        "nothingNew": numbers.nothing_new,
        "postedFull": numbers.posted_full,
        "postedDifferential": numbers.posted_differential,
        "dated": numbers.dated,
        "passedOver": numbers.passed_over,
        "updates": numbers.updates,
        "unknown": numbers.unknown,
        "archive": {"messages": messages, "bytesThatCame": length, "bytes": size},
        "nextRollover": day_text(next_due(newest, keeper.config.overlap)),
        "windows": [window_status(live) for live in keeper.windows],
        "recent": list(keeper.log.recent),
    }


class Numbered(Collector):
    """The numbers of /status as metrics."""

    def __init__(self, status: dict[str, Any]) -> None:
        self._status = status

    def collect(self) -> Iterator[Metric]:
        status = self._status
        yield gauge("ok", "1 where there is no problem.", [((), float(status["ok"]))])
        yield counter("messages_came", "Messages that came and were no repetition.", [((), status["came"])])
        yield counter("messages_again", "Messages that were the same as the one before.", [((), status["again"])])
        yield counter("no_messages", "Bodies that were no message.", [((), status["noMessage"])])
        yield counter("messages_left_out", "Messages left out, by cause.", [((cause,), count) for cause, count in status["leftOut"].items()], ("cause",))
        yield counter("messages_nothing_new", "Messages that said nothing new.", [((), status["nothingNew"])])
        forms = [(("full",), status["postedFull"]), (("differential",), status["postedDifferential"])]
        yield counter("messages_posted", "Messages archived for publishers, by form.", forms, ("form",))
        yield counter("trip_updates", "Trip updates that came.", [((), status["updates"])])
        yield counter("trip_updates_unknown", "Trip updates of trips that the timetable does not know.", [((), status["unknown"])])
        yield counter("trip_updates_dated", "Trip updates that had no start date.", [((), status["dated"])])
        yield gauge("archive_bytes", "Bytes of the archive.", [((), status["archive"]["bytes"])])
        yield gauge("archive_messages", "Messages in the archive.", [((), status["archive"]["messages"])])
        sources = status["sources"]
        yield gauge("message_age_seconds", "Age of the last message of a source.", [((one["source"],), one["age"]) for one in sources if one["age"] is not None], ("source",))
        yield counter("fetches_failed", "Fetches that gave no message.", [((one["source"],), one["failed"]) for one in sources], ("source",))
        windows = status["windows"]
        yield gauge("versions", "Versions of a window.", [((one["window"],), one["versions"]) for one in windows], ("window",))
        yield gauge("publisher_messages", "Messages that a publisher keeps.", [((one["window"],), one["messages"]) for one in windows], ("window",))
        yield gauge("publisher_bytes", "Bytes of messages that a publisher keeps.", [((one["window"],), one["bytes"]) for one in windows], ("window",))
        yield counter("restarts", "Processes that ended by themselves.", [((one["window"],), one["restarts"]) for one in windows], ("window",))
        ready = [((one["window"],), sum(process["ready"] for process in one["processes"])) for one in windows]
        yield gauge("processes_ready", "Processes that have the whole archive.", ready, ("window",))


Samples = Sequence[tuple[tuple[str, ...], float]]


def gauge(name: str, says: str, samples: Samples, labels: tuple[str, ...] = ()) -> Metric:
    family = GaugeMetricFamily(f"monteneem_{name}", says, labels=labels)
    for values, number in samples:
        family.add_metric(values, number)
    return family


def counter(name: str, says: str, samples: Samples, labels: tuple[str, ...] = ()) -> Metric:
    family = CounterMetricFamily(f"monteneem_{name}", says, labels=labels)
    for values, number in samples:
        family.add_metric(values, number)
    return family


def metrics_of(status: dict[str, Any]) -> bytes:
    registry = CollectorRegistry()
    registry.register(Numbered(status))
    return bytes(generate_latest(registry))


class StatusServer(ThreadingHTTPServer):
    """Answers on the loopback address. Raises OSError where the port is taken."""

    daemon_threads = True

    def __init__(self, port: int, events: "queue.Queue[Any]") -> None:
        self.status: dict[str, Any] = {}
        self.events = events
        super().__init__(("127.0.0.1", port), Answers)

    def begin(self) -> None:
        threading.Thread(target=self.serve_forever, daemon=True).start()


class Answers(BaseHTTPRequestHandler):
    """One request."""

    server: StatusServer
    timeout = 30

    def do_GET(self) -> None:
        status = self.server.status
        if self.path == "/status":
            self._answer(200, "application/json", json.dumps(status, indent=1).encode() + b"\n")
        elif self.path == "/metrics" and status:
            self._answer(200, "text/plain; version=0.0.4; charset=utf-8", metrics_of(status))
        else:
            self._answer(404, "text/plain", b"there are /status and /metrics\n")

    def do_POST(self) -> None:
        length = self.headers.get("Content-Length", "")
        if self.path != "/post":
            self._answer(404, "text/plain", b"messages are posted to /post\n")
        elif not length.isdecimal() or int(length) > MOST_BYTES:
            self._answer(413, "text/plain", f"a message has at most {MOST_BYTES} bytes\n".encode())
        else:
            receipt = Receipt()
            self.server.events.put(Arrived(POSTED, self.rfile.read(int(length)), receipt))
            outcome = receipt.wait(POST_SECONDS) or Outcome("failed", f"it was not taken within {POST_SECONDS:g} s")
            status = {"archived": 200, "refused": 400}.get(outcome.kind, 503)
            self._answer(status, "application/json", json.dumps({"outcome": outcome.kind, "says": outcome.says}).encode() + b"\n")

    def _answer(self, status: int, kind: str, body: bytes) -> None:
        self.send_response(status)
        self.send_header("Content-Type", kind)
        self.send_header("Content-Length", str(len(body)))
        self.end_headers()
        self.wfile.write(body)

    def log_message(self, format: str, *args: object) -> None:
        """Requests are not logged."""
