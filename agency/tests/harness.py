"""Starts keep.py over a feed in a directory of its own, and talks with it and its processes as its users do."""

from __future__ import annotations

import contextlib
import http.client
import json
import os
import shutil
import signal
import socket
import subprocess
import sys
import tempfile
import threading
import time
from datetime import date, timedelta
from http.server import BaseHTTPRequestHandler, ThreadingHTTPServer
from pathlib import Path
from typing import Any, Callable, Iterable
from urllib.parse import urlsplit

HERE = Path(__file__).resolve().parent
AGENCY = HERE.parent
TOP = AGENCY.parent
sys.path.insert(0, str(AGENCY))

from gtfs_realtime_pb2 import FeedHeader, FeedMessage, TripDescriptor  # noqa: E402

STAND_IN = HERE / "stand_in.py"
PATIENCE = 240.0  # A busy machine may take so long for anything.

Late = dict[str, int]  # seconds by which trips are late


def wait_for(says: str, condition: Callable[[], Any], seconds: float = PATIENCE) -> Any:
    """Waits until a condition holds, and gives what it gave."""
    ends = time.monotonic() + seconds
    while time.monotonic() < ends:
        found = condition()
        if found:
            return found
        time.sleep(0.02)
    raise AssertionError(f"after {seconds:g} s still not: {says}")


def free_ports(count: int) -> list[int]:
    """The first of some ports in a row at which nobody listens. They are below those that the system hands out."""
    for first in range(10_000 + os.getpid() % 200 * 100, 32_000 - count, 101):
        if all(is_free(port) for port in range(first, first + count)):
            return list(range(first, first + count))
    raise AssertionError("no free ports")


def is_free(port: int) -> bool:
    with socket.socket() as probe:
        try:
            probe.bind(("127.0.0.1", port))
            return True
        except OSError:
            return False


def message(moment: float, late: Late, day: str = "", full: bool = True, gone: Iterable[str] = (), cancelled: Iterable[str] = ()) -> bytes:
    """A message that says of trips how late they are. Entities are numbered anew in each message, as many feeds do."""
    found = FeedMessage()
    found.header.gtfs_realtime_version = "2.0"
    found.header.incrementality = FeedHeader.FULL_DATASET if full else FeedHeader.DIFFERENTIAL
    found.header.timestamp = int(moment)
    for number, (trip, seconds) in enumerate(late.items()):
        entity = found.entity.add(id=str(number) if full else trip)
        entity.trip_update.trip.trip_id = trip
        if day:
            entity.trip_update.trip.start_date = day
        update = entity.trip_update.stop_time_update.add(stop_sequence=1)
        update.arrival.delay = seconds
        update.departure.delay = seconds
    for trip in gone:
        found.entity.add(id=trip, is_deleted=True)
    for trip in cancelled:
        entity = found.entity.add(id=f"c{trip}")
        entity.trip_update.trip.trip_id = trip
        entity.trip_update.trip.schedule_relationship = TripDescriptor.CANCELED
    return bytes(found.SerializeToString())


def make_feed(folder: Path, trips: int, first: date, days: int) -> None:
    """A feed of trips T0, T1 .. from A over B to C, a minute apart from 06:00 on, on each of some days."""
    folder.mkdir(parents=True, exist_ok=True)
    (folder / "stops.txt").write_text("stop_id,stop_name,stop_lat,stop_lon\nA,Alpha,50.1,4.1\nB,Beta,50.2,4.2\nC,Gamma,50.3,4.3\n")
    (folder / "routes.txt").write_text("route_id,route_short_name,route_type\nr,1,3\n")
    (folder / "trips.txt").write_text("route_id,service_id,trip_id\n" + "".join(f"r,w,T{number}\n" for number in range(trips)))
    dates = [first + timedelta(days=number) for number in range(days)]
    (folder / "calendar_dates.txt").write_text("service_id,date,exception_type\n" + "".join(f"w,{one:%Y%m%d},1\n" for one in dates))
    lines = ["trip_id,arrival_time,departure_time,stop_id,stop_sequence\n"]
    for number in range(trips):
        for sequence, stop in enumerate("ABC", start=1):
            minutes = 6 * 60 + number + 10 * sequence
            clock = f"{minutes // 60:02}:{minutes % 60:02}:00"
            lines.append(f"T{number},{clock},{clock},{stop},{sequence}\n")
    (folder / "stop_times.txt").write_text("".join(lines))


class Reply:
    """What a process or keep.py answered."""

    def __init__(self, status: int, body: bytes, location: str) -> None:
        self.status = status
        self.body = body
        self.location = location


def ask(port: int, target: str, host: str = "localhost", method: str = "GET", body: bytes | None = None, fields: dict[str, str] = {}) -> Reply:
    connection = http.client.HTTPConnection("127.0.0.1", port, timeout=PATIENCE)
    try:
        connection.request(method, target, body, {"Host": host, "Connection": "close", **fields})
        reply = connection.getresponse()
        return Reply(reply.status, reply.read(), reply.headers.get("Location", ""))
    finally:
        connection.close()


class Running:
    """A keep.py. It is killed at the end, and its directory goes."""

    def __init__(self, program: Path = STAND_IN, **keys: Any) -> None:
        self.folder = Path(tempfile.mkdtemp(prefix="keep-"))
        self.ports = free_ports(20)
        self.keys: dict[str, Any] = {
            "name": "tiny", "base": f"http://localhost:{self.ports[1]}/", "feed": "feed", "archive": "tiny.sqlite", "program": str(program),
            "zone": "Europe/Brussels", "port": self.ports[1], "status_port": self.ports[0], "every": 0.2, "drain": 0.1, "settle": 0.0, "clock": "ahead",
        } | keys
        self.process: subprocess.Popen[bytes] | None = None
        self.ahead(0.0)
        self.configure()

    def configure(self, **keys: Any) -> None:
        """Writes CONFIG."""
        self.keys |= keys
        lines = [f"{key} = {json.dumps(value)}\n" for key, value in self.keys.items() if not isinstance(value, dict)]
        (self.folder / "config.toml").write_text("".join(lines))

    def ahead(self, seconds: float) -> None:
        """Sets the clock of keep.py ahead."""
        aside = self.folder / "ahead.new"
        aside.write_text(str(seconds))
        aside.replace(self.folder / "ahead")

    def start(self, ready: bool = True) -> "Running":
        with open(self.folder / "log", "ab") as log:
            self.process = subprocess.Popen([str(AGENCY / "keep.py"), "config.toml"], cwd=self.folder, stdin=subprocess.DEVNULL, stdout=log, stderr=log)
        if ready:
            wait_for("a window is served", self.served)
        return self

    def log(self, event: str = "") -> list[dict[str, Any]]:
        """The lines of the log, those of an event alone if one is given."""
        lines = []
        for line in (self.folder / "log").read_text(errors="replace").splitlines():
            if line.startswith("{"):
                try:
                    lines.append(json.loads(line))
                except ValueError:
                    pass  # A line that was cut by a kill.
        return [line for line in lines if event in ("", line["event"])]

    def said(self) -> str:
        return (self.folder / "log").read_text(errors="replace")

    def status(self) -> dict[str, Any]:
        """What /status says, nothing where keep.py does not answer."""
        try:
            found: dict[str, Any] = json.loads(ask(self.ports[0], "/status").body)
            return found
        except (OSError, http.client.HTTPException, ValueError):
            return {}

    def served(self) -> dict[str, Any] | None:
        """The status once every window has a process that has it all."""
        status = self.status()
        windows = status.get("windows", [])
        lacking = [window for window in windows if not any(process["ready"] for process in window["processes"])]
        behind = [window for window in windows if window["takesMessages"] and window["versions"] < window["messages"]]
        return status if windows and not lacking and not behind and self.documented(windows) else None

    def documented(self, windows: list[dict[str, Any]]) -> bool:
        """Whether the catalog and the timemaps say what /status says."""
        try:
            listed = {one["window"]: one["versions"] for one in self.catalog()["windows"]}
            return all(one["ending"] or listed[one["window"]] == one["versions"] == len(self.versions(one["window"])) - 1 for one in windows)
        except (OSError, KeyError):
            return False

    def catalog(self) -> dict[str, Any]:
        found: dict[str, Any] = json.loads((self.folder / "public" / "tiny" / "catalog.json").read_text())
        return found

    def post(self, body: bytes) -> dict[str, Any]:
        """Hands a message in, and gives what became of it. Raises where keep.py is not there."""
        found: dict[str, Any] = json.loads(ask(self.ports[0], "/post", method="POST", body=body).body)
        return found

    def ports_of(self, window: str) -> list[int]:
        table = json.loads((self.folder / "proxy" / "tiny.upstreams.json").read_text())
        return next((list(one["ports"]) for one in table["windows"] if one["window"] == window), [])

    def page(self, window: str, target: str) -> Reply:
        """A document of a window, asked of one of its processes."""
        base = urlsplit(f"{self.keys['base']}tiny/{window}/")
        return ask(self.ports_of(window)[0], base.path + target, base.netloc)

    def memento(self, window: str, version: str) -> bytes:
        reply = self.page(window, f"memento/connections?version={version}")
        assert reply.status == 200, f"{window} {version}: status {reply.status}"
        return reply.body

    def versions(self, window: str) -> list[str]:
        """The versions that the timemap lists, the base version first."""
        lines = (self.folder / "public" / "tiny" / window / "timemap").read_text().split(",\n")
        return [line.split("version=")[1].split(">")[0] for line in lines if "memento" in line and "version=" in line]

    def signal(self, number: int) -> None:
        assert self.process is not None
        self.process.send_signal(number)

    def kill(self) -> None:
        """kill -9 of keep.py."""
        assert self.process is not None
        self.process.kill()
        self.process.wait()

    def stop(self) -> int:
        """Ends keep.py as systemd does, and gives its status."""
        assert self.process is not None
        self.process.send_signal(signal.SIGTERM)
        return self.process.wait(PATIENCE)

    def close(self) -> None:
        if self.process is not None and self.process.poll() is None:
            self.kill()
        shutil.rmtree(self.folder, ignore_errors=True)


class Site:
    """A web server whose documents a test sets: bytes, a status, or a way to behave badly."""

    def __init__(self) -> None:
        self.documents: dict[str, bytes | int | Callable[[Any], None]] = {}
        self.asked: list[str] = []
        site = self

        class Answers(BaseHTTPRequestHandler):
            def do_GET(self) -> None:
                site.asked.append(self.path)
                document = site.documents.get(self.path, 404)
                if callable(document):
                    document(self)
                    return
                body = document if isinstance(document, bytes) else b""
                self.send_response(document if isinstance(document, int) else 200)
                self.send_header("Content-Length", str(len(body)))
                self.end_headers()
                with contextlib.suppress(OSError):
                    self.wfile.write(body)

            def log_message(self, format: str, *args: object) -> None:
                pass

        self._server = ThreadingHTTPServer(("127.0.0.1", 0), Answers)
        self._server.daemon_threads = True
        threading.Thread(target=self._server.serve_forever, daemon=True).start()

    def url(self, path: str) -> str:
        return f"http://127.0.0.1:{self._server.server_address[1]}{path}"

    def close(self) -> None:
        self._server.shutdown()
        self._server.server_close()
