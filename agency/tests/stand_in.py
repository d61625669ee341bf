#!/usr/bin/python3
"""Stands in for `lc` where a test is of keep.py alone: it answers as docs/PROTOCOL.md says, with pages that only tell what was posted.

    stand_in.py check FEED FIRST [OPTION]...
    stand_in.py serve FEED FIRST --port P --connections N --base URL --base-moment MOMENT [OPTION]...

A page is the list of the runs of its version, each with the bytes that were said of it. A file `broken` in the feed makes `check` refuse it.
"""

from __future__ import annotations

import argparse
import json
import sys
from datetime import datetime, timezone
from http.server import BaseHTTPRequestHandler, HTTPServer
from pathlib import Path
from urllib.parse import parse_qs, urlsplit

sys.path.insert(0, str(Path(__file__).parent.parent))

from clock import version_text  # noqa: E402
from gtfs_realtime_pb2 import FeedMessage  # noqa: E402
from messages import state_after  # noqa: E402

MOST_MESSAGES = 10_000


class Publisher(HTTPServer):
    """Versions by moment: each is the state that its message led to."""

    def __init__(self, port: int, base: str, base_moment: int) -> None:
        super().__init__(("127.0.0.1", port), Answers)
        self.base = base
        self.versions: dict[str, dict[str, bytes]] = {version_text(base_moment): {}}
        self.newest = base_moment

    def take(self, body: bytes) -> int:
        found = FeedMessage()
        try:
            found.ParseFromString(body)
        except Exception:
            return 400
        if found.header.timestamp <= self.newest:
            return 409
        if len(self.versions) > MOST_MESSAGES:
            return 507
        self.versions[version_text(found.header.timestamp)] = state_after(self.versions[version_text(self.newest)], body)
        self.newest = found.header.timestamp
        return 204


class Answers(BaseHTTPRequestHandler):
    server: Publisher
    protocol_version = "HTTP/1.1"

    def do_GET(self) -> None:
        url = urlsplit(self.path)
        version = parse_qs(url.query).get("version", [""])[0]
        below = url.path.removeprefix(urlsplit(self.server.base).path)
        if below == "connections":
            self._answer(302, b"", {"Location": f"{self.server.base}memento/connections?version={version_text(self.server.newest)}"})
        elif below == "memento/connections" and version in self.server.versions:
            self._answer(200, json.dumps({run: body.hex() for run, body in sorted(self.server.versions[version].items())}).encode(), {})
        elif below == "stops":
            self._answer(200, b"{}", {})
        else:
            self._answer(404, b"", {})

    def do_POST(self) -> None:
        body = self.rfile.read(int(self.headers["Content-Length"]))
        self._answer(self.server.take(body), b"", {})

    def _answer(self, status: int, body: bytes, fields: dict[str, str]) -> None:
        self.send_response_only(status)
        for name, value in fields.items():
            self.send_header(name, value)
        if status != 204:
            self.send_header("Content-Length", str(len(body)))
        self.end_headers()
        self.wfile.write(body)

    def log_message(self, format: str, *args: object) -> None:
        pass


def main() -> int:
    parser = argparse.ArgumentParser()
    parser.add_argument("command", choices=["check", "serve"])
    parser.add_argument("feed", type=Path)
    parser.add_argument("first")
    for name in ("--port", "--connections", "--days", "--change"):
        parser.add_argument(name, type=int)
    for name in ("--base", "--base-moment", "--zone", "--cuts"):
        parser.add_argument(name)
    parser.add_argument("--accept-updates", action="store_true")
    given = parser.parse_args()
    if given.command == "check":
        if (given.feed / "broken.txt").exists():
            print("error feed F8 stop_times.txt row 1")
            return 3
        print("connections 6\nok")
        return 0
    moment = datetime.strptime(given.base_moment, "%Y-%m-%dT%H:%M:%S.000Z").replace(tzinfo=timezone.utc)
    try:
        publisher = Publisher(given.port, given.base, int(moment.timestamp()))
    except OSError:
        print("error door", flush=True)
        return 10
    print(f"listening {given.port}", flush=True)
    publisher.serve_forever()
    return 0


if __name__ == "__main__":
    sys.exit(main())
