"""A small server for the tests of the pages: files, static documents and both publishers under one host, with failures on demand.

Under /f/FAILURE/ stands the same site with a failing publisher: its time gate does what FAILURE says.
"""

import http.client
import json
import mimetypes
import threading
from http.server import BaseHTTPRequestHandler, ThreadingHTTPServer
from pathlib import Path
from urllib.parse import urlsplit

mimetypes.add_type("text/javascript", ".mjs")
FAILURES = ("down", "slow", "failing", "lying", "loops", "noversion", "missing", "beyond", "nocatalog")
LONGEST = 60.0  # Seconds that a slow reply takes at most.
KEPT = ("Location", "Vary", "Memento-Datetime", "Link", "Content-Type")


class Site(ThreadingHTTPServer):
    """Listens on a free port. `publishers` says on which port the publisher of a first part of a path listens."""

    daemon_threads = True

    def __init__(self, folders: list[Path]) -> None:
        super().__init__(("127.0.0.1", 0), Handler)
        self.folders = folders
        self.publishers: dict[str, int] = {}
        self.is_over = threading.Event()
        threading.Thread(target=self.serve_forever, daemon=True).start()

    @property
    def url(self) -> str:
        return f"http://localhost:{self.server_address[1]}/"

    def close(self) -> None:
        self.is_over.set()
        self.shutdown()
        self.server_close()


class Handler(BaseHTTPRequestHandler):
    protocol_version = "HTTP/1.1"
    server: Site

    def log_message(self, *words: object) -> None:
        pass

    def handle(self) -> None:
        try:
            super().handle()
        except ConnectionError:
            pass  # The browser hung up: the test left the page.

    def do_GET(self) -> None:
        path = urlsplit(self.path).path
        parts = path.split("/")
        failure = parts[2] if path.startswith("/f/") and parts[2] in FAILURES else None
        plain = "/" + "/".join(parts[3:]) if failure else path
        try:
            if failure and self.fail(failure, plain):
                return
            first = plain.split("/")[1]
            is_published = plain.endswith(("/connections", "/stops"))
            if is_published and first in self.server.publishers:
                self.forward(self.server.publishers[first], plain)
            else:
                self.give_file(plain, failure)
        except (ConnectionError, TimeoutError):
            self.close_connection = True

    def fail(self, failure: str, path: str) -> bool:
        """Whether the failure answers for this path."""
        if failure == "nocatalog":
            if path == "/catalog.json":
                self.give(404)
            return path == "/catalog.json"
        if failure == "noversion" and path.endswith("/connections"):
            if path.endswith("/memento/connections"):
                self.give(404)
            else:
                moment = "2024-05-01T05:00:00.000Z"
                at = self.path.replace("/connections?", f"/memento/connections?version={moment}&")
                self.give(302, {"Location": f"{self.server.url.rstrip('/')}{at.partition('departureTime=')[0]}departureTime={moment}"})
            return True
        if failure == "beyond" or not path.endswith("/connections"):
            return False
        if failure == "down":
            self.close_connection = True
        elif failure == "slow":
            self.server.is_over.wait(LONGEST)
            self.close_connection = True
        elif failure == "failing":
            self.give(503)
        elif failure == "lying":
            self.give(200, {"Content-Type": "text/html"}, b"<p>Welcome to the network of this hotel.</p>")
        elif failure == "loops":
            self.give(302, {"Location": self.path})
        else:
            self.give(404)
        return True

    def give(self, status: int, fields: dict[str, str] | None = None, body: bytes = b"") -> None:
        self.send_response(status)
        for name, value in (fields or {}).items():
            self.send_header(name, value)
        self.send_header("Content-Length", str(len(body)))
        self.end_headers()
        self.wfile.write(body)

    def forward(self, port: int, path: str) -> None:
        """Hands a request on, each on a connection of its own."""
        line = http.client.HTTPConnection("127.0.0.1", port, timeout=30)
        fields = {"Host": self.headers["Host"], "Connection": "close"}
        if "Accept-Datetime" in self.headers:
            fields["Accept-Datetime"] = self.headers["Accept-Datetime"]
        query = urlsplit(self.path).query
        line.request("GET", f"{path}?{query}" if query else path, headers=fields)
        reply = line.getresponse()
        body = reply.read()
        line.close()
        kept = {name: reply.headers[name] for name in KEPT if name in reply.headers}
        if path.endswith("/memento/connections") and reply.status == 200:
            kept["Cache-Control"] = "public, max-age=31536000, immutable"
        self.give(reply.status, kept, body)

    def give_file(self, path: str, failure: str | None) -> None:
        name = path.lstrip("/") or "index.html"
        for folder in self.server.folders:
            file = folder / name
            if file.is_file() and folder in file.resolve().parents:
                kind = "application/link-format" if name.endswith("timemap") else mimetypes.guess_type(name)[0] or "application/octet-stream"
                body = file.read_bytes()
                if failure and name.endswith("catalog.json"):
                    body = self.changed(body, failure)
                self.give(200, {"Content-Type": f"{kind}; charset=utf-8", "Cache-Control": "no-cache"}, body)
                return
        self.give(404)

    def changed(self, body: bytes, failure: str) -> bytes:
        """A catalog whose windows are below the failure. That of `beyond` says that it has sixty days."""
        catalog = json.loads(body)
        for window in catalog["windows"]:
            if failure == "beyond":
                window["days"] = 60
            else:
                window["base"] = f"/f/{failure}{urlsplit(window['base']).path}"
        return json.dumps(catalog).encode()
