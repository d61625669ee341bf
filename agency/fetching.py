"""Where messages come from: URLs, each asked by a thread of its own, and directories."""

from __future__ import annotations

import http.client
import queue
import threading
import time
import urllib.error
import urllib.request
from dataclasses import dataclass
from pathlib import Path

from feeds import is_url
from messages import MOST_BYTES

CHUNK = 1 << 16
MOST_SECONDS = 30.0  # for one reply


class FetchError(Exception):
    """Why a URL gave no message, in one line."""


@dataclass(frozen=True)
class Outcome:
    """What became of a message: `archived`, `refused` since it is none, or `failed` where it could not be archived. And why, in words."""

    kind: str
    says: str


class Receipt:
    """Where the keeper says what became of a message, to who waits for it."""

    def __init__(self) -> None:
        self._done = threading.Event()
        self._outcome = Outcome("failed", "keep.py ended")

    def give(self, outcome: Outcome) -> None:
        self._outcome = outcome
        self._done.set()

    def wait(self, seconds: float) -> Outcome | None:
        """The outcome, none where it is not known after so many seconds."""
        return self._outcome if self._done.wait(seconds) else None


@dataclass(frozen=True)
class Arrived:
    """A body came from a source."""

    source: str
    body: bytes
    receipt: Receipt | None = None


@dataclass(frozen=True)
class Failed:
    """A source gave nothing."""

    source: str
    error: str


FetchEvent = Arrived | Failed


class Fetcher(threading.Thread):
    """Asks one source again and again."""

    def __init__(self, source: str, every: float, headers: dict[str, str], events: queue.Queue[FetchEvent]) -> None:
        super().__init__(daemon=True)
        self._source = source
        self._every = every
        self._headers = dict(headers)
        self._events = events
        self._stopped = threading.Event()

    def stop(self) -> None:
        self._stopped.set()

    def run(self) -> None:
        due = time.monotonic()
        while not self._stopped.wait(max(0.0, due - time.monotonic())):
            # A source that is slower than its turn is asked at the next turn.
            due = max(due + self._every, time.monotonic())
            try:
                if is_url(self._source):
                    self._ask()
                else:
                    self._look()
            except FetchError as error:
                self._events.put(Failed(self._source, str(error)))

    def _ask(self) -> None:
        body = fetched(self._source, self._headers, min(MOST_SECONDS, max(self._every, 5.0)))
        if body is not None and not self._stopped.is_set():
            self._events.put(Arrived(self._source, body))

    def _look(self) -> None:
        """Takes the files of a directory one after the other. A file goes once it is in the archive, and gets another name where it is no message."""
        folder = Path(self._source)
        if not folder.is_dir():
            raise FetchError(f"{folder}: no such directory")
        try:
            for path in sorted(folder.glob("*.pb")):
                outcome = self._hand_in(limited(path))
                if outcome is None or outcome.kind == "failed":
                    return
                if outcome.kind == "archived":
                    path.unlink()
                else:
                    path.rename(path.with_name(path.name + ".refused"))
        except OSError as error:
            raise FetchError(f"{error.filename}: {error.strerror}") from None

    def _hand_in(self, body: bytes) -> Outcome | None:
        receipt = Receipt()
        self._events.put(Arrived(self._source, body, receipt))
        outcome = None
        while outcome is None and not self._stopped.is_set():
            outcome = receipt.wait(0.5)
        return outcome


def limited(path: Path) -> bytes:
    """The bytes of a file, at most one more than a message may have."""
    with open(path, "rb") as file:
        return file.read(MOST_BYTES + 1)


def fetched(url: str, headers: dict[str, str], seconds: float) -> bytes | None:
    """What a URL answers, within so many seconds and up to the length of a message. None where it says that nothing changed."""
    ends = time.monotonic() + seconds
    try:
        with urllib.request.urlopen(urllib.request.Request(url, headers=headers), timeout=seconds) as reply:
            body = bytearray()
            # read1 gives what is there, so that a server of a byte a second does not hold this thread.
            while chunk := reply.read1(CHUNK):
                body += chunk
                if len(body) > MOST_BYTES:
                    raise FetchError(f"the body has more than {MOST_BYTES} bytes")
                if time.monotonic() > ends:
                    raise FetchError(f"the reply took more than {seconds:g} s")
            length = reply.headers.get("Content-Length")
            if length is not None and length.isdigit() and len(body) < int(length):
                raise FetchError(f"the reply ends after {len(body)} of {length} bytes")
            return bytes(body)
    except urllib.error.HTTPError as error:
        error.close()
        if error.code == 304:
            return None
        raise FetchError(f"status {error.code}") from None
    except TimeoutError:
        raise FetchError(f"no reply within {seconds:g} s") from None
    except (urllib.error.URLError, http.client.HTTPException, OSError, ValueError) as error:
        reason = getattr(error, "reason", None) or error
        if isinstance(reason, TimeoutError):
            raise FetchError(f"no reply within {seconds:g} s") from None
        raise FetchError(str(reason) or type(error).__name__) from None
