"""The log: one line of JSON each, on standard output."""

from __future__ import annotations

import json
import sys
import threading
from collections import deque
from typing import TextIO

from clock import Clock, iso

KEPT_PROBLEMS = 20


class Log:
    """Writes lines, and keeps the last warnings and errors for /status. Threads may share it."""

    def __init__(self, clock: Clock, out: TextIO = sys.stdout) -> None:
        self._clock = clock
        self._out = out
        self._lock = threading.Lock()
        self.recent: deque[dict[str, object]] = deque(maxlen=KEPT_PROBLEMS)

    def info(self, event: str, **fields: object) -> None:
        self._write("info", event, fields)

    def warning(self, event: str, **fields: object) -> None:
        self._write("warning", event, fields)

    def error(self, event: str, **fields: object) -> None:
        self._write("error", event, fields)

    def _write(self, level: str, event: str, fields: dict[str, object]) -> None:
        line: dict[str, object] = {"at": iso(self._clock.now()), "level": level, "event": event, **fields}
        with self._lock:
            if level != "info":
                self.recent.append(line)
            try:
                print(json.dumps(line, default=str), file=self._out, flush=True)
            except (OSError, ValueError):
                # Nobody reads the log any more, or its disk is full. The messages go on.
                pass
