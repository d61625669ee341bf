"""The clock, moments as texts, and what a clock that jumps looks like."""

from __future__ import annotations

import time
from datetime import date, datetime, timezone
from email.utils import formatdate
from pathlib import Path
from zoneinfo import ZoneInfo

JUMP_SECONDS = 60.0  # A step of the clock that is larger counts as a jump.


def iso(seconds: float) -> str:
    """A moment as log lines have it, a fraction of a second left out."""
    return datetime.fromtimestamp(int(seconds), timezone.utc).strftime("%Y-%m-%dT%H:%M:%SZ")


def version_text(moment: int) -> str:
    """A moment as URLs of pages have it."""
    return datetime.fromtimestamp(moment, timezone.utc).strftime("%Y-%m-%dT%H:%M:%S.000Z")


def http_date(moment: int) -> str:
    return formatdate(moment, usegmt=True)


def day_text(day: date) -> str:
    return day.strftime("%Y%m%d")


def day_in(zone: ZoneInfo, seconds: float) -> date:
    """The date in a zone at a moment."""
    return datetime.fromtimestamp(seconds, zone).date()


class Clock:
    """The system's clock. For tests, a file may have a number of seconds that is added to it."""

    def __init__(self, offset: Path | None = None) -> None:
        self._offset = offset
        self._wall = self.now()
        self._steady = time.monotonic()

    def now(self) -> float:
        return time.time() + self._ahead()

    def jump(self) -> float:
        """How many seconds the clock jumped since it was asked last; 0 where it ran on."""
        wall, steady = self.now(), time.monotonic()
        step = (wall - self._wall) - (steady - self._steady)
        self._wall, self._steady = wall, steady
        return step if abs(step) > JUMP_SECONDS else 0.0

    def _ahead(self) -> float:
        if self._offset is None:
            return 0.0
        try:
            return float(self._offset.read_text())
        except (OSError, ValueError):
            return 0.0
