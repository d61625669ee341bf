"""What the commands of this directory share."""

from __future__ import annotations

import signal
import sys
from typing import NoReturn

FAILED = 70  # the status where nothing is proved, built or run


def say(text: str) -> None:
    print(f"lc: {text}", file=sys.stderr, flush=True)


def end_on_signals() -> None:
    """Has the signals that end a command raise SystemExit, so that what it began is ended and what it laid is removed."""

    def end(number: int, _: object) -> NoReturn:
        sys.exit(128 + number)

    for number in (signal.SIGHUP, signal.SIGINT, signal.SIGTERM):
        signal.signal(number, end)
