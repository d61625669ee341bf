#!/usr/bin/env python3
"""Runs a command for at most so many seconds, and ends all that it has begun.

    bounded.py SECONDS COMMAND [ARGUMENT]...

Whatever the command leaves behind is ended with it, in sessions of its own too. The status is that of the command, and 124 where its time was over.
"""

from __future__ import annotations

import contextlib
import ctypes
import os
import signal
import subprocess
import sys
import time
from pathlib import Path
from typing import NoReturn

TIME_OVER = 124
PR_SET_PDEATHSIG, PR_SET_CHILD_SUBREAPER = 1, 36


def adopt_orphans() -> None:
    """Makes this process the parent of each descendant whose own parent ends, and has it end with the one that began it."""
    libc = ctypes.CDLL(None, use_errno=True)
    for option, value in ((PR_SET_CHILD_SUBREAPER, 1), (PR_SET_PDEATHSIG, signal.SIGTERM)):
        if libc.prctl(option, value, 0, 0, 0) != 0:
            raise OSError(ctypes.get_errno(), "prctl")


def descendants(process: int) -> list[int]:
    """All processes that this one has begun, directly or not, and that have not ended."""
    found: list[int] = []
    for file in Path(f"/proc/{process}/task").glob("*/children"):
        with contextlib.suppress(OSError):
            for child in map(int, file.read_text(encoding="ascii").split()):
                found += [child, *descendants(child)]
    return found


def end_descendants() -> None:
    """Kills descendants until none is left: one that is killed may just have begun another."""
    while left := descendants(os.getpid()):
        for process in left:
            with contextlib.suppress(ProcessLookupError):
                os.kill(process, signal.SIGKILL)
        with contextlib.suppress(ChildProcessError):
            while os.waitpid(-1, os.WNOHANG) != (0, 0):
                pass
        time.sleep(0.02)


def end(number: int, _: object) -> NoReturn:
    sys.exit(128 + number)


def main(words: list[str]) -> int:
    if len(words) < 2 or not words[0].isdecimal():
        print("usage: bounded.py SECONDS COMMAND [ARGUMENT]...", file=sys.stderr)
        return 2
    adopt_orphans()
    for number in (signal.SIGHUP, signal.SIGINT, signal.SIGTERM):
        signal.signal(number, end)
    try:
        process = subprocess.Popen(words[1:], stdin=subprocess.DEVNULL, start_new_session=True)
        return process.wait(timeout=int(words[0]))
    except subprocess.TimeoutExpired:
        return TIME_OVER
    except OSError as error:
        print(f"FAILED: {words[1]} does not start: {error.strerror}", flush=True)
        return 1
    finally:
        end_descendants()


if __name__ == "__main__":
    sys.exit(main(sys.argv[1:]))
