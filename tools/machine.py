"""What this machine has free."""

from __future__ import annotations

import os
import sys


def processors() -> int:
    return len(os.sched_getaffinity(0))


def available_memory() -> int:
    """The kB of memory that are free, or could be."""
    with open("/proc/meminfo", encoding="ascii") as lines:
        for line in lines:
            if line.startswith("MemAvailable:"):
                return int(line.split()[1])
    return sys.maxsize


def at_once(memory: int, of_processors: int = 1) -> int:
    """How many works to do at once, of which each takes so much memory, in kB, and so many processors."""
    return max(1, min(processors() // of_processors, available_memory() // memory))
