"""When a window begins, takes no more messages, and is over. Plain rules, without a clock or a process."""

from __future__ import annotations

from dataclasses import dataclass
from datetime import date, timedelta
from typing import Container

from archive import Held, Window
from clock import day_text

MARGIN = 20  # The next publisher is begun when a twentieth of the room is left.


@dataclass(frozen=True)
class Limits:
    """What one publisher takes."""

    messages: int
    bytes: int


def next_due(newest: Window, overlap: int) -> date:
    """The day on which the window after the newest one begins."""
    return newest.last + timedelta(days=1 - overlap)


def is_over(window: Window, today: date) -> bool:
    """Whether the last day of a window is over."""
    return today > window.last


def is_nearly_full(held: Held, limits: Limits) -> bool:
    """Whether the next publisher should be begun."""
    return held.messages + max(1, limits.messages // MARGIN) >= limits.messages or held.bytes + limits.bytes // MARGIN >= limits.bytes


def has_room(held: Held, length: int, limits: Limits) -> bool:
    """Whether a publisher takes one more message of so many bytes."""
    return held.messages < limits.messages and held.bytes + length <= limits.bytes


def window_name(first: date, taken: Container[str]) -> str:
    """The name of a window: its first day, and a number where windows began with that day before."""
    name = day_text(first)
    number = 1
    while name in taken:
        number += 1
        name = f"{day_text(first)}-{number}"
    return name
