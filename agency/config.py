"""CONFIG: the TOML file that says what keep.py keeps."""

from __future__ import annotations

import re
import tomllib
from dataclasses import dataclass, field, fields
from datetime import date
from pathlib import Path
from typing import Any, Callable
from zoneinfo import ZoneInfo

from feeds import day

MOST_DAYS = 62
MOST_MESSAGES = 10_000  # of one publisher, as `lc serve` takes them
MOST_BYTES = 268_435_456
MOST_CONNECTIONS = 1_000_000


class ConfigError(Exception):
    """What is wrong with CONFIG, in one line."""


@dataclass(frozen=True)
class Config:
    """One field for each key. A path is relative to the working directory."""

    name: str
    base: str
    feed: str
    archive: Path
    first: date | None = None
    days: int = 8
    overlap: int = 2
    zone: str | None = None
    change: int = 120
    cuts: str = "span:1800"
    realtime: tuple[str, ...] = ()
    headers: dict[str, str] = field(default_factory=dict)
    every: float = 15.0
    program: str = "lc"
    port: int = 8081
    replicas: int = 1
    public: Path = Path("public")
    proxy: Path = Path("proxy")
    reload: str | None = None
    drain: float = 5.0
    renew: float = 24.0
    status_port: int = 8090
    parts: tuple[str, ...] = ()
    most_messages: int = MOST_MESSAGES
    most_bytes: int = MOST_BYTES
    connections: int = MOST_CONNECTIONS
    settle: float = 600.0
    clock: Path | None = None

    def window_base(self, window: str) -> str:
        """The URL under which a window is published."""
        return f"{self.base}{self.name}/{window}/"


def load(path: Path) -> Config:
    """Reads CONFIG. Raises ConfigError with the first thing that is wrong."""
    try:
        with open(path, "rb") as file:
            table = tomllib.load(file)
    except OSError as error:
        raise ConfigError(f"{path}: {error.strerror}") from None
    except (tomllib.TOMLDecodeError, UnicodeDecodeError) as error:
        raise ConfigError(f"{path}: no TOML: {error}") from None
    return from_table(table)


def from_table(table: dict[str, Any]) -> Config:
    """A configuration from its keys and values, each tested."""
    known = {one.name for one in fields(Config)}
    for key in table:
        if key not in known:
            raise ConfigError(f"unknown key {key}; the keys are {', '.join(sorted(known))}")
    for key in ("name", "base", "feed", "archive"):
        if key not in table:
            raise ConfigError(f"the key {key} is missing")
    config = Config(**{key: READERS[key](key, value) for key, value in table.items()})
    if config.overlap > config.days - 2:
        raise ConfigError(f"overlap = {config.overlap} has to be at most days - 2, which is {config.days - 2}")
    return config


def text(key: str, value: Any) -> str:
    if not isinstance(value, str) or not value:
        raise ConfigError(f"{key} has to be a text that is not empty")
    return value


def fitting(pattern: str, says: str) -> Callable[[str, Any], str]:
    """A reader of texts of a pattern."""

    def read(key: str, value: Any) -> str:
        if not re.fullmatch(pattern, text(key, value)):
            raise ConfigError(f"{key} = {value!r} has to be {says}")
        return text(key, value)

    return read


def whole(least: int, most: int) -> Callable[[str, Any], int]:
    """A reader of whole numbers of a range."""

    def read(key: str, value: Any) -> int:
        if not isinstance(value, int) or isinstance(value, bool) or not least <= value <= most:
            raise ConfigError(f"{key} = {value!r} has to be a whole number from {least} to {most}")
        return value

    return read


def seconds(least: float, most: float) -> Callable[[str, Any], float]:
    """A reader of numbers of a range."""

    def read(key: str, value: Any) -> float:
        if not isinstance(value, (int, float)) or isinstance(value, bool) or not least <= value <= most:
            raise ConfigError(f"{key} = {value!r} has to be a number from {least:g} to {most:g}")
        return float(value)

    return read


def date_of(key: str, value: Any) -> date:
    found = day(text(key, value))
    if found is None:
        raise ConfigError(f"{key} = {value!r} has to be a date as \"20261201\"")
    return found


def zone_of(key: str, value: Any) -> str:
    try:
        ZoneInfo(text(key, value))
    except (KeyError, ValueError, OSError):
        raise ConfigError(f"{key} = {value!r} is no time zone as \"Europe/Brussels\"") from None
    return text(key, value)


def path_of(key: str, value: Any) -> Path:
    return Path(text(key, value))


def texts(key: str, value: Any) -> tuple[str, ...]:
    if not isinstance(value, list):
        raise ConfigError(f"{key} has to be a list of texts")
    found = tuple(text(key, one) for one in value)
    if len(set(found)) < len(found):
        raise ConfigError(f"{key} has an entry twice")
    return found


def headers_of(key: str, value: Any) -> dict[str, str]:
    if not isinstance(value, dict):
        raise ConfigError(f"{key} has to be a table of texts")
    for name, one in value.items():
        if not re.fullmatch(r"[A-Za-z0-9-]+", name) or not re.fullmatch(r"[\x20-\x7e]+", text(f"{key}.{name}", one)):
            raise ConfigError(f"{key}.{name} is no field of HTTP")
    return dict(value)


name_of = fitting(r"[A-Za-z0-9_-]{1,64}", "1 to 64 letters, digits, `-` or `_`")

# How the value of each key is read and tested.
READERS: dict[str, Callable[[str, Any], Any]] = {
    "name": name_of,
    "base": fitting(r"http://[A-Za-z0-9.\-\[\]:]+/([A-Za-z0-9\-._~%]+/)*", "a URL of http that ends with a slash"),
    "feed": text,
    "first": date_of,
    "days": whole(3, MOST_DAYS),
    "overlap": whole(1, MOST_DAYS),
    "zone": zone_of,
    "change": whole(0, 86_400),
    "cuts": fitting(r"span:[0-9]+|count:[0-9]+|whole", '"span:N", "count:N" or "whole"'),
    "realtime": texts,
    "headers": headers_of,
    "every": seconds(0.05, 86_400),
    "archive": path_of,
    "program": text,
    "port": whole(1, 65_535 - 100),
    "replicas": whole(1, 32),
    "public": path_of,
    "proxy": path_of,
    "reload": text,
    "drain": seconds(0, 3600),
    "renew": seconds(0.001, 8760),
    "status_port": whole(1, 65_535),
    "parts": lambda key, value: tuple(name_of(key, one) for one in texts(key, value)),
    "most_messages": whole(3, MOST_MESSAGES),
    "most_bytes": whole(1000, MOST_BYTES),
    "connections": whole(10, MOST_CONNECTIONS),
    "settle": seconds(0, 86_400),
    "clock": path_of,
}
