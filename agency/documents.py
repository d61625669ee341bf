"""The static documents of an agency, which a proxy serves, and the files by which a proxy finds the windows.

docs/PROTOCOL.md has the schemas ("Static documents of an agency").
"""

from __future__ import annotations

import json
import os
from dataclasses import dataclass
from pathlib import Path
from urllib.parse import urlsplit

from archive import Window
from clock import day_text, http_date, version_text
from config import Config
from feeds import Feed, Table

# The fields of names.json: of which column each is.
STOP_FIELDS = {"code": "stop_code", "platform": "platform_code"}
ROUTE_FIELDS = {"short": "route_short_name", "long": "route_long_name", "color": "route_color", "textColor": "route_text_color"}
TRIP_FIELDS = {"route": "route_id", "headsign": "trip_headsign", "short": "trip_short_name"}


@dataclass(frozen=True)
class Listed:
    """A window as the catalog lists it."""

    window: Window
    versions: int
    last_version: int


def write(path: Path, body: bytes) -> None:
    """Writes a file aside and puts it in its place, so that a reader has the one or the other. Raises OSError."""
    path.parent.mkdir(parents=True, exist_ok=True)
    aside = path.with_name(f".{path.name}.new")
    with open(aside, "wb") as file:
        file.write(body)
        file.flush()
        os.fsync(file.fileno())
    os.replace(aside, path)


def json_bytes(value: object) -> bytes:
    return json.dumps(value, ensure_ascii=False, separators=(",", ":")).encode() + b"\n"


def catalog(config: Config, windows: list[Listed], current: str) -> bytes:
    """catalog.json: the windows that are served."""
    parts = [f"{config.base}{part}/catalog.json" for part in config.parts]
    return json_bytes({"name": config.name, "parts": parts, "current": current, "windows": [listed_window(one) for one in windows]})


def listed_window(listed: Listed) -> dict[str, object]:
    window = listed.window
    return {
        "window": window.name,
        "base": window.base,
        "first": day_text(window.first),
        "days": window.days,
        "last": day_text(window.last),
        "zone": window.zone,
        "change": window.change,
        "cuts": window.cuts,
        "feed": window.feed,
        "baseMoment": version_text(window.base_moment),
        "lastVersion": version_text(listed.last_version),
        "versions": listed.versions,
        "takesMessages": window.closed is None,
    }


def names(feed: Feed, zone: str) -> bytes:
    """names.json: what pages and the stops document leave out. One pass over stops.txt, routes.txt, trips.txt and agency.txt."""
    return json_bytes({"zone": zone, "stops": stop_names(feed), "routes": route_names(feed), "trips": entries(feed.table("trips.txt"), "trip_id", TRIP_FIELDS)})


def entries(table: Table | None, key: str, fields: dict[str, str]) -> dict[str, dict[str, object]]:
    """The fields of each row that are not empty, by its id."""
    found: dict[str, dict[str, object]] = {}
    if table is not None:
        for identity, *values in table.rows(key, *fields.values()):
            found[identity] = {name: value for name, value in zip(fields, values) if value}
    return found


def stop_names(feed: Feed) -> dict[str, dict[str, object]]:
    table = feed.table("stops.txt")
    found = entries(table, "stop_id", STOP_FIELDS)
    if table is not None:
        for stop, latitude, longitude in table.rows("stop_id", "stop_lat", "stop_lon"):
            try:
                found[stop] |= {"lat": float(latitude), "lon": float(longitude)}
            except ValueError:
                pass  # A stop without a place.
    return found


def route_names(feed: Feed) -> dict[str, dict[str, object]]:
    table = feed.table("routes.txt")
    found = entries(table, "route_id", ROUTE_FIELDS)
    agencies = feed.table("agency.txt")
    called = {agency: name for agency, name in agencies.rows("agency_id", "agency_name")} if agencies is not None else {}
    if table is not None:
        for route, kind, agency in table.rows("route_id", "route_type", "agency_id"):
            if kind.isdecimal():
                found[route]["type"] = int(kind)
            # With one agency the id may be missing.
            name = called.get(agency) or (next(iter(called.values())) if len(called) == 1 else None)
            if name:
                found[route]["agency"] = name
    return found


class TimeMap:
    """timemap of a window (RFC 7089, section 5). A version is appended by one write, so that a day's versions cost as much as their lines."""

    def __init__(self, path: Path, window: Window) -> None:
        self._path = path
        self._base = window.base
        self._base_moment = window.base_moment

    def write(self, versions: list[int]) -> None:
        """Writes it whole: the base version and those of messages. Raises OSError."""
        gate = f'<{self._base}connections>; rel="original timegate"'
        itself = f'<{self._base}timemap>; rel="self"; type="application/link-format"; from="{http_date(self._base_moment)}"'
        first = self._memento(self._base_moment, "first memento")
        write(self._path, ",\n".join([gate, itself, first, *(self._memento(one, "memento") for one in versions)]).encode())

    def append(self, version: int) -> None:
        """Adds a version. Raises OSError."""
        with open(self._path, "ab", buffering=0) as file:
            file.write(f",\n{self._memento(version, 'memento')}".encode())

    def _memento(self, version: int, relation: str) -> str:
        return f'<{self._base}memento/connections?version={version_text(version)}>; rel="{relation}"; datetime="{http_date(version)}"'


@dataclass(frozen=True)
class Route:
    """A window and the ports at which its processes answer."""

    window: str
    path: str
    ports: tuple[int, ...]


def route_of(window: Window, ports: list[int]) -> Route:
    return Route(window.name, urlsplit(window.base).path, tuple(sorted(ports)))


def write_routes(folder: Path, name: str, routes: list[Route]) -> None:
    """Writes what a proxy reads. Raises OSError."""
    upstreams = [f"upstream {name}_{one.window} {{ {' '.join(f'server 127.0.0.1:{port};' for port in one.ports)} }}\n" for one in routes]
    paths = [f"~^{one.path.replace('.', chr(92) + '.')} {name}_{one.window};\n" for one in routes]
    windows = [{"window": one.window, "path": one.path, "ports": list(one.ports)} for one in routes]
    write(folder / f"{name}.upstreams.json", json_bytes({"name": name, "windows": windows}))
    write(folder / f"{name}.upstreams.conf", "".join(upstreams).encode())
    write(folder / f"{name}.windows.map", "".join(paths).encode())


def routed_ports(folder: Path, name: str) -> dict[str, list[int]]:
    """The ports of each window that a proxy knows from before."""
    try:
        table = json.loads((folder / f"{name}.upstreams.json").read_text())
        return {str(one["window"]): [int(port) for port in one["ports"]] for one in table["windows"]}
    except (OSError, ValueError, KeyError, TypeError):
        return {}
