#!/usr/bin/python3
"""Keeps an agency's Linked Connections: publishers that outlast restarts, an archive of every message, and the next window in time."""

from __future__ import annotations

import argparse
import http.client
import signal
import sqlite3
import sys
import threading
from pathlib import Path

import past
from archive import Archive, ArchiveError, lock
from clock import Clock
from config import Config, ConfigError, load
from feeds import FeedError
from keeper import Keeper
from log import Log
from status import StatusServer, status_of

DONE, CANNOT, USAGE = 0, 1, 2

EPILOG = """CONFIG is a TOML file; examples/agency.toml has every key. The log is a line of JSON for each event, on standard output.
SIGTERM ends keep.py; SIGHUP has it read CONFIG and the feed anew, and start its processes anew one after the other.
The status is 0 where all went well, 1 where keep.py cannot go on or a message was not archived, and 2 for wrong arguments or a fault of CONFIG."""


def arguments(words: list[str]) -> argparse.Namespace:
    parser = argparse.ArgumentParser(prog="keep.py", description=__doc__, epilog=EPILOG, formatter_class=argparse.RawDescriptionHelpFormatter)
    parser.add_argument("config", metavar="CONFIG", type=Path)
    way = parser.add_mutually_exclusive_group()
    way.add_argument("--check", action="store_true", help="say whether CONFIG is right, and start nothing")
    way.add_argument("--post", metavar="FILE", nargs="+", help="hand messages to the keep.py that runs; - is standard input")
    way.add_argument("--past", metavar="DATE", help="serve the window of a day (20261201), or of a name (20261201-2), again as it was")
    parser.add_argument("--port", type=int, metavar="P", help="the port of --past")
    found = parser.parse_args(words)
    if (found.past is None) != (found.port is None):
        parser.error("--past and --port belong together")
    return found


def main(words: list[str]) -> int:
    given = arguments(words)
    try:
        config = load(given.config)
        if given.check:
            print("ok")
            return DONE
        if given.post is not None:
            return post(config, given.post)
        if given.past is not None:
            return serve_past(config, given.past, given.port)
        return keep(config, given.config)
    except ConfigError as error:
        return refuse(f"{given.config}: {error}" if str(given.config) not in str(error) else str(error), USAGE)
    except (ArchiveError, FeedError, past.PastError, OSError, sqlite3.Error) as error:
        return refuse(str(error), CANNOT)


def refuse(says: str, status: int) -> int:
    print(f"keep.py: {says}", file=sys.stderr)
    return status


def keep(config: Config, path: Path) -> int:
    """Runs until a signal ends it."""
    clock = Clock(config.clock)
    log = Log(clock)
    held = lock(config.archive)
    archive = Archive.writer(config.archive, config.name, config.base)
    keeper = Keeper(config, archive, clock, log, lambda: load(path))
    try:
        server = StatusServer(config.status_port, keeper.events)
    except OSError as error:
        raise ArchiveError(f"status_port {config.status_port}: {error.strerror}") from None
    for number in (signal.SIGTERM, signal.SIGINT, signal.SIGHUP):
        signal.signal(number, keeper.signalled)
    try:
        keeper.start()
        server.status = status_of(keeper)
        server.begin()
        keeper.run(lambda: setattr(server, "status", status_of(keeper)))
    finally:
        keeper.stop()
        server.server_close()
        archive.close()
        held.close()
    log.info("ended")
    return DONE


def post(config: Config, files: list[str]) -> int:
    """Hands messages in, one after the other, and says what became of each."""
    status = DONE
    for name in files:
        try:
            body = sys.stdin.buffer.read() if name == "-" else Path(name).read_bytes()
            connection = http.client.HTTPConnection("127.0.0.1", config.status_port, timeout=90)
            connection.request("POST", "/post", body)
            reply = connection.getresponse()
            says = reply.read().decode(errors="replace").strip()
            connection.close()
        except (OSError, http.client.HTTPException) as error:
            return refuse(f"{name}: {error}", CANNOT)
        print(f"{name} {says}", flush=True)
        if reply.status != 200:
            status = CANNOT
    return status


def serve_past(config: Config, wanted: str, port: int) -> int:
    stop = threading.Event()
    for number in (signal.SIGTERM, signal.SIGINT):
        signal.signal(number, lambda *_: stop.set())
    return past.serve(config, wanted, port, stop)


if __name__ == "__main__":
    sys.exit(main(sys.argv[1:]))
