#!/usr/bin/python3
"""A day of an agency in minutes, with the program itself: `ok: ..` or `FAILED: ..` for each check, `skipped: ..` where a tool is missing.

    day.py PROGRAM [--messages N] [--kills N] [--mementos N] [--seed N]

It publishes messages at a URL that keep.py fetches, and kills keep.py or `serve` at moments drawn by lot. Pages that were read on the way have to be
the same afterwards. Then windows roll over under readers behind nginx, and a window that is over is served again.
"""

from __future__ import annotations

import argparse
import contextlib
import http.client
import json
import os
import random
import shutil
import signal
import subprocess
import sys
import threading
import time
from datetime import date, datetime, timedelta
from pathlib import Path
from typing import Any, Iterator
from urllib.parse import urlsplit
from zoneinfo import ZoneInfo

from harness import AGENCY, Late, Running, Site, ask, free_ports, make_feed, message, wait_for

ZONE = ZoneInfo("Europe/Brussels")
TRIPS = 200
DAY_SECONDS = 86_400
YESTERDAY = date.today() - timedelta(days=1)

failures = 0


def say(holds: bool, name: str) -> None:
    global failures
    failures += not holds
    print(f"{'ok' if holds else 'FAILED'}: {name}", flush=True)


def pages(port: int, base: str, version: str) -> list[bytes]:
    """All pages of a version, along `hydra:next`."""
    target = f"{base}memento/connections?version={version}"
    found = []
    while target:
        url = urlsplit(target)
        reply = ask(port, f"{url.path}?{url.query}", url.netloc)
        assert reply.status == 200, f"{target}: status {reply.status}"
        found.append(reply.body)
        target = json.loads(reply.body).get("hydra:next", "")
    return found


class Play:
    """A keep.py that fetches the messages of a day: its clock follows the messages."""

    def __init__(self, program: Path, chance: random.Random, step: float, **keys: Any) -> None:
        self.site = Site()
        self.chance = chance
        self.step = step
        self.run = Running(program, realtime=[self.site.url("/trips.pb")], every=0.05, **keys)
        make_feed(self.run.folder / "feed", TRIPS, YESTERDAY - timedelta(days=2), 30)
        self.moment = datetime(YESTERDAY.year, YESTERDAY.month, YESTERDAY.day, 4, tzinfo=ZONE).timestamp()
        self.late: Late = {f"T{number}": 0 for number in range(TRIPS)}
        self.sent: dict[int, bytes] = {}
        self.set_clock()

    def set_clock(self) -> None:
        self.run.ahead(self.moment - time.time())

    def send(self) -> None:
        """Publishes the next message: some trips are later than before, now and then one has gone."""
        self.moment += self.step
        self.set_clock()
        for number in self.chance.sample(range(TRIPS), 10):
            self.late[f"T{number}"] = self.chance.randrange(1, 1200)
        self.late.pop(self.chance.choice(list(self.late)))
        body = message(self.moment, self.late, day=f"{YESTERDAY:%Y%m%d}")
        self.sent[int(self.moment)] = body
        self.site.documents["/trips.pb"] = body

    def archived(self) -> int:
        found: int = self.run.status().get("archive", {}).get("messages", 0)
        return found

    def close(self) -> None:
        self.run.close()
        self.site.close()


def draw(play: Play, window: str, count: int) -> Iterator[tuple[str, bytes]]:
    """Pages of versions and departures drawn by lot, each with its target."""
    versions = play.run.versions(window)
    for _ in range(count):
        leave = datetime(YESTERDAY.year, YESTERDAY.month, YESTERDAY.day, 5, tzinfo=ZONE) + timedelta(minutes=play.chance.randrange(300))
        moment = datetime.fromtimestamp(leave.timestamp(), ZoneInfo("UTC")).strftime("%Y-%m-%dT%H:%M:%S.000Z")
        target = f"memento/connections?version={play.chance.choice(versions)}&departureTime={moment}"
        reply = play.run.page(window, target)
        assert reply.status == 200, f"{target}: status {reply.status}"
        yield target, reply.body


def kill_one(play: Play) -> None:
    """kill -9 of keep.py or of `serve`, by lot, after a moment drawn by lot."""
    time.sleep(play.chance.uniform(0, 0.1))
    status = play.run.status()
    pids = [process["pid"] for window in status.get("windows", []) for process in window["processes"]]
    if pids and play.chance.random() < 0.5:
        with contextlib.suppress(ProcessLookupError):
            os.kill(play.chance.choice(pids), signal.SIGKILL)
    else:
        play.run.kill()
        play.run.start(ready=False)


def a_day(program: Path, given: argparse.Namespace) -> None:
    """Messages and kills; what was archived and read before is there after them."""
    chance = random.Random(given.seed)
    play = Play(program, chance, DAY_SECONDS / given.messages)
    try:
        play.run.start()
        window = play.run.catalog()["current"]
        kills = set(chance.sample(range(given.messages), given.kills))
        before: dict[str, bytes] = {}
        for number in range(given.messages):
            play.send()
            if number in kills:
                kill_one(play)
            wait_for("the message is archived", lambda: play.archived() == number + 1)
            if number % 3 == 2:
                wait_for("it is served", play.run.served)
                before |= dict(draw(play, window, -(-given.mementos * 3 // given.messages)))
        status = wait_for("all is served", play.run.served)
        versions = play.run.versions(window)
        say(status["archive"]["messages"] == given.messages, f"{given.messages} messages are in the archive after {given.kills} kills")
        say(len(versions) - 1 == len({one for one in play.sent}), f"{len(versions) - 1} versions are served")
        play.run.kill()
        begun = time.monotonic()
        play.run.start()
        print(f"  started anew with {len(versions)} versions in {time.monotonic() - begun:.1f} s", flush=True)
        same = sum(play.run.page(window, target).body == body for target, body in before.items())
        say(same == len(before) and same >= given.mementos * 0.9, f"{same} of {len(before)} mementos drawn by lot are the same bytes")
        sizes = status["archive"]
        say(sizes["bytes"] * 3 <= sizes["bytesThatCame"], f"the archive has {sizes['bytes']} bytes for {sizes['bytesThatCame']} bytes that came")
        forms_are_the_same(program, play, window, chance)
        past_is_the_same(play, window, before)
        for name in ("traceback", "serve did not take a message"):
            say(name not in play.run.said().lower(), f"the log has no `{name}`")
    finally:
        play.close()


def forms_are_the_same(program: Path, play: Play, window: str, chance: random.Random) -> None:
    """`serve` itself, given the messages as they were sent, has the same pages."""
    [entry] = [one for one in play.run.catalog()["windows"] if one["window"] == window]
    port = free_ports(1)[0]
    words = [str(program), "serve", "feed", entry["first"], "--days", str(entry["days"]), "--zone", f"file:/usr/share/zoneinfo/{entry['zone']}", "--port", str(port)]
    words += ["--base", entry["base"], "--base-moment", entry["baseMoment"], "--connections", "100000", "--accept-updates"]
    with subprocess.Popen(words, cwd=play.run.folder, stdout=subprocess.PIPE, text=True) as server:
        try:
            assert server.stdout is not None and server.stdout.readline() == f"listening {port}\n"
            target = urlsplit(entry["base"])
            for body in play.sent.values():
                assert ask(port, f"{target.path}updates", target.netloc, "POST", body).status == 204
            drawn = chance.sample(play.run.versions(window), 20)
            same = [pages(port, entry["base"], version) == pages(play.run.ports_of(window)[0], entry["base"], version) for version in drawn]
            differential = play.run.log("archived")
            kinds = {line["form"] for line in differential}
            say(all(same) and kinds == {"full", "differential"}, f"the differential form gives the pages of the full one, {len(same)} versions page by page")
        finally:
            server.terminate()


def past_is_the_same(play: Play, window: str, before: dict[str, bytes]) -> None:
    """A window that is over, served again."""
    run = play.run
    play.moment += 8 * DAY_SECONDS
    play.set_clock()
    wait_for("the window is over", lambda: run.ports_of(window) == [] and window not in [one["window"] for one in run.catalog()["windows"]])
    port = run.ports[-1]
    words = [str(AGENCY / "keep.py"), "config.toml", "--past", f"{YESTERDAY:%Y%m%d}", "--port", str(port)]
    base = urlsplit(f"{run.keys['base']}tiny/{window}/")
    with subprocess.Popen(words, cwd=run.folder, stdout=subprocess.PIPE, stderr=subprocess.DEVNULL, text=True) as past:
        assert past.stdout is not None
        says = past.stdout.readline()
        same = sum(ask(port, base.path + target, base.netloc).body == body for target, body in before.items())
        past.terminate()
        say(window in says and same == len(before) and past.wait(60) == 0, f"--past gives {same} of {len(before)} mementos as they were")


NGINX = """
worker_processes 2;
pid nginx.pid;
error_log error.log;
events {{ worker_connections 1024; }}
http {{
    access_log off;
    client_body_temp_path bodies; proxy_temp_path replies; fastcgi_temp_path none; uwsgi_temp_path none; scgi_temp_path none;
    include proxy/tiny.upstreams.conf;
    map $uri $publisher {{ default ""; include proxy/tiny.windows.map; }}
    proxy_http_version 1.1;
    proxy_set_header Host $http_host;
    proxy_set_header Connection close;
    proxy_redirect off;
    proxy_next_upstream error timeout http_404;
    server {{
        listen 127.0.0.1:{port};
        location ~ ^/tiny/[^/]+/(memento/connections|connections|stops)$ {{
            if ($publisher = "") {{ return 404; }}
            proxy_pass http://$publisher;
        }}
        location / {{ root public; }}
    }}
}}
"""


class Reader(threading.Thread):
    """A client that reads the catalog, the time gate of the current window and its page, again and again, and old pages between."""

    def __init__(self, port: int, seed: int) -> None:
        super().__init__(daemon=True)
        self.port = port
        self.stopped = threading.Event()
        self.requests = 0
        self.faults: list[str] = []
        self._kept: list[tuple[str, bytes]] = []
        self._chance = random.Random(seed)

    def run(self) -> None:
        while not self.stopped.is_set():
            try:
                self._read()
            except (OSError, http.client.HTTPException, ValueError) as error:
                self.faults.append(repr(error))

    def _read(self) -> None:
        catalog = json.loads(self._get("/tiny/catalog.json", 200)[1])
        [entry] = [one for one in catalog["windows"] if one["window"] == catalog["current"]]
        page, _ = self._get(urlsplit(entry["base"]).path + "connections?departureTime=2026-01-01T00:00:00Z", 302)
        body = self._get(page, 200)[1]
        if self._chance.random() < 0.1:
            self._kept.append((page, body))
        served = {urlsplit(one["base"]).path for one in catalog["windows"]}
        kept = [one for one in self._kept if one[0].split("memento")[0] in served]
        if kept:
            target, known = self._chance.choice(kept)
            if self._get(target, 200)[1] != known:
                self.faults.append(f"{target}: other bytes")

    def _get(self, target: str, status: int) -> tuple[str, bytes]:
        reply = ask(self.port, target, f"localhost:{self.port}")
        self.requests += 1
        if reply.status != status:
            self.faults.append(f"{target}: status {reply.status}")
            raise ValueError(f"status {reply.status}")
        url = urlsplit(reply.location)
        return f"{url.path}?{url.query}", reply.body


def a_rollover(program: Path, given: argparse.Namespace) -> None:
    """Windows begin and end, for a full publisher and for a new day, while readers ask through nginx."""
    if shutil.which("nginx") is None:
        print("skipped: a rollover under readers, since nginx is not here", flush=True)
        return
    [port] = free_ports(1)
    play = Play(program, random.Random(given.seed), 10.0, base=f"http://localhost:{port}/", most_messages=30, days=4, overlap=1, drain=2.0, status_port=free_ports(21)[-1])
    run = play.run
    run.ports[0] = run.keys["status_port"]
    run.configure(reload=f"nginx -p {run.folder} -c nginx.conf -s reload")
    readers = [Reader(port, seed) for seed in range(4)]
    try:
        (run.folder / "nginx.conf").write_text(NGINX.format(port=port))
        run.folder.chmod(0o755)  # Workers of nginx are of another user.
        (run.folder / "proxy").mkdir()
        for name in ("tiny.upstreams.conf", "tiny.windows.map"):
            (run.folder / "proxy" / name).write_text("")
        subprocess.run(["nginx", "-p", str(run.folder), "-c", "nginx.conf"], check=True, stderr=subprocess.DEVNULL)
        run.start()
        first = run.catalog()["current"]
        for reader in readers:
            reader.start()
        for number in range(40):
            play.send()
            wait_for("the message is archived", lambda: play.archived() == number + 1)
        wait_for("a full publisher has a successor", lambda: run.catalog()["current"] == f"{first}-2")
        say(not any(reader.faults for reader in readers), f"{asked(readers)} requests while a publisher was full, none failed {faults(readers)}")
        run.signal(signal.SIGHUP)
        pids = {process["pid"] for window in run.status()["windows"] for process in window["processes"]}
        wait_for("all processes are new", lambda: run.served() and not pids & {process["pid"] for window in run.status()["windows"] for process in window["processes"]})
        say(not any(reader.faults for reader in readers), f"{asked(readers)} requests while all processes were changed over, none failed {faults(readers)}")
        play.moment += 3 * DAY_SECONDS
        play.set_clock()
        newest = wait_for("the next day's window", lambda: run.catalog()["current"] if not run.catalog()["current"].startswith(first) else None)
        play.moment += DAY_SECONDS
        play.set_clock()
        wait_for("the old windows are gone", lambda: [one["window"] for one in run.catalog()["windows"]] == [newest] and run.ports_of(first) == [])
        wait_for("their processes are gone", lambda: len(run.status()["windows"]) == 1)
        say(not any(reader.faults for reader in readers), f"{asked(readers)} requests while a day began and ended, none failed {faults(readers)}")
    finally:
        for reader in readers:
            reader.stopped.set()
        with contextlib.suppress(OSError, ValueError):
            os.kill(int((run.folder / "nginx.pid").read_text()), signal.SIGTERM)
        play.close()


def asked(readers: list[Reader]) -> int:
    return sum(reader.requests for reader in readers)


def faults(readers: list[Reader]) -> str:
    return "; ".join(fault for reader in readers for fault in reader.faults[:2])


def main() -> int:
    parser = argparse.ArgumentParser(description=__doc__, formatter_class=argparse.RawDescriptionHelpFormatter)
    parser.add_argument("program", type=Path)
    for name, default in (("--messages", 300), ("--kills", 20), ("--mementos", 1000), ("--seed", 1)):
        parser.add_argument(name, type=int, default=default)
    given = parser.parse_args()
    for part in (a_day, a_rollover):
        try:
            part(given.program.resolve(), given)
        except (AssertionError, OSError, http.client.HTTPException, subprocess.SubprocessError) as error:
            say(False, f"{part.__name__}: {error!r}")
    return 1 if failures else 0


if __name__ == "__main__":
    sys.exit(main())
