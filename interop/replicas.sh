#!/usr/bin/env bash
# interop/replicas.sh [SECONDS]: three replicas of a publisher behind haproxy and Varnish, as packaging/operating has them. For 20 seconds, or as many as
# are named, readers ask for pages and for the time gate, messages come, and one replica after the other is killed with `kill -9` and comes back
# with the messages of before. No request may fail, and no two bodies of one URL may differ. It prints a line for each check; the last line
# is `N passed, M failed, K skipped`, and the status is 0 where none failed.
#
# LC is the program, `crates/lc/out/lc` of this repository if it is not set.
set -u
here=$(cd "$(dirname "${BASH_SOURCE[0]}")" && pwd)
top=$(dirname "$here")
LC=$(realpath -m "${LC:-$top/crates/lc/out/lc}")
python=/usr/bin/python3
seconds=${1:-20}
work=$(mktemp -d)
running=()

finish() {
  local pid
  for pid in "${running[@]}"; do kill "$pid" 2>/dev/null; done
  wait 2>/dev/null
  rm -rf "$work"
}
trap finish EXIT

# stop_here WHY: nothing can be tried.
stop_here() {
  echo "skipped: three replicas behind haproxy and Varnish, since $1"
  echo '0 passed, 0 failed, 1 skipped'
  exit 0
}

[ -x "$LC" ] || stop_here "$LC is not here"
[ -f "$top/examples/proxies/varnish.vcl" ] || stop_here 'examples/proxies/varnish.vcl is not here'
for tool in haproxy varnishd curl "$python"; do command -v "$tool" >/dev/null || stop_here "$tool is not here"; done

# free_ports COUNT: ports at which nobody listens now.
free_ports() {
  "$python" -c '
import socket, sys
sockets = [socket.socket() for _ in range(int(sys.argv[1]))]
for one in sockets:
    one.bind(("127.0.0.1", 0))
print(*(one.getsockname()[1] for one in sockets))' "$1"
}

# until_open PORT: waits until somebody listens there.
until_open() {
  local tries=0
  until (: <"/dev/tcp/127.0.0.1/$1") 2>/dev/null; do
    tries=$((tries + 1))
    [ "$tries" -lt 300 ] || return 1
    sleep 0.1
  done
}

read -r varnish haproxy one two three <<<"$(free_ports 5)"
"$python" "$top/bench/make_feed.py" 20000 "$work/feed" || exit 2
printf '{"name":"feed","windows":[{"window":"20240501","path":"/feed/","ports":[%s,%s,%s]}]}' "$one" "$two" "$three" >"$work/feed.upstreams.json"
# The socket says which replicas haproxy takes for ready.
"$top/packaging/operating/haproxy.py" "$haproxy" "$work/feed.upstreams.json" | sed "s|^global|&\n    stats socket $work/haproxy.sock|" >"$work/haproxy.cfg"
# The limit of a client goes, since all readers here are one client.
sed -e "s/\"8081\"/\"$haproxy\"/" -e 's/vsthrottle.is_denied([^)]*)/false/' "$top/examples/proxies/varnish.vcl" >"$work/publisher.vcl"

# Those who start take some seconds, and none longer than this script.
timeout $((seconds + 300)) haproxy -db -f "$work/haproxy.cfg" >"$work/haproxy.log" 2>&1 &
running+=($!)
timeout $((seconds + 300)) varnishd -F -j none -n "$work/varnish" -a "127.0.0.1:$varnish" -p "vcl_path=$work" -f "$top/packaging/operating/varnish.vcl" -s malloc,64m >"$work/varnish.log" 2>&1 &
running+=($!)
if ! until_open "$haproxy" || ! until_open "$varnish"; then
  echo "FAILED: the proxies do not start: $(tail -n 3 "$work/haproxy.log" "$work/varnish.log")"
  echo '0 passed, 1 failed, 0 skipped'
  exit 1
fi

cat >"$work/drive.py" <<'PYTHON'
"""Starts the replicas, posts messages, reads, kills, and compares."""

from __future__ import annotations

import csv
import hashlib
import http.client
import random
import socket
import subprocess
import sys
import threading
import time
import urllib.request
from datetime import datetime, timezone

program, feed, haproxy = sys.argv[1:4]
seconds, varnish = int(sys.argv[4]), int(sys.argv[5])
ports = [int(word) for word in sys.argv[6:]]
BASE = f"http://localhost:{varnish}/feed/"
FIRST_MOMENT = 1714521600  # 2024-05-01T00:00:00Z, the base moment
READERS, SPANS = 8, 34
chance = random.Random(1)


def moment(seconds: int) -> str:
    return datetime.fromtimestamp(seconds, timezone.utc).strftime("%Y-%m-%dT%H:%M:%S.000Z")


def varint(value: int) -> bytes:
    out = bytearray()
    while value > 127:
        out.append(value % 128 + 128)
        value //= 128
    return bytes(out + bytes([value]))


def number(field: int, value: int) -> bytes:
    return varint(field * 8) + varint(value)


def text(field: int, inner: bytes) -> bytes:
    return varint(field * 8 + 2) + varint(len(inner)) + inner


def message(at: int) -> bytes:
    """A full message of trips that are late, of this moment."""
    parts = [text(1, text(1, b"2.0") + number(3, at))]
    for trip in chance.sample(range(2000), 50):
        late = text(2, number(1, 1) + text(3, number(1, chance.randrange(900))))
        parts.append(text(2, text(1, b"%d" % trip) + text(3, text(1, text(1, b"t%05d" % trip) + text(3, b"20240501")) + late)))
    return b"".join(parts)


class Replicas:
    """The replicas, and the archive of all messages, which each gets in their order."""

    def __init__(self) -> None:
        self.lock = threading.Lock()
        self.archive: list[tuple[int, bytes]] = []
        self.processes = [self.start(port) for port in ports]

    def start(self, port: int) -> subprocess.Popen[str]:
        words = [program, "serve", feed, "20240501", "--port", str(port), "--connections", "1000000", "--accept-updates"]
        words += ["--base", BASE, "--base-moment", moment(FIRST_MOMENT).replace(".000", "")]
        process = subprocess.Popen(words, stdout=subprocess.PIPE, stderr=subprocess.STDOUT, text=True)
        assert process.stdout is not None
        line = process.stdout.readline()
        if not line.startswith("listening"):
            sys.exit(f"FAILED: serve does not listen: {line}")
        for _, body in self.archive:
            self.post(port, body)
        return process

    @staticmethod
    def post(port: int, body: bytes) -> None:
        request = urllib.request.Request(f"http://127.0.0.1:{port}/feed/updates", body, method="POST")
        with urllib.request.urlopen(request, timeout=60) as reply:
            assert reply.status == 204, reply.status

    def tell(self, at: int) -> None:
        """Archives a message, and posts it to all."""
        with self.lock:
            body = message(at)
            self.archive.append((at, body))
            for port in ports:
                self.post(port, body)

    def kill(self, nth: int) -> None:
        """Ends a replica at once, and starts it anew a little later, with all messages of before."""
        with self.lock:
            self.processes[nth].kill()
            self.processes[nth].wait()
            time.sleep(0.3)
            self.processes[nth] = self.start(ports[nth])

    def until_ready(self) -> None:
        """Waits until haproxy takes each for ready."""
        left = time.monotonic() + 60
        while ready(haproxy) < len(ports):
            if time.monotonic() > left:
                sys.exit("FAILED: haproxy does not take the replicas for ready")
            time.sleep(0.1)

    def end(self) -> None:
        for process in self.processes:
            process.kill()
            process.wait()


def ready(path: str) -> int:
    """How many replicas haproxy takes for ready."""
    with socket.socket(socket.AF_UNIX) as one:
        one.connect(path)
        one.sendall(b"show stat\n")
        said = b"".join(iter(lambda: one.recv(65536), b"")).decode()
    rows = list(csv.DictReader(said.removeprefix("# ").splitlines()))
    return sum(row["svname"].startswith("port") and row["status"] == "UP" for row in rows)


class Readers:
    """What readers got: the sum of each body by its URL, and what failed."""

    def __init__(self, replicas: Replicas) -> None:
        self.replicas = replicas
        self.bodies: dict[str, str] = {}
        self.failed: list[str] = []
        self.differing: list[str] = []
        self.pages = self.gates = 0
        self.lock = threading.Lock()
        self.over = threading.Event()

    def read(self, seed: int) -> None:
        mine = random.Random(seed)
        count = 0
        while not self.over.is_set():
            count += 1
            try:
                if count % 5 == 0:
                    self.ask_gate(mine)
                else:
                    # Every other URL is one that Varnish has not: a member that nobody reads follows.
                    self.ask_page(mine, f"&n={seed}.{count}" if count % 2 else "")
            except (OSError, http.client.HTTPException) as error:
                self.failed.append(repr(error))

    def fetch(self, target: str) -> tuple[http.client.HTTPResponse, bytes]:
        connection = http.client.HTTPConnection("127.0.0.1", varnish, timeout=60)
        try:
            connection.request("GET", target, headers={"Host": f"localhost:{varnish}"})
            reply = connection.getresponse()
            return reply, reply.read()
        finally:
            connection.close()

    def ask_gate(self, mine: random.Random) -> None:
        reply, _ = self.fetch(f"/feed/connections?departureTime={moment(FIRST_MOMENT + 18000 + mine.randrange(SPANS) * 1800)}")
        place = reply.headers.get("Location", "")
        if reply.status != 302 or not place.startswith(f"{BASE}memento/connections?version="):
            self.failed.append(f"gate {reply.status} {place}")
        self.gates += 1

    def ask_page(self, mine: random.Random, more: str) -> None:
        known = self.replicas.archive[:-1]
        version = mine.choice(known)[0] if known and mine.random() < 0.8 else FIRST_MOMENT
        target = f"/feed/memento/connections?version={moment(version)}&departureTime={moment(FIRST_MOMENT + 18000 + mine.randrange(SPANS) * 1800)}"
        reply, body = self.fetch(target + more)
        self.pages += 1
        if reply.status != 200:
            self.failed.append(f"page {reply.status} {target}")
            return
        found = hashlib.sha256(body).hexdigest()
        with self.lock:
            if self.bodies.setdefault(target, found) != found:
                self.differing.append(target)


def check(name: str, wrong: list[str]) -> bool:
    print(f"ok: {name}" if not wrong else f"FAILED: {name}: {len(wrong)}, as {wrong[0]}")
    return not wrong


def main() -> int:
    replicas = Replicas()
    try:
        replicas.tell(FIRST_MOMENT + 60)
        replicas.until_ready()
        readers = Readers(replicas)
        threads = [threading.Thread(target=readers.read, args=(seed,)) for seed in range(READERS)]
        for thread in threads:
            thread.start()
        kills, begun = 0, time.monotonic()
        while time.monotonic() - begun < seconds:
            replicas.tell(FIRST_MOMENT + 120 + 30 * len(replicas.archive))
            time.sleep(chance.uniform(0.5, 1.5))
            replicas.kill(chance.randrange(len(ports)))
            kills += 1
            # The others are there while this one comes back, and haproxy sees it before the next one goes.
            time.sleep(1)
            replicas.until_ready()
        readers.over.set()
        for thread in threads:
            thread.join()
        good = [
            check(f"no request failed of {readers.pages} pages and {readers.gates} gates, over {kills} kills", readers.failed),
            check(f"no two bodies of one of {len(readers.bodies)} URLs differ", readers.differing),
            check("each replica answers these bytes", differing_replicas(readers.bodies)),
            check("there were kills, pages and messages", [] if kills >= 2 and len(readers.bodies) > 20 and readers.gates > 10 else ["too few"]),
        ]
        print(f"{sum(good)} passed, {len(good) - sum(good)} failed, 0 skipped")
        return 0 if all(good) else 1
    finally:
        replicas.end()


def differing_replicas(bodies: dict[str, str]) -> list[str]:
    """The URLs at which a replica, asked itself, answers other bytes. Some of all are asked for."""
    wrong = []
    for target in chance.sample(sorted(bodies), min(60, len(bodies))):
        for port in ports:
            request = urllib.request.Request(f"http://127.0.0.1:{port}{target}", headers={"Host": f"localhost:{varnish}", "Connection": "close"})
            with urllib.request.urlopen(request, timeout=60) as reply:
                if hashlib.sha256(reply.read()).hexdigest() != bodies[target]:
                    wrong.append(f"port {port} {target}")
    return wrong


sys.exit(main())
PYTHON

timeout $((seconds + 240)) "$python" "$work/drive.py" "$LC" "$work/feed" "$work/haproxy.sock" "$seconds" "$varnish" "$one" "$two" "$three"
