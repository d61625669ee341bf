#!/bin/sh
# How long a scan takes a connection where no walk is possible: no stop has a change to another one. Beside it, where there is
# another checkout of this repository, how long the scan there takes. Fails where this one takes more than four thirds of that.
#
#   bench/scan.sh [CHECKOUT]
#
# SCAN is the program that scans, and OTHER that of the other checkout, each built by build.sh where it is not set. ROUNDS is
# the number of rounds.
. "$(dirname "$0")/begin.sh"

ROUNDS=${ROUNDS:-7}
# build CHECKOUT NAME: builds the program there, and prints where it is.
build() { "$1/bench/build.sh" "$work/$2" "$bench/scan_main.txt" lc_model connection_uri page_json csa_scan anyhow; }
SCAN=${SCAN:-$(build "$bench/.." this)}
OTHER=${OTHER:-}
if [ -z "$OTHER" ] && [ $# -gt 0 ]; then
    OTHER=$(build "$1" other)
fi

python3 - "$work" "$ROUNDS" "$SCAN" ${OTHER:+"$OTHER"} <<'PYTHON'
import json
import os
import random
import sys

work, rounds, programs = sys.argv[1], int(sys.argv[2]), sys.argv[3:]
MOST = 4 / 3  # This scan takes at most so many times as long as the other one.
SCANS = 20  # A run scans the page so many times.
STOPS, TRIPS, CALLS = 400, 1000, 11
BASE = "http://lc.example/"


def moment(seconds):
    """A moment of 2024-05-01."""
    return f"2024-05-01T{seconds // 3600:02}:{seconds // 60 % 60:02}:{seconds % 60:02}.000Z"


def stop_id(place):
    return f"{place:04}"


def trip(chance, place):
    """The connections of one trip: its departure, trip and sequence, and then its fields."""
    start = chance.randrange(0, 72_000)
    stops = chance.sample(range(STOPS), CALLS)
    for seq, (dep, arr) in enumerate(zip(stops, stops[1:])):
        time = start + 300 * seq
        yield time, f"T{place:04}", seq, {
            "@id": f"{BASE}connections/T{place:04}/20240501/-/{seq}",
            "arrivalStop": f"{BASE}stops/{stop_id(arr)}",
            "arrivalTime": moment(time + 240),
            "departureStop": f"{BASE}stops/{stop_id(dep)}",
            "departureTime": moment(time),
        }


chance = random.Random(1)
rows = sorted((row for place in range(TRIPS) for row in trip(chance, place)), key=lambda row: row[:3])
url = f"{BASE}memento/connections?version={moment(0)}&departureTime={moment(0)}"
with open(f"{work}/page", "w", encoding="utf-8") as file:
    json.dump({"@id": url, "@graph": [row[3] for row in rows]}, file)
ids = [stop_id(place) for place in range(STOPS)]
doc = {
    "@id": f"{BASE}stops",
    "changes": [{"from": stop, "seconds": 120, "to": stop} for stop in ids],
    "stops": [{"id": stop, "name": stop} for stop in ids],
}
with open(f"{work}/stops", "w", encoding="utf-8") as file:
    json.dump(doc, file)


def once(program, scans):
    """The user and system time of one run, in seconds."""
    silence = [(os.POSIX_SPAWN_OPEN, 1, os.devnull, os.O_WRONLY, 0)]
    words = [program, f"{work}/stops", f"{work}/page", str(scans)]
    child = os.posix_spawn(program, words, os.environ, file_actions=silence)
    _, status, usage = os.wait4(child, 0)
    if os.waitstatus_to_exitcode(status) != 0:
        sys.exit(f"scan.sh: {words}: exit {os.waitstatus_to_exitcode(status)}")
    return usage.ru_utime + usage.ru_stime


# The programs take turns, so that what else the machine does meets both.
least = {}
for _ in range(rounds):
    for program in programs:
        for scans in (0, SCANS):
            taken = once(program, scans)
            least[program, scans] = min(least.get((program, scans), float("inf")), taken)

taken = [(least[program, SCANS] - least[program, 0]) / SCANS / len(rows) * 1e9 for program in programs]
for name, nanos in zip(("this", "other"), taken):
    print(f"{name:5} {len(rows)} connections {nanos:7.1f} ns a connection")
if len(taken) > 1:
    print(f"ratio {taken[0] / taken[1]:.2f}")
    sys.exit(1 if taken[0] / taken[1] > MOST else 0)
PYTHON
