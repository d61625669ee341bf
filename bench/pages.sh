#!/bin/sh
# How the processor time of reading a page that others wrote, of writing one and of reading what was written ("again") grows
# with its connections. Prints a table, and fails where eight times the connections take more than twelve times as long.
#
#   bench/pages.sh
#
# PAGES is the program that reads and writes a page, built by build.sh where it is not set. ROUNDS is the number of rounds.
. "$(dirname "$0")/begin.sh"

ROUNDS=${ROUNDS:-5}
PAGES=${PAGES:-$("$bench/build.sh" "$work" "$bench/pages_main.txt" connection_uri page_json anyhow)}

python3 - "$PAGES" "$work" "$ROUNDS" 1250 2500 5000 10000 <<'PYTHON'
import json
import os
import sys

program, pages, rounds = sys.argv[1], sys.argv[2], int(sys.argv[3])
sizes = [int(word) for word in sys.argv[4:]]
MOST = 12  # The most connections take at most so many times as long as the fewest, which are an eighth of them.
BASE = "http://lc.example/"


def moment(seconds):
    """A moment of 2024-05-01."""
    return f"2024-05-01T{seconds // 3600:02}:{seconds // 60 % 60:02}:{seconds % 60:02}.000Z"


def connection(place):
    """The connection at a place: one of ten of a run, between two of a thousand stops."""
    run = f"T{place // 10}/20240501/-"
    return {
        "@id": f"{BASE}connections/{run}/{place % 10}",
        "arrivalStop": f"{BASE}stops/{(place * 7 + 1) % 1000}",
        "arrivalTime": moment(3600 + place * 5 + 300),
        "departureStop": f"{BASE}stops/{place * 7 % 1000}",
        "departureTime": moment(3600 + place * 5),
    }


for size in sizes:
    url = f"{BASE}memento/connections?version={moment(0)}&departureTime={moment(3600)}"
    page = {"@id": url, "@graph": [connection(place) for place in range(size)]}
    with open(f"{pages}/small{size}", "w", encoding="utf-8") as file:
        json.dump(page, file)


def once(words):
    """The user and system time of one run, in seconds."""
    silence = [(os.POSIX_SPAWN_OPEN, 1, os.devnull, os.O_WRONLY, 0)]
    child = os.posix_spawn(program, [program, *words], os.environ, file_actions=silence)
    _, status, usage = os.wait4(child, 0)
    if os.waitstatus_to_exitcode(status) != 0:
        sys.exit(f"pages.sh: {words}: exit {os.waitstatus_to_exitcode(status)}")
    return usage.ru_utime + usage.ru_stime


TIMES = 20  # How often a run reads or writes the page.
KINDS = {
    "none": ["0", "0", "0"],
    "read": [str(TIMES), "0", "0"],
    "write": ["0", str(TIMES), "0"],
    "again": ["0", "0", str(TIMES)],
}
least = {}
for _ in range(rounds):
    for size in sizes:
        for kind, words in KINDS.items():
            taken = once([f"{pages}/small{size}", *words])
            least[size, kind] = min(least.get((size, kind), float("inf")), taken)

failed = False
for kind in ("read", "write", "again"):
    first, before = None, None
    for size in sizes:
        taken = (least[size, kind] - least[size, "none"]) / TIMES
        ratio = taken / before if before else 0
        first = first or taken
        shown = f"{ratio:6.2f}" if before else "     -"
        print(f"{kind:5} {size:6} connections {shown} times the row before, {taken / size * 1e6:6.2f} us a connection")
        before = taken
    print(f"{kind:5} {before / first:6.2f} times the first row")
    failed = failed or before / first > MOST
sys.exit(1 if failed else 0)
PYTHON
