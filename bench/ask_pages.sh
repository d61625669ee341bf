#!/bin/sh
# What `ask` takes beside the reading of the feed: for publishing pages and for following them. That is divided by the connections of the
# version, and by the replies that are made of them. Those are the pages and the time gate's replies. Prints a table, and fails where the
# quotient grows more than twofold from 10,000 connections to 1,000,000. See docs/PERFORMANCE.md.
#
#   bench/ask_pages.sh
#
# LC is the program, ROUNDS the number of rounds.
. "$(dirname "$0")/begin.sh"

LC=${LC:-$bench/../crates/lc/out/lc}
ROUNDS=${ROUNDS:-5}
# Of ten rows nine have a connection to the next, on each of two days.
DAYS=2
set -- 5560 55560 555560

[ -x "$LC" ] || { echo "ask_pages.sh: no program at $LC" >&2; exit 1; }

for rows in "$@"; do
    python3 "$bench/make_feed.py" "$rows" "$work/$rows" "$DAYS"
done

python3 - "$LC" "$work" "$ROUNDS" "$DAYS" "$@" <<'PYTHON'
import os
import subprocess
import sys

lc, feeds = sys.argv[1:3]
rounds, days = int(sys.argv[3]), sys.argv[4]
sizes = [int(word) for word in sys.argv[5:]]
MOST = 2.0  # From the smallest feed on, a connection of a reply takes at most so many times.
MOMENT = "2024-05-02T06:00:00Z"


def last_stop(rows):
    """The id of the feed's last stop."""
    with open(f"{feeds}/{rows}/stops.txt", encoding="ascii") as file:
        return file.read().splitlines()[-1].split(",")[0]


def once(words):
    """The user and system time of one run, in seconds."""
    silence = [(os.POSIX_SPAWN_OPEN, 1, os.devnull, os.O_WRONLY, 0)]
    child = os.posix_spawn(lc, words, os.environ, file_actions=silence)
    _, status, usage = os.wait4(child, 0)
    if os.waitstatus_to_exitcode(status) != 0:
        sys.exit(f"ask_pages.sh: {words}: exit {os.waitstatus_to_exitcode(status)}")
    return usage.ru_utime + usage.ru_stime


asks = {rows: [lc, "ask", f"{feeds}/{rows}", "s00000", last_stop(rows), MOMENT, "--days", days] for rows in sizes}
reads = {rows: [lc, "check", f"{feeds}/{rows}", "20240501", "--days", days] for rows in sizes}
replies = {}
for rows in sizes:
    output = subprocess.run(asks[rows], capture_output=True, check=True, text=True).stdout
    replies[rows] = int(output.split()[-1]) - 1  # The stops document is asked for too, and has no connections.

# The feeds take turns, so that what else the machine does meets all of them.
least = {rows: (float("inf"), float("inf")) for rows in sizes}
for _ in range(rounds):
    for rows in sizes:
        least[rows] = tuple(map(min, least[rows], (once(asks[rows]), once(reads[rows]))))

connections = {rows: rows * 9 // 10 * int(days) for rows in sizes}
cost = {rows: (least[rows][0] - least[rows][1]) / (connections[rows] * replies[rows]) for rows in sizes}
if min(cost.values()) <= 0:
    sys.exit("ask_pages.sh: a question took no longer than reading its feed; raise ROUNDS")

print("| connections | replies | `ask` to `check` | a connection of a reply, to the first row |")
print("|------------:|--------:|-----------------:|-------------------------------------------:|")
for rows in sizes:
    ratio = least[rows][0] / least[rows][1]
    print(f"| {connections[rows]:11,} | {replies[rows]:7} | {ratio:16.2f} | {cost[rows] / cost[sizes[0]]:42.2f} |")
if max(cost.values()) > MOST * cost[sizes[0]]:
    sys.exit(f"ask_pages.sh: a connection of a reply took more than {MOST} times")
PYTHON
