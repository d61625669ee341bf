#!/bin/sh
# How the processor time and the most memory of the command `check` grow with a feed, up to the limit of 4,000,000
# connections. Prints a table, and fails where doubling the feed takes more than 2.3 times the time. See docs/PERFORMANCE.md.
#
#   bench/growth.sh
#
# LC is the program, ROUNDS the number of rounds. The feeds take about 60 MB of disk while it runs.
. "$(dirname "$0")/begin.sh"

LC=${LC:-$bench/../crates/lc/out/lc}
ROUNDS=${ROUNDS:-3}
# Of ten rows nine have a connection to the next on each of the days: the last feed has 3,999,960 connections.
DAYS=5
set -- 55550 111110 222220 444440 888880

[ -x "$LC" ] || { echo "growth.sh: no program at $LC" >&2; exit 1; }

for rows in "$@"; do
    python3 "$bench/make_feed.py" "$rows" "$work/$rows" "$DAYS"
done

python3 - "$LC" "$work" "$ROUNDS" "$DAYS" "$@" <<'PYTHON'
import os
import sys

lc, feeds = sys.argv[1:3]
rounds, days = int(sys.argv[3]), int(sys.argv[4])
sizes = [int(word) for word in sys.argv[5:]]
MOST = 2.3  # Doubling the feed takes at most so many times.


def once(rows):
    """The user and system time of one run, in seconds, and its most memory, in KiB."""
    silence = [(os.POSIX_SPAWN_OPEN, 1, os.devnull, os.O_WRONLY, 0)]
    words = [lc, "check", f"{feeds}/{rows}", "20240501", "--days", str(days)]
    child = os.posix_spawn(lc, words, os.environ, file_actions=silence)
    _, status, usage = os.wait4(child, 0)
    if os.waitstatus_to_exitcode(status) != 0:
        sys.exit(f"growth.sh: the feed of {rows} rows: exit {os.waitstatus_to_exitcode(status)}")
    return usage.ru_utime + usage.ru_stime, usage.ru_maxrss


# The feeds take turns, so that what else the machine does meets all of them.
least = {rows: (float("inf"), float("inf")) for rows in sizes}
for _ in range(rounds):
    for rows in sizes:
        least[rows] = tuple(map(min, least[rows], once(rows)))
ratios = {b: tuple(y / x for x, y in zip(least[a], least[b])) for a, b in zip(sizes, sizes[1:])}

print("|      rows | connections | time to the row before | memory to the row before |")
print("|----------:|------------:|-----------------------:|-------------------------:|")
for rows in sizes:
    time, memory = (f"{ratio:.2f}" for ratio in ratios[rows]) if rows in ratios else ("-", "-")
    print(f"| {rows:9,} | {rows * 9 // 10 * days:11,} | {time:>22} | {memory:>24} |")
if max(time for time, _ in ratios.values()) > MOST:
    sys.exit(f"growth.sh: doubling the feed took more than {MOST} times")
PYTHON
