#!/bin/sh
# How the processor time and the most memory of `replay` grow with the differential messages of a script that asks nothing, beside those of `check`. Each
# message has 50 delayed trips. They are drawn from as many trips of the feed as POOL says. Prints a table, and fails where twice the messages take
# more than 2.3 times, or a message more than 100 KB. See docs/PERFORMANCE.md.
#
#   bench/admissions.sh
#
# LC is the program, ROWS the rows of the feed's stop_times.txt, DAYS its days, POOL the number of trips, and ROUNDS the number of rounds.
. "$(dirname "$0")/begin.sh"

LC=${LC:-$bench/../crates/lc/out/lc}
ROUNDS=${ROUNDS:-3}
# Of ten rows nine have a connection to the next on each of the days: 999,999 connections.
ROWS=${ROWS:-370370}
DAYS=${DAYS:-3}
POOL=${POOL:-2000}
# Messages of each script.
set -- 500 1000 2000

[ -x "$LC" ] || { echo "admissions.sh: no program at $LC" >&2; exit 1; }

python3 "$bench/make_feed.py" "$ROWS" "$work/feed" "$DAYS"

python3 - "$bench" "$LC" "$work" "$ROUNDS" "$DAYS" "$POOL" "$@" <<'PYTHON'
import os
import random
import sys

sys.path.insert(0, sys.argv[1])
sys.dont_write_bytecode = True
from make_message import number, text
from make_script import FIRST, delayed

lc, work = sys.argv[2:4]
rounds, days, pool = map(int, sys.argv[4:7])
sizes = [int(word) for word in sys.argv[7:]]
MOST = 2.3  # Twice the messages take at most so many times.
MOST_BYTES = 100_000  # A message takes at most so much memory.
TRIPS = 50  # of a message


def message(place, chance):
    header = text(1, b"2.0") + number(2, 1) + number(3, FIRST + 60 * place)
    entities = [text(2, text(1, b"e%06d" % trip) + text(3, delayed(trip, chance.randrange(30, 600)))) for trip in chance.sample(range(pool), TRIPS)]
    return text(1, header) + b"".join(entities)


def once(words):
    """The user and system time of one run, in seconds, and its most memory, in KiB."""
    silence = [(os.POSIX_SPAWN_OPEN, 1, os.devnull, os.O_WRONLY, 0)]
    child = os.posix_spawn(lc, words, os.environ, file_actions=silence)
    _, status, usage = os.wait4(child, 0)
    if os.waitstatus_to_exitcode(status) != 0:
        sys.exit(f"admissions.sh: {words}: exit {os.waitstatus_to_exitcode(status)}")
    return usage.ru_utime + usage.ru_stime, usage.ru_maxrss


chance = random.Random(3)
for place in range(max(sizes)):
    with open(f"{work}/{place}.pb", "wb") as file:
        file.write(message(place, chance))
for size in [0, *sizes]:
    with open(f"{work}/{size}.csv", "w", encoding="ascii", newline="\n") as file:
        file.writelines(f"update,{work}/{place}.pb\n" for place in range(size))

# The scripts take turns, so that what else the machine does meets all of them.
least = {size: (float("inf"), float("inf")) for size in [0, *sizes]}
for _ in range(rounds):
    for size in least:
        words = [lc, "replay", f"{work}/feed", "20240501", f"{work}/{size}.csv", "--days", str(days)]
        least[size] = tuple(map(min, least[size], once(words)))
cost = {size: least[size][0] - least[0][0] for size in sizes}

print("| messages | beside a script of none | to the row before | KB a message |")
print("|---------:|------------------------:|------------------:|-------------:|")
worst, most = 0.0, 0.0
for size in sizes:
    ratio = cost[size] / cost[size // 2] if size // 2 in cost else None
    before = size // 2 if size // 2 in cost else 0
    memory = (least[size][1] - least[before][1]) * 1.024 / (size - before)
    worst, most = max(worst, ratio or 0.0), max(most, memory * 1000)
    shown = f"{ratio:.2f}" if ratio is not None else "-"
    print(f"| {size:8,} | {cost[size] / least[0][0]:23.2f} | {shown:>17} | {memory:12.1f} |")
if worst > MOST:
    sys.exit(f"admissions.sh: twice the messages took {worst:.2f} times")
if most > MOST_BYTES:
    sys.exit(f"admissions.sh: a message took {most / 1000:.0f} KB")
PYTHON
