#!/bin/sh
# What `fewest` and `arrive` take beside `ask` for one question, each less the reading of the feed. All follow as many pages. Prints a table, and
# fails where `fewest` takes more than twice as long, or `arrive` more than 1.3 times. See docs/PERFORMANCE.md.
#
#   bench/questions.sh
#
# LC is the program, ROUNDS the number of rounds.
. "$(dirname "$0")/begin.sh"

LC=${LC:-$bench/../crates/lc/out/lc}
ROUNDS=${ROUNDS:-5}
# Of ten rows nine have a connection to the next, on each of two days.
DAYS=2
set -- 5560 55560

[ -x "$LC" ] || { echo "questions.sh: no program at $LC" >&2; exit 1; }

for rows in "$@"; do
    python3 "$bench/make_feed.py" "$rows" "$work/$rows" "$DAYS"
done

python3 - "$LC" "$work" "$ROUNDS" "$DAYS" "$@" <<'PYTHON'
import os
import subprocess
import sys

lc, feeds = sys.argv[1:3]
rounds, days = int(sys.argv[3]), sys.argv[4]
sizes = [int(word) for word in sys.argv[5:]]
MOST = {"fewest": 2.0, "arrive": 1.3}  # They take at most so many times what `ask` takes.
DAY = "2024-05-02"
MOMENT = f"{DAY}T06:00:00Z"


def last_stop(rows):
    """The id of the feed's last stop."""
    with open(f"{feeds}/{rows}/stops.txt", encoding="ascii") as file:
        return file.read().splitlines()[-1].split(",")[0]


def question(command, rows, moment=MOMENT):
    return [lc, command, f"{feeds}/{rows}", "s00000", last_stop(rows), moment, "--days", days]


def once(words):
    """The user and system time of one run, in seconds."""
    silence = [(os.POSIX_SPAWN_OPEN, 1, os.devnull, os.O_WRONLY, 0)]
    child = os.posix_spawn(lc, words, os.environ, file_actions=silence)
    _, status, usage = os.wait4(child, 0)
    if os.waitstatus_to_exitcode(status) != 0:
        sys.exit(f"questions.sh: {words}: exit {os.waitstatus_to_exitcode(status)}")
    return usage.ru_utime + usage.ru_stime


def said(words):
    """The arrival, if there is one, and the exchanges."""
    lines = subprocess.run(words, capture_output=True, check=True, text=True).stdout.splitlines()
    return [line.split()[-1] for line in lines if line.startswith(("journey", "exchanges"))]


def arriving(rows):
    """A question of `arrive` that has a journey, after as many exchanges as the one of `ask`."""
    exchanges = said(question("ask", rows))[-1]
    for minute in range(7 * 60, 24 * 60, 10):
        words = question("arrive", rows, f"{DAY}T{minute // 60:02}:{minute % 60:02}:00Z")
        lines = said(words)
        if len(lines) == 2 and lines[-1] == exchanges:
            return words
    sys.exit(f"questions.sh: over {rows} rows no question of `arrive` makes {exchanges} exchanges")


runs = {}
for rows in sizes:
    check = [lc, "check", f"{feeds}/{rows}", "20240501", "--days", days]
    runs[rows] = [check, question("ask", rows), question("fewest", rows), arriving(rows)]
    if said(runs[rows][1]) != said(runs[rows][2]):
        sys.exit(f"questions.sh: over {rows} rows `fewest` arrives at another moment than `ask`, or makes other exchanges")

# The feeds take turns, so that what else the machine does meets all of them.
least = {rows: [float("inf")] * len(runs[rows]) for rows in sizes}
for _ in range(rounds):
    for rows in sizes:
        least[rows] = [min(old, once(words)) for old, words in zip(least[rows], runs[rows])]

print("| connections | exchanges | `fewest` to `ask`, each less `check` | `arrive` to `ask`, each less `check` |")
print("|------------:|----------:|-------------------------------------:|-------------------------------------:|")
most = dict.fromkeys(MOST, 0.0)
for rows in sizes:
    check, ask, *others = least[rows]
    if ask <= check:
        sys.exit("questions.sh: a question took no longer than reading its feed; raise ROUNDS")
    ratios = [(other - check) / (ask - check) for other in others]
    most = {name: max(old, ratio) for (name, old), ratio in zip(most.items(), ratios)}
    print(f"| {rows * 9 // 10 * int(days):11,} | {said(runs[rows][1])[-1]:>9} | {ratios[0]:36.2f} | {ratios[1]:36.2f} |")
for name, ratio in most.items():
    if ratio > MOST[name]:
        sys.exit(f"questions.sh: `{name}` took more than {MOST[name]} times what `ask` took")
PYTHON
