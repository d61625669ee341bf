#!/bin/sh
# What `replay` takes beside the reading of the feed, and how that grows with the clients and with the messages of a script. Beside it, what
# `ask` takes for the same questions, one by one. Prints a table, and fails where twice the clients or twice the messages take more than 2.3 times.
# See docs/PERFORMANCE.md.
#
#   bench/replay.sh
#
# LC is the program, ROUNDS the number of rounds, ROWS the rows of the feed's stop_times.txt.
. "$(dirname "$0")/begin.sh"

LC=${LC:-$bench/../crates/lc/out/lc}
ROUNDS=${ROUNDS:-3}
# Of ten rows nine have a connection to the next.
ROWS=${ROWS:-111110}
# Clients and messages of each script.
set -- 25-20 50-20 100-20 100-10 100-40

[ -x "$LC" ] || { echo "replay.sh: no program at $LC" >&2; exit 1; }

for script in "$@"; do
    python3 "$bench/make_feed.py" "$ROWS" "$work/$script"
    python3 "$bench/make_script.py" "$ROWS" "${script%-*}" "${script#*-}" "$work/$script"
done

python3 - "$LC" "$work" "$ROUNDS" "$@" <<'PYTHON'
import os
import sys

lc, feeds = sys.argv[1:3]
rounds, scripts = int(sys.argv[3]), sys.argv[4:]
MOST = 2.3  # Twice the clients, or twice the messages, take at most so many times.
BESIDE = "100-20"  # The script whose questions are put by `ask` too.


def once(words):
    """The user and system time of one run, in seconds."""
    silence = [(os.POSIX_SPAWN_OPEN, 1, os.devnull, os.O_WRONLY, 0)]
    child = os.posix_spawn(lc, words, os.environ, file_actions=silence)
    _, status, usage = os.wait4(child, 0)
    if os.waitstatus_to_exitcode(status) != 0:
        sys.exit(f"replay.sh: {words}: exit {os.waitstatus_to_exitcode(status)}")
    return usage.ru_utime + usage.ru_stime


def replay(script):
    return [lc, "replay", f"{feeds}/{script}", "20240501", f"{feeds}/{script}/script.csv", "--days", "1"]


def questions(script):
    """The questions of a script as arguments of `ask`, without messages."""
    with open(f"{feeds}/{script}/script.csv", encoding="ascii") as file:
        rows = [line.rstrip("\n").split(",") for line in file]
    return [[lc, "ask", f"{feeds}/{script}", *row[1:4], "--days", "2"] for row in rows if row[0] == "ask"]


read = min(once([lc, "check", f"{feeds}/{scripts[0]}", "20240501", "--days", "1"]) for _ in range(rounds))
least = {script: float("inf") for script in scripts}
for _ in range(rounds):
    for script in scripts:
        least[script] = min(least[script], once(replay(script)))
cost = {script: least[script] - read for script in scripts}
if min(cost.values()) <= 0:
    sys.exit("replay.sh: a replay took no longer than reading its feed; raise ROUNDS")
asked = sum(once(words) for words in questions(BESIDE))

print("| clients | messages | beside the reading of the feed | to half of the clients | to half of the messages |")
print("|--------:|---------:|-------------------------------:|-----------------------:|------------------------:|")
worst = 0.0
for script in scripts:
    clients, messages = map(int, script.split("-"))
    growth = []
    for half in (f"{clients // 2}-{messages}", f"{clients}-{messages // 2}"):
        growth.append(cost[script] / cost[half] if half in cost else None)
    worst = max([worst, *(ratio for ratio in growth if ratio is not None)])
    shown = [f"{ratio:.2f}" if ratio is not None else "-" for ratio in growth]
    print(f"| {clients:7} | {messages:8} | {cost[script] / read:30.2f} | {shown[0]:>22} | {shown[1]:>23} |")
print(f"\nThe questions of {BESIDE.replace('-', ' clients and ')} messages, put by `ask` one by one, take {asked / least[BESIDE]:.1f} times as long as the replay.")
if worst > MOST:
    sys.exit(f"replay.sh: twice as much took {worst:.2f} times")
PYTHON
