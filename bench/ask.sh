#!/bin/sh
# How the processor time of the command `ask` grows with the rows of stop_times.txt. Prints a table, and fails where
# doubling the rows takes more than 2.3 times. See docs/PERFORMANCE.md.
#
#   bench/ask.sh
#
# LC is the program, ROUNDS the number of rounds, RUNS how often a round runs the program on each feed. BESIDE is perhaps another
# program, say an earlier one, which runs in turn with LC. Two more columns then say what LC takes of its time and of its memory, by
# /usr/bin/time of GNU.
. "$(dirname "$0")/begin.sh"

LC=${LC:-$bench/../crates/lc/out/lc}
BESIDE=${BESIDE:-}
ROUNDS=${ROUNDS:-11}
RUNS=${RUNS:-20}
set -- 1250 2500 5000 10000

for program in "$LC" ${BESIDE:+"$BESIDE"}; do
    [ -x "$program" ] || { echo "ask.sh: no program at $program" >&2; exit 1; }
done

# The feed of 0 rows has header lines only: what it takes is the start-up.
for rows in 0 "$@"; do
    python3 "$bench/make_feed.py" "$rows" "$work/$rows"
done

python3 - "$LC" "$BESIDE" "$work" "$ROUNDS" "$RUNS" "$@" <<'PYTHON'
import os
import subprocess
import sys

lc, beside, feeds = sys.argv[1:4]
rounds, runs = int(sys.argv[4]), int(sys.argv[5])
sizes = [int(word) for word in sys.argv[6:]]
MOST = 2.3  # Doubling the rows takes at most so many times.
MOMENT = "2024-05-01T06:00:00Z"
ANSWERED, UNKNOWN_FROM = 0, 9  # Exit statuses. A feed without stops has no answer.


def last_stop(rows):
    """The id of the feed's last stop. Of a feed without stops, some id."""
    with open(f"{feeds}/{rows}/stops.txt", encoding="ascii") as file:
        last = file.read().splitlines()[-1]
    return last.split(",")[0] if rows > 0 else "s00001"


def words(program, rows):
    return [program, "ask", f"{feeds}/{rows}", "s00000", last_stop(rows), MOMENT]


def once(program, rows):
    """The user and system time of one run, in seconds."""
    silence = [(os.POSIX_SPAWN_OPEN, 1, os.devnull, os.O_WRONLY, 0)]
    child = os.posix_spawn(program, words(program, rows), os.environ, file_actions=silence)
    _, status, usage = os.wait4(child, 0)
    wanted = ANSWERED if rows > 0 else UNKNOWN_FROM
    if os.waitstatus_to_exitcode(status) != wanted:
        sys.exit(f"ask.sh: {program}, the feed of {rows} rows: exit {os.waitstatus_to_exitcode(status)}, not {wanted}")
    return usage.ru_utime + usage.ru_stime


def peak(program, rows):
    """The most memory of one run, in KiB. A child of this process would count what Python holds, which is more."""
    run = subprocess.run(["/usr/bin/time", "-f", "%M", *words(program, rows)], capture_output=True, text=True, check=True)
    return int(run.stderr)


programs = [lc, beside] if beside else [lc]

# The feeds and the programs take turns, so that what else the machine does meets all of them.
least = {(program, rows): float("inf") for rows in [0, *sizes] for program in programs}
for _ in range(rounds):
    for program, rows in least:
        least[program, rows] = min(least[program, rows], *(once(program, rows) for _ in range(runs)))

work = {(program, rows): least[program, rows] - least[program, 0] for program in programs for rows in sizes}
if min(work.values()) <= 0:
    sys.exit("ask.sh: a feed took no longer than the start-up; raise ROUNDS")
ratios = {b: work[lc, b] / work[lc, a] for a, b in zip(sizes, sizes[1:])}

print("|   rows | time, less start-up | to the row before |" + (" to the other program | memory to the other |" if beside else ""))
print("|-------:|--------------------:|------------------:|" + ("---------------------:|--------------------:|" if beside else ""))
for rows in sizes:
    ratio = f"{ratios[rows]:.2f}" if rows in ratios else "-"
    row = f"| {rows:6,} | {work[lc, rows] / work[lc, sizes[0]]:19.2f} | {ratio:>17} |"
    if beside:
        row += f" {work[lc, rows] / work[beside, rows]:20.2f} | {peak(lc, rows) / peak(beside, rows):19.2f} |"
    print(row)
if max(ratios.values()) > MOST:
    sys.exit(f"ask.sh: doubling the rows took more than {MOST} times")
PYTHON
