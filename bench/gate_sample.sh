#!/bin/sh
# What each crate costs in one run of the merge gate, in processor seconds: its proof with its builds, and its mutants. It looks once a second at what
# `rt ci` runs, so a figure misses what a process does in its last second. Prints the output of `rt ci`, and then a table.
#
#   bench/gate_sample.sh [--anew]
#
# With --anew all is proved and tried again. Without it, what an earlier run on this machine kept costs nothing.
. "$(dirname "$0")/begin.sh"

python3 - "$bench/.." "$@" <<'PYTHON'
import collections
import os
import re
import subprocess
import sys
import time

top, *words = sys.argv[1:]
TICKS = os.sysconf("SC_CLK_TCK")
gate = subprocess.Popen(["rt", "ci", *words], cwd=top, stdin=subprocess.DEVNULL)
# The processor time that each process had when it was last seen, by its number and its start.
last = {}


def read(path):
    with open(path, "rb") as file:
        return file.read().decode(errors="replace")


def children():
    """What runs below the merge gate: (number, start, processor seconds, crate, whether it tries a mutant)."""
    stats = {}
    for number in filter(str.isdigit, os.listdir("/proc")):
        try:
            stats[int(number)] = read(f"/proc/{number}/stat").rpartition(")")[2].split()
        except OSError:
            continue
    below = {gate.pid}
    while True:
        more = {it for it, stat in stats.items() if int(stat[1]) in below} - below
        if not more:
            break
        below |= more
    for number in below - {gate.pid}:
        try:
            command, at = read(f"/proc/{number}/cmdline").replace("\0", " "), os.readlink(f"/proc/{number}/cwd")
        except OSError:
            continue
        crate = re.search(r"--crate-name (\w+)", command)
        used = (int(stats[number][11]) + int(stats[number][12])) / TICKS
        yield (number, stats[number][19]), used, crate[1] if crate else "", "rt-edit" in at


while gate.poll() is None:
    for key, used, crate, is_mutant in children():
        # A large process takes a while to end, and has no command line by then.
        if not crate and key in last:
            crate, is_mutant = last[key][1:]
        last[key] = used, crate, is_mutant
    time.sleep(1)

rows = collections.defaultdict(lambda: [0, 0])
for used, crate, is_mutant in last.values():
    rows[crate or "other"][is_mutant] += used
print("| crate | proof and builds | mutants | together |\n|---|---:|---:|---:|")
for crate, (proof, mutants) in sorted(rows.items(), key=lambda it: -sum(it[1])):
    print(f"| `{crate}` | {proof:,.0f} | {mutants:,.0f} | {proof + mutants:,.0f} |")
print(f"| all | {sum(it[0] for it in rows.values()):,.0f} | {sum(it[1] for it in rows.values()):,.0f} | {sum(map(sum, rows.values())):,.0f} |")
sys.exit(gate.returncode)
PYTHON
