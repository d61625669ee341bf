#!/bin/sh
# What each crate costs the merge gate where nothing is kept, in processor seconds: its proof and its mutants. The first mutant proves the crate
# once more. A program also costs its first build and its run.
#
#   bench/gate_times.sh [CRATE..]
#
# With no CRATE it measures each of crates.txt, which takes hours of one processor.
. "$(dirname "$0")/begin.sh"

python3 - "$bench/.." "$work" "$@" <<'PYTHON'
import os
import re
import resource
import shutil
import subprocess
import sys

top, work, *words = sys.argv[1:]
CHECK = ["check", "--jobs", "1"]
HEAD = "| crate | proof | mutants | build and run | together |\n|---|---:|---:|---:|---:|\n"

with open(f"{top}/crates.txt", encoding="utf-8") as file:
    listed = [line.partition("#")[0].partition(":") for line in file]
named = {line[0].split()[0]: line[2].split() for line in listed if line[1]}
crates = words or [*named]
unknown = [name for name in crates if name not in named]
if unknown:
    sys.exit(f"gate_times.sh: {unknown[0]} is no crate of crates.txt")

# A copy of the repository, without what earlier runs kept.
copy = f"{work}/repository"
shutil.copytree(f"{top}/crates", f"{copy}/crates", ignore=shutil.ignore_patterns("out"))
for name in ("crates.txt", "HANDLES"):
    shutil.copy(f"{top}/{name}", copy)

# `rt` also keeps what it proved beside the kit, for all copies on a machine. Beside a kit of links there is nothing.
rt = os.path.realpath(shutil.which("rt") or sys.exit("gate_times.sh: there is no rt"))
kit, own = os.path.dirname(os.path.dirname(rt)), f"{work}/kit"
os.makedirs(f"{own}/bin")
for name in os.listdir(kit):
    if name != "bin":
        os.symlink(f"{kit}/{name}", f"{own}/{name}")
for name in os.listdir(f"{kit}/bin"):
    make = shutil.copy if name in ("rt", "rtlib.py") else os.symlink
    if name != "__pycache__":
        make(f"{kit}/bin/{name}", f"{own}/bin/{name}")
own_rt = f"{own}/bin/rt"


def seconds(program, words, folder):
    """The user and system time of a command, in seconds."""
    before = resource.getrusage(resource.RUSAGE_CHILDREN)
    silence = {"stdin": subprocess.DEVNULL, "stdout": subprocess.PIPE, "stderr": subprocess.STDOUT}
    run = subprocess.run([program, *words], cwd=folder, text=True, errors="replace", **silence)
    after = resource.getrusage(resource.RUSAGE_CHILDREN)
    if run.returncode:
        print(run.stdout[-3000:], file=sys.stderr)
        sys.exit(f"gate_times.sh: rt {' '.join(words)} in {os.path.basename(folder)}: exit {run.returncode}")
    return after.ru_utime + after.ru_stime - before.ru_utime - before.ru_stime


def has_edits(folder):
    return os.path.isdir(f"{folder}/must-fail") and any(it.endswith(".edit") for it in os.listdir(f"{folder}/must-fail"))


def cell(taken, else_says):
    return else_says if taken is None else f"{taken:,.0f}"


def row(name):
    """The row of a crate: the processor seconds of each part, or why there are none."""
    folder = f"{copy}/crates/{name}"
    # What is below is not counted, so what was kept of it serves.
    for below in named[name]:
        if below in named:
            seconds(rt, ["lib"], f"{copy}/crates/{below}")
    shutil.rmtree(f"{folder}/out", ignore_errors=True)
    proof = seconds(own_rt, CHECK, folder)
    run = seconds(own_rt, ["run"], folder) if os.path.isfile(f"{folder}/src/main.rt") else None
    shutil.rmtree(f"{folder}/out", ignore_errors=True)
    mutants = seconds(own_rt, ["must-fail", name], copy) if has_edits(folder) else None
    whole = proof + (mutants or 0) + (run or 0)
    cells = f"{proof:,.0f}", cell(mutants, "none"), cell(run, "a library"), f"{whole:,.0f}"
    return f"| `{name}` | {' | '.join(cells)} |\n"


def together(row):
    return int(re.search(r"([\d,]+) \|$", row)[1].replace(",", ""))


rows = {}
for place, name in enumerate(crates):
    print(f"gate_times.sh: {name} ({place} of {len(crates)} done)", file=sys.stderr, flush=True)
    rows[name] = row(name)


def table(rows):
    return HEAD + "".join(sorted(rows.values(), key=together, reverse=True))


print(table(rows), end="")
PYTHON
