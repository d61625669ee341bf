#!/bin/sh
# How the processor time of `read_message` grows with the bytes of a message, up to the longest that is admitted. Also how much
# memory it takes. Prints two tables. It fails where doubling the bytes takes more than 2.3 times. It also fails where the memory
# is more than 8 times the bytes of a usual message, or 30 times those of a hostile one. See docs/PERFORMANCE.md.
#
#   bench/read_message.sh
#
# READER is the program that times one call, built by build.sh where it is not set. ROUNDS is how often each message is
# read.
. "$(dirname "$0")/begin.sh"

ROUNDS=${ROUNDS:-21}
READER=${READER:-$("$bench/build.sh" "$work" "$bench/read_message_main.txt" trip_updates anyhow)}

# Twice the bytes have twice the trip updates: 83 or 84 bytes for each.
python3 - "$READER" "$bench/make_message.py" "$work" "$ROUNDS" <<'PYTHON'
import os
import subprocess
import sys

reader, maker, work, rounds = *sys.argv[1:4], int(sys.argv[4])
MOST = 2.3  # Doubling the bytes takes at most so many times.
SIZES = {25_000: 1 << 21, 50_000: 1 << 22, 100_000: 1 << 23, 200_000: 1 << 24}  # Bytes by trip updates.

for updates, size in SIZES.items():
    subprocess.run([sys.executable, maker, str(updates), str(size), f"{work}/{updates}"], check=True)


def once(updates):
    """The processor time of one call, in seconds."""
    run = subprocess.run([reader, f"{work}/{updates}"], capture_output=True, text=True, check=True)
    seconds, news, passed = run.stdout.split()
    if (int(news), int(passed)) != (updates, 0):
        sys.exit(f"read_message.sh: {updates} trip updates: {news} read, {passed} passed over")
    return float(seconds)


# The messages take turns, so that what else the machine does meets all of them.
least = {updates: float("inf") for updates in SIZES}
for _ in range(rounds):
    for updates in SIZES:
        least[updates] = min(least[updates], once(updates))

places = list(SIZES)
ratios = {b: least[b] / least[a] for a, b in zip(places, places[1:])}

print("|      bytes | trip updates | time | to the row before |")
print("|-----------:|-------------:|-----:|------------------:|")
for updates, size in SIZES.items():
    ratio = f"{ratios[updates]:.2f}" if updates in ratios else "-"
    print(f"| {size:10,} | {updates:12,} | {least[updates] / least[places[0]]:4.2f} | {ratio:>17} |")

# The longest messages: the usual one, one trip with as many stop updates as there can be, and as many entities.
LONGEST = 1 << 24
HEADER = b"\x0a\x0d\x0a\x032.0\x10\x00\x18\xf0\xd0\xc7\xb1\x06"


def varint(number):
    out = bytearray()
    while number > 127:
        out.append(number % 128 + 128)
        number //= 128
    return bytes(out) + bytes([number])


def text(field, inner):
    return bytes([field * 8 + 2]) + varint(len(inner)) + inner


STOPS = text(2, text(1, b"1") + text(3, text(1, text(1, b"T")) + b"\x12\x00" * ((LONGEST - 60) // 2)))
ENTITIES = b"\x12\x02\x0a\x00" * ((LONGEST - len(HEADER)) // 4)
IDS = b"\x12\x03\x0a\x011" * ((LONGEST - len(HEADER)) // 5)
hostile = {"empty stop updates": STOPS, "entities with an empty id": ENTITIES, "entities with an id of a byte": IDS}
messages = {"usual": (f"{work}/200000", 8)}
for name, body in hostile.items():
    path = f"{work}/{name.replace(' ', '_')}"
    with open(path, "wb") as file:
        file.write(HEADER + body)
    messages[name] = (path, 30)
with open(f"{work}/header", "wb") as file:
    file.write(HEADER)


# A process of its own measures, since the most memory of a child counts what its parent had when it began.
MEASURE = """
import os, sys
silence = [(os.POSIX_SPAWN_OPEN, 1, os.devnull, os.O_WRONLY, 0)]
child = os.posix_spawn(sys.argv[1], sys.argv[1:], os.environ, file_actions=silence)
_, status, usage = os.wait4(child, 0)
print(os.waitstatus_to_exitcode(status), usage.ru_maxrss)
"""


def peak(path):
    """The most memory that a run of the reader had, in bytes."""
    run = subprocess.run([sys.executable, "-c", MEASURE, reader, path], capture_output=True, text=True, check=True)
    status, kilobytes = map(int, run.stdout.split())
    if status != 0:
        sys.exit(f"read_message.sh: {path} is not read")
    return kilobytes * 1024


print()
print("| message | memory, times its bytes | at most |")
print("|---------|------------------------:|--------:|")
start = peak(f"{work}/header")
heavy = False
for name, (path, most) in messages.items():
    # The bytes themselves are held by the caller.
    times = (peak(path) - start) / os.path.getsize(path) - 1
    heavy = heavy or times > most
    print(f"| {name} | {times:.1f} | {most} |")
if heavy:
    sys.exit("read_message.sh: a message takes more memory than it may")
if max(ratios.values()) > MOST:
    sys.exit(f"read_message.sh: doubling the bytes took more than {MOST} times")
PYTHON
