#!/bin/sh
# What `replay` ends with where one request for memory is refused, each number in turn. It may end with its whole output, or with status 12 after a
# prefix of its output or of the line `error no memory`. Prints how many runs ended in each way, and fails where one ends otherwise. It needs a C
# compiler.
#
#   bench/refused_memory.sh [ARGUMENT...]
#
# LC is the program. The arguments are those of the command; without any, it is `replay` of the example. Relative names are of the top of the repository.
. "$(dirname "$0")/begin.sh"

cd "$bench/.."
LC=${LC:-crates/lc/out/lc}
[ $# -gt 0 ] || set -- replay examples/tiny 20240501 examples/day.csv
${CC:-cc} -O2 -shared -fPIC -o "$work/refuse.so" "$bench/refuse_memory.c" -ldl

python3 - "$work" "$LC" "$@" <<'PYTHON'
import collections
import os
import subprocess
import sys

work, *command = sys.argv[1:]
NO_MEMORY = 12  # The status, and what is printed with it.
LINE = b"error no memory\n"


def run(number):
    """The status and the output of the command with this request refused; 0 refuses none."""
    environment = dict(os.environ, LD_PRELOAD=f"{work}/refuse.so", REFUSE=str(number), COUNT_TO=f"{work}/count")
    done = subprocess.run(command, env=environment, stdin=subprocess.DEVNULL, stdout=subprocess.PIPE, stderr=subprocess.DEVNULL)
    return done.returncode, done.stdout


whole = run(0)
with open(f"{work}/count", encoding="ascii") as file:
    requests = int(file.read())
ends = collections.Counter()
wrong = []
for number in range(1, requests + 1):
    status, text = run(number)
    if (status, text) == whole:
        ends["the whole output"] += 1
    elif status == NO_MEMORY and LINE.startswith(text):
        ends["status 12 and a prefix of the line"] += 1
    elif status == NO_MEMORY and whole[1].startswith(text):
        ends["status 12 and a prefix of the output"] += 1
    else:
        wrong.append(number)
        ends["otherwise"] += 1
        if len(wrong) <= 10:
            print(f"request {number}: status {status}, {text[-80:]!r}")
print(f"{requests} requests for memory, status {whole[0]} where none is refused")
for end, count in ends.items():
    print(f"{count:7} {end}")
sys.exit(bool(wrong))
PYTHON
