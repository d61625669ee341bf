#!/usr/bin/env bash
# agency/test-lint.sh [--large]: tests lint.py and split.py. It prints a line for each check; the last line is `N passed, M failed, K skipped`,
# and the status is 0 where none failed. LC is the program, crates/lc/out/lc of this repository if it is not set: without it the checks that ask
# it are skipped. --large also judges 2 million stop times and parts a feed of 10 million connections, in some three minutes: run it alone.
set -u
here=$(cd "$(dirname "${BASH_SOURCE[0]}")" && pwd)
LC=${LC:-$(dirname "$here")/crates/lc/out/lc}
python=/usr/bin/python3
export LC
work=$(mktemp -d)
trap 'rm -rf "$work"' EXIT
passed=0
failed=0
skipped=0

# say RESULT NAME: counts a check and prints it.
say() {
  case $1 in
    ok) passed=$((passed + 1)) ;;
    skipped) skipped=$((skipped + 1)) ;;
    *) failed=$((failed + 1)) ;;
  esac
  echo "$1: $2"
}

# check NAME COMMAND...: a check that a command ends with status 0.
check() {
  local name=$1
  shift
  if "$@" >"$work/log" 2>&1; then say ok "$name"; else say FAILED "$name: $(tail -n 20 "$work/log")"; fi
}

# units MODULE: the tests of a module of agency/tests, each a check.
units() {
  local line name result
  "$python" -m unittest -v "$1" >"$work/log" 2>&1
  while IFS= read -r line; do
    [[ $line =~ ^(test_[a-z0-9_]+)\ .*\ \.\.\.\ (ok|skipped|FAIL|ERROR) ]] || continue
    name="$1: ${BASH_REMATCH[1]//_/ }"
    result=${BASH_REMATCH[2]}
    case $result in
      ok) say ok "$name" ;;
      skipped) say skipped "$name, since the program or its cases are not here" ;;
      *) say FAILED "$name" ;;
    esac
  done <"$work/log"
  if grep -qE '^(FAIL|ERROR): ' "$work/log"; then grep -A 12 -E '^(FAIL|ERROR): ' "$work/log" | sed 's/^/  /'; fi
  tail -n 1 "$work/log" | grep -qE '^(OK|FAILED)' || say FAILED "$1 did not run: $(tail -n 3 "$work/log")"
}

types() {
  if command -v mypy >/dev/null; then
    check 'types' mypy --strict --config-file '' --cache-dir "$work/mypy" lint.py split.py feeds.py rules*.py tests/test_lint*.py tests/test_split.py
  else
    say skipped 'types, since mypy is not here'
  fi
  if command -v shellcheck >/dev/null; then
    check 'scripts' shellcheck test-lint.sh
  else
    say skipped 'scripts, since shellcheck is not here'
  fi
}

# large_feed ROWS DIR: a feed of so many stop times of 20 calls a trip, of 7 agencies and 200 routes, on six days.
large_feed() {
  "$python" - "$1" "$2" <<'PYTHON'
import os
import sys

rows, folder = int(sys.argv[1]), sys.argv[2]
calls, stops = 20, 5000
os.makedirs(folder)


def write(name, head, lines):
    with open(os.path.join(folder, name), "w", encoding="ascii") as file:
        file.write(head + "\n")
        file.writelines(lines)


def clock(seconds):
    return f"{seconds // 3600:02}:{seconds // 60 % 60:02}:{seconds % 60:02}"


def times():
    for trip in range(rows // calls):
        begin, first = 18000 + trip * 37 % 61200, trip * 7919 % stops
        for call in range(calls):
            at = begin + 150 * call
            yield f"t{trip:06},{clock(at)},{clock(at + 30)},s{(first + call) % stops:04},{call + 1}\n"


write("agency.txt", "agency_id,agency_name,agency_timezone", (f"a{n},A{n},UTC\n" for n in range(7)))
write("routes.txt", "route_id,agency_id", (f"r{n},a{n % 7}\n" for n in range(200)))
write("stops.txt", "stop_id,stop_name", (f"s{n:04},Stop {n}\n" for n in range(stops)))
write("trips.txt", "route_id,service_id,trip_id", (f"r{n * n % 200},w,t{n:06}\n" for n in range(rows // calls)))
write("calendar_dates.txt", "service_id,date,exception_type", (f"w,2024050{n},1\n" for n in range(1, 7)))
write("stop_times.txt", "trip_id,arrival_time,departure_time,stop_id,stop_sequence", times())
PYTHON
}

# counted FEED: how many connections the program counts in six days, whether it takes them or not.
counted() { "$LC" check "$1" 20240501 --days 6 | sed -nE 's/^(error too large )?connections ([0-9]+)$/\2/p'; }

# Two million stop times in a minute, and ten million connections in parts that the program takes.
large() {
  local whole part sum=0 count begun=$SECONDS
  large_feed 2000000 "$work/large"
  begun=$SECONDS
  "$here/lint.py" "$work/large" --first 20240501 --days 6 --zone utc >"$work/log" 2>&1
  if [ $((SECONDS - begun)) -le 60 ]; then
    say ok "2 million stop times are judged in $((SECONDS - begun)) s"
  else
    say FAILED "2 million stop times take $((SECONDS - begun)) s"
  fi
  check 'the connections are counted' grep -q '^limit connections: 6 days have 11400000 connections' "$work/log"
  check '11.4 million connections are parted' "$here/split.py" "$work/large" "$work/parts" --first 20240501 --days 6
  sed 's/^/  /' "$work/log"
  for part in trips.txt stop_times.txt; do
    sort "$work/large/$part" | sed "/_id,/d" | md5sum >"$work/whole.sum"
    check "each row of $part is in one part" cmp "$work/whole.sum" <(cat "$work"/parts/*/"$part" | sort | sed '/_id,/d' | md5sum)
  done
  if [ ! -x "$LC" ]; then
    say skipped "what the program counts, since $LC is not here"
    return
  fi
  whole=$(counted "$work/large")
  for part in "$work"/parts/*; do
    check "the program takes ${part##*/}" "$LC" check "$part" 20240501 --days 6
    count=$(sed -n 's/^connections //p' "$work/log")
    sum=$((sum + ${count:-0}))
  done
  if [ "$sum" = "$whole" ]; then say ok "the parts have the $whole connections of the whole"; else say FAILED "$sum of $whole connections"; fi
}

cd "$here" || exit 2
types
PYTHONPATH=$here:$here/tests
export PYTHONPATH
for module in test_lint_rules test_lint_cases test_lint_mend test_lint_message test_split; do units "$module"; done
check 'help of lint.py' ./lint.py --help
check 'help of split.py' ./split.py --help
[ "${1:-}" != --large ] || large
echo "$passed passed, $failed failed, $skipped skipped"
[ "$failed" -eq 0 ]
