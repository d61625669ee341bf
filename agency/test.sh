#!/usr/bin/env bash
# agency/test.sh: tests keep.py. It prints a line for each check; the last line is `N passed, M failed, K skipped`, and the status is 0 where none
# failed. Most checks have a program that stands in for `lc`; those that ask the program itself take it from LC, crates/lc/out/lc of this repository
# if that is not set.
set -u
here=$(cd "$(dirname "${BASH_SOURCE[0]}")" && pwd)
LC=${LC:-$(dirname "$here")/crates/lc/out/lc}
export LC
python=/usr/bin/python3
work=$(mktemp -d)
passed=0
failed=0
skipped=0
# Each class of tests is a process of its own, so that they run side by side.
classes=(test_archive test_fetching test_messages test_keep.Restarts test_keep.Rollovers test_keep.FromOutside test_keep.Refusals test_keep.Past test_keep.Program)

finish() {
  local running
  running=$(jobs -p)
  # shellcheck disable=SC2086
  [ -z "$running" ] || kill $running 2>/dev/null
  wait
  rm -rf "$work"
}
trap finish EXIT

# say RESULT NAME: counts a check and prints it.
say() {
  case $1 in
    ok) passed=$((passed + 1)) ;;
    skipped) skipped=$((skipped + 1)) ;;
    *) failed=$((failed + 1)) ;;
  esac
  echo "$1: $2"
}

# check NAME TOOL COMMAND...: a check that a command ends with status 0, skipped where its tool is not here.
check() {
  if ! command -v "$2" >/dev/null; then
    say skipped "$1, since $2 is not here"
  elif "${@:3}" >"$work/log" 2>&1; then
    say ok "$1"
  else
    say FAILED "$1: $(tail -n 20 "$work/log")"
  fi
}

# read_units NAME: what a class of tests said, each test as a check.
read_units() {
  local line result
  while IFS= read -r line; do
    [[ $line =~ ^(test_[a-z0-9_]+)\ .*\.\.\.\ (ok|skipped|FAIL|ERROR) ]] || continue
    result=${BASH_REMATCH[2]}
    case $result in
      ok) say ok "$1: ${BASH_REMATCH[1]//_/ }" ;;
      skipped) say skipped "$1: ${BASH_REMATCH[1]//_/ }, since the program is not here" ;;
      *) say FAILED "$1: ${BASH_REMATCH[1]//_/ }" ;;
    esac
  done <"$work/$1"
  if grep -qE '^(FAIL|ERROR): ' "$work/$1"; then grep -A 14 -E '^(FAIL|ERROR): ' "$work/$1" | sed 's/^/  /'; fi
  tail -n 1 "$work/$1" | grep -qE '^(OK|FAILED)' || say FAILED "$1 did not run: $(tail -n 3 "$work/$1")"
}

cd "$here/tests" || exit 2
export PYTHONDONTWRITEBYTECODE=1
for package in google.protobuf prometheus_client; do
  if ! "$python" -c "import $package" 2>/dev/null; then
    say skipped "keep.py, since Debian's package of $package is not here"
    echo "$passed passed, $failed failed, $skipped skipped"
    exit 0
  fi
done
for name in "${classes[@]}"; do
  timeout 900 "$python" -m unittest -v "$name" >"$work/$name" 2>&1 &
done
wait
for name in "${classes[@]}"; do read_units "$name"; done
cd "$here" || exit 2
check 'types' mypy mypy --strict --config-file mypy.ini --cache-dir "$work/mypy" keep.py tests/harness.py tests/stand_in.py tests/day.py \
  tests/test_archive.py tests/test_fetching.py tests/test_messages.py tests/test_keep.py
check 'scripts' shellcheck shellcheck test.sh ../interop/agency.sh
check 'the schema and what is made from it' protoc bash -c "protoc --python_out='$work' --pyi_out='$work' gtfs_realtime.proto &&
  cmp '$work/gtfs_realtime_pb2.py' gtfs_realtime_pb2.py && cmp '$work/gtfs_realtime_pb2.pyi' gtfs_realtime_pb2.pyi"
check 'the example is a right CONFIG' "$python" ./keep.py ../examples/agency.toml --check
echo "$passed passed, $failed failed, $skipped skipped"
[ "$failed" -eq 0 ]
