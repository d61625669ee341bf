#!/usr/bin/env bash
# interop/agency.sh [OPTION]...: a day of an agency in minutes. agency/keep.py keeps `lc serve` behind nginx: 300 messages, 20 times kill -9 of the one
# or the other, 1,000 mementos drawn by lot, rollovers under readers, and the past. Options are those of agency/tests/day.py (--messages, --kills,
# --mementos, --seed). It prints a line for each check; the last line is `N passed, M failed, K skipped`, and the status is 0 where none failed.
#
# LC is the program, crates/lc/out/lc of this repository if it is not set.
set -u
top=$(cd "$(dirname "${BASH_SOURCE[0]}")/.." && pwd)
LC=${LC:-$top/crates/lc/out/lc}
python=/usr/bin/python3
passed=0
failed=0
skipped=0

if [ ! -x "$LC" ]; then
  echo "skipped: the day of an agency, since there is no program at $LC"
  skipped=1
elif ! "$python" -c 'import google.protobuf, prometheus_client' 2>/dev/null; then
  echo 'skipped: the day of an agency, since python3-protobuf or python3-prometheus-client is not here'
  skipped=1
else
  export PYTHONDONTWRITEBYTECODE=1
  while IFS= read -r line; do
    case $line in
      ok:*) passed=$((passed + 1)) ;;
      FAILED:*) failed=$((failed + 1)) ;;
      skipped:*) skipped=$((skipped + 1)) ;;
    esac
    echo "$line"
  done < <("$python" "$top/agency/tests/day.py" "$LC" "$@" 2>&1)
  [ $((passed + failed)) -gt 0 ] || { echo 'FAILED: day.py said nothing'; failed=1; }
fi
echo "$passed passed, $failed failed, $skipped skipped"
[ "$failed" -eq 0 ]
