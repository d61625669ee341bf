#!/usr/bin/env bash
# web/test-planner.sh: tests of web/planner.mjs and of examples/planner.mjs. It prints a line for each check, and `N passed, M failed, K skipped` at the end.
#
# LC is the program, `crates/lc/out/lc` of this repository if it is not set. PLANNER_QUESTIONS is how many questions are asked of it, 200 if it is
# not set. PLANNER_FETCH=own lets node's own fetch ask it, which keeps its connections open.
set -u
here=$(cd "$(dirname "${BASH_SOURCE[0]}")" && pwd)
work=$(mktemp -d)
trap 'rm -rf "$work"' EXIT
log=$work/log

# say RESULT NAME: a line of a check.
say() { echo "$1: $2" | tee -a "$log"; }

# tool NAME TOOL: whether the tool is here; else what is skipped is said.
tool() {
  command -v "$2" >/dev/null && return
  say skipped "$1, since $2 is not here"
  return 1
}

# check NAME COMMAND...: a check that a command succeeds. What it printed is shown where it does not.
check() {
  if "${@:2}" >"$work/said" 2>&1; then say ok "$1"; else say FAILED "$1"; sed 's/^/  /' "$work/said"; fi
}

types_checks() {
  local options=(--noEmit --strict --target es2022 --lib 'es2022,dom,dom.iterable' --module nodenext --moduleResolution nodenext)
  tool 'the types of an app' tsc && check 'the types of an app' tsc "${options[@]}" "$here/tests/planner_types.ts"
}

if tool 'tests of the planner' node; then
  node --test --test-reporter="$here/tests/planner_reporter.mjs" "$here"/tests/planner*.test.mjs | tee -a "$log"
fi
types_checks

count() { grep -c "^$1: " "$log"; }
failed=$(count FAILED)
echo "$(count ok) passed, $failed failed, $(count skipped) skipped"
[ "$failed" -eq 0 ]
