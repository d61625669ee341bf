#!/usr/bin/env bash
# tests/scripts.sh: checks the scripts of this repository before they run: shellcheck over Bash, `mypy --strict` over Python and `node --check` over
# JavaScript. It prints a line for each file, or each directory of Python, and `N passed, M failed, K skipped` at the end.
#
# A directory whose Python has needs of its own says them in its mypy.ini.
set -u
cd "$(dirname "${BASH_SOURCE[0]}")/.." || exit 1
passed=0 failed=0 skipped=0

# check NAME COMMAND...: whether the command ends well. Else its first lines say why.
check() {
  local said
  if said=$("${@:2}" 2>&1); then
    passed=$((passed + 1))
    echo "ok: $1"
  else
    failed=$((failed + 1))
    echo "FAILED: $1: $(grep -v '^$' <<<"$said" | head -n 6 | paste -sd '|')"
  fi
}

# need TOOL: whether it is here; else what is skipped is said.
need() {
  command -v "$1" >/dev/null && return
  skipped=$((skipped + 1))
  echo "skipped: $1, since it is not here: interop/setup.sh installs it"
  return 1
}

# files PATTERN: the files of the repository, outside the crates, whose path fits an extended regular expression. Those that git ignores are left out.
files() {
  git ls-files --cached --others --exclude-standard | grep -v '^crates/' | grep -E -- "$1" | while read -r file; do [ ! -f "$file" ] || echo "$file"; done
}

# shell_scripts: the files whose first line names a shell. Others are checked where a script sources them.
shell_scripts() {
  files . | while read -r file; do
    ! head -n 1 "$file" | grep -aqE '^#!.*\b(ba|da)?sh\b' || echo "$file"
  done
}

# typed DIRECTORY: mypy over the Python files of a directory, by the mypy.ini there or in a directory above, if there is one. What has
# its types beside it, in a .pyi, was made by a program.
typed() {
  local above=$1 words=()
  mapfile -t words < <(files "^$1/[^/]+\.py$" | while read -r file; do [ -f "${file}i" ] || echo "$file"; done)
  until [ -f "$above/mypy.ini" ] || [ "$above" = . ]; do above=$(dirname "$above"); done
  [ "$above" = . ] || words=(--config-file "$above/mypy.ini" "${words[@]}")
  MYPYPATH=$1:$above:tools mypy --strict --cache-dir tests/out/mypy --scripts-are-modules "${words[@]}"
}

if need shellcheck; then
  while read -r file; do check "shellcheck: $file" shellcheck -x -a -P SCRIPTDIR "$file"; done < <(shell_scripts)
fi
if need mypy; then
  while read -r folder; do check "mypy: $folder" typed "$folder"; done < <(files '\.py$' | xargs -r -n 1 dirname | sort -u)
fi
if need node; then
  while read -r file; do check "node: $file" node --check "$file"; done < <(files '\.m?js$')
fi
echo "$passed passed, $failed failed, $skipped skipped"
[ "$failed" -eq 0 ]
