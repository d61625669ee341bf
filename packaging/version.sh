#!/usr/bin/env bash
# packaging/version.sh: the version of the package. It is the newest heading of CHANGELOG.md, with points for dashes: `## 2026-12-02` is 2026.12.02.
# packaging/version.sh date: the moment of that heading in seconds, by which packages are dated; SOURCE_DATE_EPOCH goes before it.
set -eu
changelog=$(dirname "$(dirname "$(realpath "${BASH_SOURCE[0]}")")")/CHANGELOG.md
heading=$(sed -nE 's/^## ([0-9][0-9A-Za-z.~-]*).*/\1/p' "$changelog" | head -n 1)
[ -n "$heading" ] || { echo "version.sh: $changelog has no heading of a version" >&2; exit 1; }
if [ "${1:-}" = date ]; then
  echo "${SOURCE_DATE_EPOCH:-$(date -u -d "$heading" +%s 2>/dev/null || stat -c %Y "$changelog")}"
else
  echo "${heading//-/.}"
fi
