#!/usr/bin/env bash
# interop/setup.sh: installs the Debian packages of interop/packages.txt that are missing. It starts no service that a package brings, takes at most
# five minutes, and ends with status 0 whatever comes of it. Where it cannot install a package it says so, and the tests that need it are skipped.
set -u
here=$(cd "$(dirname "${BASH_SOURCE[0]}")" && pwd)
policy=/usr/sbin/policy-rc.d
deadline=$((SECONDS + 300))

say() { echo "setup: $*"; }

# missing: those of the packages that are not installed.
missing() {
  sed -E 's/[[:space:]]*#.*//; /^$/d' "$here/packages.txt" | while read -r name; do
    [ "$(dpkg-query -W -f '${db:Status-Status}' "$name" 2>/dev/null)" = installed ] || echo "$name"
  done
}

# apt WORD...: apt-get for as long as there is time, without a question and without a word.
apt() {
  local left=$((deadline - SECONDS))
  [ "$left" -gt 0 ] || return
  DEBIAN_FRONTEND=noninteractive timeout --signal=INT "$left" apt-get -qq -y --no-install-recommends -o DPkg::Lock::Timeout="$left" \
    -o Acquire::Retries=1 -o Acquire::http::Timeout=20 -o APT::Update::Error-Mode=any "$@" </dev/null >/dev/null 2>&1
}

# install NAME...: all of them, or else those that can be.
install() {
  apt install "$@" || apt update || return
  mapfile -t names < <(missing)
  [ "${#names[@]}" -eq 0 ] || apt install "${names[@]}" || for name in "${names[@]}"; do apt install "$name"; done
}

if ! command -v apt-get >/dev/null || ! command -v dpkg-query >/dev/null; then
  say 'nothing is installed, since this is no Debian'
  exit 0
fi
mapfile -t names < <(missing)
[ "${#names[@]}" -gt 0 ] || { say 'all packages are here'; exit 0; }
[ "$(id -u)" -eq 0 ] || { say "not installed, since only root may: ${names[*]}"; exit 0; }

# A service that a package brings is started by invoke-rc.d, which asks this file first.
if [ ! -e "$policy" ]; then
  trap 'rm -f "$policy"' EXIT
  trap 'exit 0' HUP INT TERM
  printf '#!/bin/sh\nexit 101\n' >"$policy" && chmod 755 "$policy"
fi
count=${#names[@]}
install "${names[@]}"
mapfile -t names < <(missing)
say "$((count - ${#names[@]})) packages are installed, in $SECONDS seconds${names[*]:+, and these are not here: ${names[*]}}"
