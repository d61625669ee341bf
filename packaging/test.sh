#!/usr/bin/env bash
# packaging/test.sh [--root]: tests the package. It prints a line for each check; the last line is `N passed, M failed, K skipped`, and the status
# is 0 where none failed. LC is the program, crates/lc/out/lc of this repository if it is not set. --root also installs the package in a fresh
# Debian, and makes and runs the image there: it needs root, debootstrap and the network, takes some five minutes, and waits for others that
# do heavy work under HEAVY_LOCK.
set -u
here=$(dirname "$(realpath "${BASH_SOURCE[0]}")")
top=$(dirname "$here")
LC=${LC:-$top/crates/lc/out/lc}
LC=$(realpath -m "$LC")
export LC
work=$(mktemp -d)
passed=0
failed=0
skipped=0
servers=()

finish() {
  local pid
  for pid in "${servers[@]}"; do kill "$pid" 2>/dev/null; done
  wait 2>/dev/null
  umount "$work"/*/proc 2>/dev/null
  rm -rf --one-file-system "$work"
}
trap finish EXIT

# say RESULT NAME: counts a check and prints it.
say() {
  case $1 in
    ok) passed=$((passed + 1)) ;;
    skipped) skipped=$((skipped + 1)) ;;
    *) failed=$((failed + 1)) ;;
  esac
  echo "$1: $2"
}

# check NAME COMMAND...: a check that a command ends with status 0.
check() {
  local name=$1
  shift
  if "$@" >"$work/log" 2>&1; then say ok "$name"; else say FAILED "$name: $(tail -n 20 "$work/log")"; fi
}

# same NAME WANTED FOUND: a check that two texts are the same.
same() { if [ "$2" = "$3" ]; then say ok "$1"; else say FAILED "$1: wanted '$2', found '$3'"; fi; }

# need NAME TOOL...: whether all these tools are here; else what is skipped is said.
need() {
  local tool
  for tool in "${@:2}"; do
    command -v "$tool" >/dev/null || { say skipped "$1, since $tool is not here"; return 1; }
  done
}

# manual COMMAND: the example of a command in docs/USAGE.md, from its first line to the line before the next empty one.
manual() { awk -v line="    \$ ./lc $1" '$0 == line { found = 1; next } found && !/^    / { exit } found { print substr($0, 5) }' "$top/docs/USAGE.md"; }

scripts() {
  if need 'scripts' shellcheck; then check 'scripts' shellcheck "$here"/*.sh; fi
  if need 'types' mypy; then check 'types' mypy --strict --config-file '' --cache-dir "$work/mypy" "$here/from_usage.py" "$here/operating/haproxy.py"; fi
}

# The package that is made, and what is in it.
package_checks() {
  local other
  check 'the package is made' "$here/deb.sh" "$work/out"
  package=$(tail -n 1 "$work/log")
  [ -s "$package" ] || return
  other=$("$here/deb.sh" "$work/again")
  check 'the same files give the same package' cmp "$package" "$other"
  same 'the program in it is the proved one' "$(sha256sum <"$LC")" "$(dpkg-deb --fsys-tarfile "$package" | tar -xOf - ./usr/bin/lc | sha256sum)"
  if need 'lintian' lintian; then
    lintian --no-cfg --fail-on error "$package" >"$work/log" 2>/dev/null
    same 'lintian finds no error' '' "$(grep '^E:' "$work/log")"
  fi
  mkdir "$work/files"
  dpkg-deb -x "$package" "$work/files"
  if [ ! -e "$work/files/usr/lib/monteneem/agency/keep.py" ]; then
    say skipped 'the unit, since agency/keep.py is not here'
  elif need 'the unit' systemd-analyze; then
    # The paths of the unit are those of the installed package.
    sed "s|/usr/lib/monteneem|$work/files/usr/lib/monteneem|" "$work/files/lib/systemd/system/monteneem@.service" >"$work/monteneem@tiny.service"
    check 'the unit is sound' systemd-analyze verify --man=no "$work/monteneem@tiny.service"
    same 'systemd warns of nothing in the unit' '' "$(grep -i 'monteneem@' "$work/log" | grep -v keep.py)"
  fi
  completion_checks "$work/files/usr/share/bash-completion/completions/lc"
  if need 'the manual page' man; then
    same 'the manual page has no fault' '' "$(MANROFFSEQ='' MANWIDTH=120 man --warnings -E UTF-8 -l "$work/files/usr/share/man/man1/lc.1.gz" 2>&1 >"$work/page")"
    check 'it has the options' grep -q -- '--accept-updates' "$work/page"
    check 'and the statuses' grep -q 'error too large' "$work/page"
  fi
}

# completed WORD...: what the completion offers for the last word.
completed() {
  bash -c 'source "$0"; COMP_WORDS=("$@"); COMP_CWORD=$(($# - 1)); _lc; echo "${COMPREPLY[*]}"' "$completion" "$@"
}

completion_checks() {
  completion=$1
  if command -v shellcheck >/dev/null; then check 'the completion is sound' shellcheck -s bash "$completion"; fi
  same 'commands are completed' 'arrive' "$(completed lc ar)"
  same 'options are completed' '--accept-updates' "$(completed lc serve feed 20240501 --acc)"
  same 'of the command alone' '' "$(completed lc check feed 20240501 --acc)"
  same 'values are completed' 'span:1800' "$(completed lc serve feed 20240501 --cuts sp)"
}

# inside COMMAND...: runs a command in the fresh Debian, which has no toolchain.
inside() { env -i PATH=/usr/sbin:/usr/bin:/sbin:/bin HOME=/root LC_ALL=C.UTF-8 chroot "$root" "$@"; }

# fetch URL: the body that a client in the fresh Debian gets.
fetch() {
  inside python3 -c 'import sys, urllib.request; sys.stdout.write(urllib.request.urlopen(sys.argv[1], timeout=20).read().decode())' "$1" 2>"$work/fault" ||
    { tail -n 1 "$work/fault" >&2; return 1; }
}

free_port() { /usr/bin/python3 -c 'import socket; s = socket.socket(); s.bind(("127.0.0.1", 0)); print(s.getsockname()[1])'; }

# until_true SECONDS COMMAND...: waits until a command ends with status 0.
until_true() {
  local left=$(($1 * 5))
  shift
  until "$@" >/dev/null 2>&1; do
    left=$((left - 1))
    [ "$left" -gt 0 ] || return 1
    sleep 0.2
  done
}

# What somebody does who installs the package in a fresh Debian.
root_checks() {
  local tiny=/usr/share/doc/monteneem/examples/tiny port status
  root=$work/root
  check 'the package installs in a fresh Debian' "$here/root.sh" "$package" "$root"
  [ -x "$root/usr/bin/lc" ] || return
  mount -t proc proc "$root/proc" 2>/dev/null
  same 'no toolchain is there' '' "$(inside sh -c 'command -v rt cargo rustc gcc' 2>/dev/null)"
  same 'lc ask answers as the manual says' "$(manual 'ask examples/tiny A D 2024-05-01T08:00:00Z --update examples/late.pb' | tail -n +2)" \
    "$(inside lc ask "$tiny" A D 2024-05-01T08:00:00Z --update "${tiny%tiny}late.pb" | tail -n +2)"
  same 'lc check answers as the manual says' "$(manual 'check examples/tiny 20240501')" "$(inside lc check "$tiny" 20240501)"
  port=$(free_port)
  inside timeout 60 lc serve "$tiny" 20240501 --port "$port" --connections 2 >"$work/serve" &
  servers+=($!)
  until_true 20 grep -q '^listening' "$work/serve"
  same 'lc serve serves' "{\"@id\":\"http://localhost:$port/stops\"" "$(fetch "http://localhost:$port/stops" | head -c $((29 + ${#port})))"
  check 'monteneem-lint judges a feed' inside monteneem-lint "$tiny" --first 20240501
  check 'monteneem-split parts a feed' inside monteneem-split "$tiny" /tmp/parts --connections 3
  check 'lc takes a part' inside lc check /tmp/parts/part-1 20240501
  if [ -e "$root/usr/bin/monteneem-keep" ]; then
    feed_of_today "$root$tiny" "$root/srv/feed"
    keep_checks
    unit_checks
  else 
    say skipped 'monteneem-keep, since agency/keep.py is not here'
  fi
  check 'the package goes' inside dpkg --purge monteneem
  status=$(find "$root/usr" "$root/lib" -name '*monteneem*' | grep -v __pycache__ | head -n 3)
  same 'and nothing of it stays' '' "$status"
}

# feed_of_today FEED DIR: the small feed, on the days round today.
feed_of_today() {
  local n
  cp -R "$1" "$2"
  printf 'agency_name,agency_timezone\nA,UTC\n' >"$2/agency.txt"
  {
    echo service_id,date,exception_type
    for n in $(seq -2 30); do date -u -d "$n days" +w,%Y%m%d,1; done
  } >"$2/calendar_dates.txt"
  chmod -R a+rX "$2"
}

# configured PORT STATUS_PORT: the configuration of the feed tiny.
configured() {
  cat >"$root/etc/monteneem/tiny.toml" <<CONFIG
name = "tiny"
base = "http://localhost:$1/"
feed = "/srv/feed"
archive = "tiny.sqlite"
port = $1
status_port = $2
CONFIG
}

# A feed that is kept, as the unit runs it: by the user monteneem, in its directory.
keep_checks() {
  local port status_port state=/var/lib/monteneem/tiny window
  port=$(free_port)
  status_port=$(free_port)
  inside install -d -o monteneem -g monteneem "$state"
  configured "$port" "$status_port"
  check 'monteneem-keep takes the configuration' inside monteneem-keep /etc/monteneem/tiny.toml --check
  inside setpriv --reuid monteneem --regid monteneem --init-groups env --chdir="$state" timeout 120 /usr/lib/monteneem/agency/keep.py \
    /etc/monteneem/tiny.toml >"$work/keep" 2>&1 &
  servers+=($!)
  if until_true 60 test -s "$root$state/public/tiny/catalog.json"; then
    say ok 'it writes its catalog'
  else
    say FAILED "it writes no catalog: $(tail -n 5 "$work/keep")"
  fi
  check 'it answers /status' fetch "http://localhost:$status_port/status"
  window=$(sed -nE 's/.*"current": ?"([^"]*)".*/\1/p' "$root$state/public/tiny/catalog.json")
  check 'it serves the stops of its window' fetch "http://localhost:$port/tiny/$window/stops"
  kill "${servers[-1]}" 2>/dev/null
  wait "${servers[-1]}" 2>/dev/null
  check 'its archive is there' test -s "$root$state/tiny.sqlite"
  rm -rf "${root:?}$state"
}

# The unit in its sandbox, in the fresh Debian that systemd boots.
unit_checks() {
  local line
  need 'the unit under systemd' systemd-nspawn || return
  if ! DEBIAN_FRONTEND=noninteractive inside apt-get install -y --no-install-recommends systemd systemd-sysv dbus >"$work/log" 2>&1; then
    say FAILED "systemd is not installed: $(tail -n 3 "$work/log")"
    return
  fi
  umount "$root/proc" 2>/dev/null
  configured 8081 8090
  cat >"$root/root/unit.sh" <<'SCRIPT'
#!/bin/sh
# Says what became of the unit, and ends the machine.
status() { python3 -c 'import json, urllib.request; print(json.load(urllib.request.urlopen("http://localhost:8090/status"))["ok"])'; }
exec >/root/unit.log 2>&1
timeout 60 systemctl start monteneem@tiny
echo "start $?"
echo "ok $(status)"
timeout 60 systemctl reload monteneem@tiny
echo "reload $?"
sleep 8
echo "then $(status)"
timeout 60 systemctl stop monteneem@tiny
echo "stop $?"
journalctl -u monteneem@tiny --no-pager -o cat | tail -n 20 >/root/unit.journal
poweroff
SCRIPT
  chmod 755 "$root/root/unit.sh"
  printf '[Unit]\nAfter=multi-user.target\n[Service]\nType=oneshot\nExecStart=/root/unit.sh\n[Install]\nWantedBy=multi-user.target\n' \
    >"$root/etc/systemd/system/unit-test.service"
  inside systemctl enable unit-test.service >/dev/null 2>&1
  timeout 200 systemd-nspawn -q -D "$root" --boot --console=pipe --private-network --register=no --keep-unit >"$work/boot" 2>&1
  if [ ! -s "$root/root/unit.log" ]; then
    say skipped "the unit under systemd, which does not boot here: $(tail -n 1 "$work/boot")"
  else
    for line in 'start 0' 'ok True' 'reload 0' 'then True' 'stop 0'; do
      check "the unit under systemd: $line" grep -qxF "$line" "$root/root/unit.log"
    done
    grep -qxF 'then True' "$root/root/unit.log" || sed 's/^/  /' "$root/root/unit.journal" 2>/dev/null
  fi
  rm -f "$root/etc/systemd/system/unit-test.service" "$root"/etc/systemd/system/*/unit-test.service
  mount -t proc proc "$root/proc" 2>/dev/null
}

# The image that is made, and what is in it.
image_checks() {
  local image layer
  check 'the image is made' "$here/image.sh" "$work/image"
  image=$(tail -n 1 "$work/log")
  [ -s "$image" ] || return
  if need 'what skopeo says of the image' skopeo; then
    check 'skopeo reads the image' skopeo inspect --insecure-policy "oci-archive:$image"
    check 'and copies it whole' skopeo copy --insecure-policy "oci-archive:$image" "dir:$work/copied"
  fi
  mkdir "$work/layout" "$work/box"
  tar -xf "$image" -C "$work/layout"
  same 'each blob has the sum that names it' '' "$(cd "$work/layout/blobs/sha256" && for blob in *; do sha256sum "$blob"; done | awk '$1 != $2')"
  layer=$(cd "$work/layout/blobs/sha256" && du -b ./* | sort -n | tail -n 1 | cut -f 2)
  tar -xzf "$work/layout/blobs/sha256/$layer" -C "$work/box"
  root=$work/box
  same 'lc answers in the image' 'ok' "$(inside lc check /usr/share/doc/monteneem/examples/tiny 20240501 | tail -n 1)"
}

scripts
if [ ! -x "$LC" ]; then
  say skipped "the package, since $LC is not here"
elif need 'the package' dpkg-deb; then
  package_checks
  if [ "${1:-}" != --root ]; then
    say skipped 'a fresh Debian and the image, which packaging/test.sh --root tries'
  elif [ "$(id -u)" -ne 0 ]; then
    say skipped 'a fresh Debian and the image, since this is not root'
  elif need 'a fresh Debian and the image' debootstrap; then
    exec 9>"${HEAVY_LOCK:-/tmp/heavy.lock}"
    flock 9
    root_checks
    image_checks
    exec 9>&-
  fi
fi
echo "$passed passed, $failed failed, $skipped skipped"
[ "$failed" -eq 0 ]
