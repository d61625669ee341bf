#!/usr/bin/env bash
# web/demo.sh [PORT]: a city to look at. It makes two publishers with a morning's messages (web/demo/city.py), serves them and the pages behind nginx
# on PORT of this machine, 8000 if it is not given, and prints the URL. Ctrl-C ends all and leaves nothing behind.
#
# LC is the program, `crates/lc/out/lc` of this repository if it is not set. It needs nginx, curl and Python 3.
set -u
here=$(cd "$(dirname "${BASH_SOURCE[0]}")" && pwd)
LC=${LC:-$here/../crates/lc/out/lc}
zone=/usr/share/zoneinfo/Europe/Brussels
wait_seconds=60

case ${1:-} in
  -h | --help) sed -n '2,5s/^# \{0,1\}//p' "${BASH_SOURCE[0]}"; exit 0 ;;
esac
port=${1:-8000}
if [[ ! $port =~ ^[0-9]{1,5}$ ]] || [ $# -gt 1 ]; then echo "usage: demo.sh [PORT]" >&2; exit 2; fi
PATH=$PATH:/usr/sbin
for tool in nginx curl /usr/bin/python3; do
  command -v "$tool" >/dev/null || { echo "demo.sh: $tool is not here: install it" >&2; exit 2; }
done
[ -x "$LC" ] || { echo "demo.sh: no program at $LC: build it by ./lc prove, or set LC" >&2; exit 2; }
[ -r "$zone" ] || { echo "demo.sh: no zone file $zone: install tzdata" >&2; exit 2; }

work=$(mktemp -d)
mkdir "$work/city"
started=()

finish() {
  trap - EXIT INT TERM
  for pid in "${started[@]}"; do kill "$pid" 2>/dev/null; done
  wait 2>/dev/null
  rm -rf "$work"
}
trap finish EXIT
trap 'exit 0' INT TERM

fail() {
  echo "demo.sh: $1" >&2
  exit 1
}

# free_port: a port that is free.
free_port() {
  /usr/bin/python3 -c 'import socket; s = socket.socket(); s.bind(("127.0.0.1", 0)); print(s.getsockname()[1])'
}

# until_true COMMAND...: waits until the command succeeds, at most so many seconds.
until_true() {
  local end=$((SECONDS + wait_seconds))
  until "$@"; do
    [ "$SECONDS" -lt "$end" ] || return 1
    sleep 0.1
  done
}

# publish NAME PORT: serves the publisher NAME on PORT.
publish() {
  "$LC" serve "$work/city/$1/feed" 20240501 --days 3 --zone "file:$zone" --port "$2" --connections 1000000 \
    --base "http://localhost:$port/$1/20240501/" --base-moment 2024-04-30T16:00:00Z --accept-updates >"$work/$1.log" 2>&1 &
  started+=($!)
}

# post NAME PORT: sends the messages of a publisher, in their order.
post() {
  local message
  for message in "$work/city/$1/messages"/*.pb; do
    curl -sf -o "$work/$1.reply" -H Expect: -H 'Connection: close' --data-binary "@$message" "http://127.0.0.1:$2/$1/20240501/updates" || return 1
  done
}

[ "$port" != 0 ] || port=$(free_port)
/usr/bin/python3 -B "$here/demo/city.py" "$work/city" --base "http://localhost:$port/" || fail "the city could not be made"
city=$(free_port)
region=$(free_port)
publish city "$city"
publish region "$region"
for name in city region; do
  until_true grep -q '^listening' "$work/$name.log" || fail "the publisher $name does not listen: $(tail -n 1 "$work/$name.log")"
done
post city "$city" || fail "a message of city was refused"
post region "$region" || fail "a message of region was refused"

sed -e "s|@WORK@|$work|g" -e "s|@WEB@|$here|g" -e "s|@PORT@|$port|g" -e "s|@CITY@|$city|g" -e "s|@REGION@|$region|g" "$here/demo/nginx.conf" >"$work/nginx.conf"
# Started by root, nginx would read files as another user, who may not see them.
whose=()
[ "$EUID" -ne 0 ] || whose=(-g 'user root;')
nginx -e "$work/nginx.log" -c "$work/nginx.conf" "${whose[@]}" 2>"$work/nginx.start" &
nginx=$!
started+=("$nginx")
is_up() { curl -sf -o /dev/null "http://127.0.0.1:$port/catalog.json" || ! kill -0 "$nginx" 2>/dev/null; }
until_true is_up
kill -0 "$nginx" 2>/dev/null || fail "nginx does not begin: $(tail -n 1 "$work/nginx.start" "$work/nginx.log")"
echo "http://localhost:$port/"
echo "http://localhost:$port/delays.html"
echo "Ctrl-C ends it."
wait "$nginx"
