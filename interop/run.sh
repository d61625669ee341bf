#!/usr/bin/env bash
# interop/run.sh [PART]...: lets `serve`, `plan` and `relay` meet peers that share no code with them. The parts are curl, python, wrk, node, relay,
# nginx and hostile, all of them if none is named. It ends by itself, in about three minutes, and prints a line for each check. The last line is
# `N passed, M failed, K skipped`, and the status is 0 where none failed. A part whose tool is not here is skipped, and said so.
#
# LC is the program, `crates/lc/out/lc` of this repository if it is not set.
# shellcheck source-path=SCRIPTDIR source=lib.sh
source "$(dirname "${BASH_SOURCE[0]}")/lib.sh"

python3 "$top/bench/make_feed.py" 20000 "$work/feed" || exit 2

curl_checks() {
  local port base head long
  port=$(free_port)
  base=http://localhost:$port/
  serve curl.log "$port" 18 "$top/examples/tiny" --accept-updates || return
  head=$(curl -s -m 30 -i "${base}stops")
  has 'curl: GET of the stops' 'HTTP/1.1 200 OK' "$head"
  has 'curl: the stops are JSON' 'Content-Type: application/json' "$head"
  head=$(curl -s -m 30 -I "${base}stops")
  has 'curl: HEAD of the stops' 'HTTP/1.1 200 OK' "$head"
  head=$(curl -s -m 30 -i "${base}connections?departureTime=2024-05-01T08:00:00.000Z")
  has 'curl: the time gate redirects' 'HTTP/1.1 302 Found' "$head"
  has 'curl: to the page at the base version' \
    "Location: ${base}memento/connections?version=1970-01-01T00:00:00.000Z&departureTime=2024-05-01T08:00:00.000Z" "$head"
  has 'curl: Vary' 'Vary: accept-datetime' "$head"
  has 'curl: Link' "Link: <${base}connections?departureTime=2024-05-01T08:00:00.000Z>; rel=\"original timegate\"" "$head"
  head=$(curl -s -m 30 -i -L "${base}connections?departureTime=2024-05-01T08:00:00.000Z")
  has 'curl: follows to a page' 'HTTP/1.1 200 OK' "$head"
  has 'curl: of the base version' 'Memento-Datetime: Thu, 01 Jan 1970 00:00:00 GMT' "$head"
  same 'curl: no such path' 404 "$(status "${base}trains")"
  same 'curl: no such version' 404 "$(status "${base}memento/connections?version=2024-05-01T01:00:00.000Z&departureTime=2024-05-01T08:00:00.000Z")"
  same 'curl: a page without a version' 400 "$(status "${base}memento/connections?departureTime=2024-05-01T08:00:00.000Z")"
  same 'curl: a moment that is none' 400 "$(status "${base}connections?departureTime=soon")"
  head=$(curl -s -m 30 -i -X DELETE "${base}stops")
  has 'curl: DELETE' 'HTTP/1.1 405 Method Not Allowed' "$head"
  has 'curl: what is allowed' 'Allow: GET, HEAD' "$head"
  same 'curl: HTTP/1.0' 200 "$(status -0 "${base}stops")"
  same 'curl: no message' 400 "$(head -c 40 "$top/examples/late.pb" | status --data-binary @- "${base}updates")"
  same 'curl: a message' 204 "$(status --data-binary "@$top/examples/late.pb" "${base}updates")"
  same 'curl: the same message again' 409 "$(status --data-binary "@$top/examples/late.pb" "${base}updates")"
  same 'curl: a message in chunks' 411 "$(status -H 'Transfer-Encoding: chunked' --data-binary "@$top/examples/late.pb" "${base}updates")"
  head -c 17000000 /dev/zero >"$work/large"
  same 'curl: a message that is too long' 413 "$(status --data-binary "@$work/large" "${base}updates")"
  long=$(head -c 20000 /dev/zero | tr '\0' x)
  same 'curl: a head that is too long' 431 "$(status -H "X-Long: $long" "${base}stops")"
  head=$(curl -s -m 30 -i "${base}connections")
  has 'curl: the newest version' \
    "Location: ${base}memento/connections?version=2024-05-01T07:00:00.000Z&departureTime=2024-05-01T08:00:00.000Z" "$head"
  head=$(curl -s -m 30 -i -H 'Accept-Datetime: Wed, 01 May 2024 06:00:00 GMT' "${base}connections")
  has 'curl: the version before' \
    "Location: ${base}memento/connections?version=1970-01-01T00:00:00.000Z&departureTime=2024-05-01T08:00:00.000Z" "$head"
  # One of them follows a redirect on the same connection.
  same 'curl: the server counts them' 'served 18 requests 19 faults 0' "$(ended curl.log 30)"
}

python_checks() {
  local port
  port=$(free_port)
  serve python.log "$port" 7 "$top/examples/tiny" --accept-updates || return
  take python python3 "$here/http_client.py" "$port" "$top/examples/late.pb"
  same 'python: the server counts them' 'served 7 requests 208 faults 0' "$(ended python.log 30)"
}

wrk_checks() {
  local port peer
  port=$(free_port)
  serve wrk.log "$port" 2000 "$work/feed" || return
  wrk -t 1 -c 1 -d 120s --timeout 30s -H 'Connection: close' "http://localhost:$port/stops" >/dev/null 2>&1 &
  peer=$!
  # wrk makes a first connection on which it asks nothing.
  same 'wrk: 2,000 connections in turn' 'served 2000 requests 1999 faults 0' "$(ended wrk.log 120)"
  kill "$peer" 2>/dev/null
}

# questions N SEED: so many questions of the feed, as lines of a script.
questions() {
  python3 - "$work/feed" "$1" "$2" <<'PYTHON'
import random
import sys

feed, count, seed = sys.argv[1], int(sys.argv[2]), int(sys.argv[3])
chance = random.Random(seed)
with open(f"{feed}/stops.txt") as rows:
    stops = [row.split(",")[0] for row in rows.read().splitlines()[1:]]
for _ in range(count):
    start, goal = chance.sample(stops, 2)
    minute = chance.randrange(5 * 60, 22 * 60)
    print(f"ask,{start},{goal},2024-05-01T{minute // 60:02}:{minute % 60:02}:00Z")
PYTHON
}

# arrivals: of the printed answers of `plan`, the arrivals in their order.
arrivals() { sed -nE 's/^journey [0-9]+ (arrives .*)$/\1/p; s/^(no journey)$/\1/p'; }

node_checks() {
  local port base from to moment count=0 said
  port=$(free_port)
  base=http://localhost:$port/
  serve node.log "$port" 1000000 "$work/feed" || return
  questions 50 1 >"$work/asks.csv"
  (cd "$work" && timeout 300 "$LC" plan "$base" asks.csv) >"$work/planned" 2>&1
  arrivals <"$work/planned" >"$work/wanted"
  while IFS=, read -r _ from to moment; do
    said=$(timeout 60 node "$top/examples/planner.mjs" "$base" "$from" "$to" "$moment" 2>&1)
    head -n 1 <<<"$said"
  done <"$work/asks.csv" >"$work/found"
  count=$(wc -l <"$work/wanted")
  same 'node: 50 questions are planned' 50 "$count"
  if cmp -s "$work/wanted" "$work/found"; then
    say ok 'node: planner.mjs and plan find the same arrivals'
  else
    say FAILED "node: planner.mjs and plan differ: $(diff "$work/wanted" "$work/found" | head -n 4 | tr '\n' ' ')"
  fi
  if [ "$(grep -c '^arrives' "$work/found")" -ge 10 ]; then say ok 'node: there are journeys'; else say FAILED 'node: hardly a journey'; fi
  stop "$server"
}

# kept URL: what nginx says of a reply: MISS, HIT, or nothing.
kept() { curl -s -m 60 -o /dev/null -D - "$1" | tr -d '\r' | sed -n 's/^X-Cache: //p'; }

# exchanges BASE: how many exchanges a plan of the question in one.csv makes at this base.
exchanges() { (cd "$work" && timeout 120 "$LC" plan "$1" one.csv | sed -nE 's/^exchanges ([0-9]+)$/\1/p'); }

# A relay whose memory holds all that one question needs. The first client makes the exchanges of a plan, and each of the others the time gate alone.
relay_checks() {
  local port base made said count times=10
  port=$(free_port)
  base=http://localhost:$port/
  questions 1 2 >"$work/one.csv"
  serve direct.log "$port" 1000000 "$work/feed" || return
  made=$(exchanges "$base")
  (cd "$work" && timeout 120 "$LC" plan "$base" one.csv) | grep '^journey\|^no journey' >"$work/wanted"
  stop "$server"
  for ((count = 0; count < times; count++)); do cat "$work/one.csv"; done >"$work/often.csv"
  serve relayed.log "$port" $((made + times - 1)) "$work/feed" || return
  (cd "$work" && timeout 300 "$LC" relay "$base" often.csv --cache 1 --entries 1000) >"$work/relayed" 2>&1
  said=$(tail -n 1 "$work/relayed")
  same 'relay: all but the time gate is kept' "forwarded $((made + times - 1))" "${said#relayed * }"
  same 'relay: the publisher got no more' "served $((made + times - 1)) requests $((made + times - 1)) faults 0" "$(ended relayed.log 30)"
  same 'relay: each client answers as a plan does' "$times" "$(grep -cxFf "$work/wanted" "$work/relayed")"
}

# start_nginx: nginx by the example, in the work directory. `load` passes its limit on the rate by far.
start_nginx() {
  prepare "$work/nginx" || return
  sed -i 's|rate=100r/s|rate=1000000r/s|' "$directory/nginx.conf"
  run nginx.log nginx -e stderr -g 'daemon off;' -c "$directory/nginx.conf"
  within 30 listens "$front" && return
  say FAILED "nginx does not start: $(cat "$work/nginx.log")"
  return 1
}

# load URL: at least 20,000 requests by wrk, and what was wrong with them, if anything.
load() {
  local count=0 rounds=0 said
  while [ "$count" -lt 20000 ] && [ "$rounds" -lt 12 ]; do
    said=$(wrk -t 2 -c 20 -d 5s --timeout 30s "$1")
    grep -E 'Non-2xx|Socket errors' <<<"$said"
    count=$((count + $(sed -nE 's/^ *([0-9]+) requests in .*/\1/p' <<<"$said")))
    rounds=$((rounds + 1))
  done
  [ "$count" -ge 20000 ] || echo "only $count requests"
}

# What the publisher after nginx is to get: the stops (1), and a time gate and its first page (2). Of a plan of the same question it gets
# the time gate and the other pages. That is its exchanges - 2, since the stops and one page are cached. Of that plan again it gets the time gate
# (1). Then a message (1) and a last time gate (1) come. That is four connections more than a plan makes exchanges, and the publisher ends after them.
nginx_checks() {
  local base gate page made head
  start_nginx || return
  base=http://localhost:$front/tiny/
  questions 1 2 >"$work/one.csv"
  gate="connections?departureTime=$(cut -d, -f4 "$work/one.csv")"
  serve alone.log "$publisher" 1000000 "$work/feed" --cuts count:100 || return
  made=$(exchanges "http://localhost:$publisher/")
  stop "$server"
  serve behind.log "$publisher" $((made + 4)) "$work/feed" --cuts count:100 --base "$base" --accept-updates || return
  serve other.log "$second" 1 "$top/examples/tiny" --base "http://localhost:$front/other/" || return
  same 'nginx: the stops are asked for once' 'MISS HIT' "$(kept "${base}stops") $(kept "${base}stops")"
  has 'nginx: the stops may be kept for an hour' 'Cache-Control: public, max-age=3600' "$(curl -s -m 60 -o /dev/null -D - "${base}stops")"
  page=$(curl -s -m 60 -o /dev/null -w '%{redirect_url}' "$base$gate")
  same 'nginx: a page is asked for once' 'MISS HIT' "$(kept "$page") $(kept "$page")"
  head=$(curl -s -m 60 -o /dev/null -D - --compressed "$page")
  has 'nginx: a page is packed' 'Content-Encoding: gzip' "$head"
  has 'nginx: a page may be kept for a year' 'Cache-Control: public, max-age=31536000, immutable' "$head"
  has 'nginx: a browser may read it' 'Access-Control-Allow-Origin: *' "$head"
  same 'nginx: a browser may ask the time gate' 204 "$(status -X OPTIONS "${base}connections")"
  same 'nginx: a plan' "$made" "$(exchanges "$base")"
  same 'nginx: the same plan again' "$made" "$(exchanges "$base")"
  same 'nginx: a message from this machine' 204 "$(status --data-binary "@$top/examples/late.pb" "${base}updates")"
  same 'nginx: a message from elsewhere' 403 "$(status --interface 127.0.0.2 --data-binary x "${base}updates")"
  same 'nginx: the path of no publisher' 404 "$(status "http://localhost:$front/none/stops")"
  same 'nginx: the path of another publisher' 200 "$(status "http://localhost:$front/other/stops")"
  same 'nginx: which is asked alone' 'served 1 requests 1 faults 0' "$(ended other.log 30)"
  need 'wrk at nginx' wrk && same 'nginx: 20,000 requests of a kept page' '' "$(load "$page")"
  same 'nginx: the time gate again' 302 "$(status "$base$gate")"
  same 'nginx: no other request has reached the publisher' "served $((made + 4)) requests $((made + 4)) faults 0" "$(ended behind.log 30)"
}

hostile_checks() { take hostile python3 "$here/hostile.py" "$work/feed"; }

[ "$#" -gt 0 ] || set -- curl python wrk node relay nginx hostile
for part in "$@"; do
  case $part in
    curl | wrk | node | nginx) need "$part" "$part" && "${part}_checks" ;;
    python | relay | hostile) "${part}_checks" ;;
    *) echo "run.sh: no part $part" >&2; exit 2 ;;
  esac
done
summary
