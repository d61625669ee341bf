#!/usr/bin/env bash
# interop/proxies.sh [PROXY]...: starts each configuration of examples/proxies before `serve`, by the command that docs/PROXIES.md has, and checks what
# that document says of it. The proxies are nginx, haproxy, caddy, apache and varnish, all of them if none is named. Eight pages one after the other by
# five clients, which keep connections open as they do by default, may take at most 1.5 times what they take by nginx that closes each connection, and
# 20 milliseconds more, which a busy machine takes now and then. It ends by itself, in about three minutes, and prints a line for each check. The last
# line is `N passed, M failed, K skipped`, and the status is 0 where none failed.
#
# LC is the program, `crates/lc/out/lc` of this repository if it is not set.
# shellcheck source-path=SCRIPTDIR source=lib.sh
source "$(dirname "${BASH_SOURCE[0]}")/lib.sh"

clients=$here/clients
feed=$work/feed
name=http://lc.example/tiny/
secure_name=https://lc.example/tiny/
page='memento/connections?version=1970-01-01T00:00:00.000Z&departureTime=2024-05-01T08:00:00.000Z'
slack=20
tries=5
reference_pages=()

# Programs of the machine keep what they keep in the directory of this run.
export XDG_CONFIG_HOME=$work/config XDG_DATA_HOME=$work/data

# What the proxies differ in. docs/PROXIES.md says the same in a table.
keeps_pages() { [[ $1 =~ ^(nginx|haproxy|apache|varnish)$ ]]; }
changes_bodies() { [[ $1 =~ ^(nginx|apache)$ ]]; }

# tools PROXY: the programs that it needs.
tools() {
  case $1 in
    apache) echo apache2 ;;
    varnish) echo varnishd hitch ;;
    *) echo "$1" ;;
  esac
}

# start_proxy PROXY: the proxy as it is prepared, with nothing kept from before. Its processes are in `proxy_processes`.
start_proxy() {
  local tool command
  proxy_processes=()
  for tool in $(tools "$1"); do
    command=$(documented "$tool")
    run "${directory##*/}.$tool.log" bash -c "exec ${command:-false}"
    proxy_processes+=("$started")
  done
  within 30 listens "$front" && within 30 listens "$secure" && return
  say FAILED "$1 does not start: $(tail -n 5 "$directory".*.log)"
  return 1
}

stop_proxy() {
  local process
  for process in "${proxy_processes[@]}"; do stop "$process"; done
}

# by ARGUMENT...: curl's request by the proxy, to which the name lc.example leads.
by() { curl -s -m 30 --connect-to "lc.example:80:127.0.0.1:$front" --connect-to "lc.example:443:127.0.0.1:$secure" --cacert "$directory/cert.pem" "$@"; }

# head_of ARGUMENT...: the head of the reply.
head_of() { by -o "$work/body" -D - "$@"; }

# code ARGUMENT...: its status.
code() { by -o "$work/body" -w '%{http_code}' "$@"; }

# answers CODE ARGUMENT...: whether that is the status.
answers() { [ "$(code "${@:2}")" = "$1" ]; }

# readable NAME CODE ARGUMENT...: a check that the reply has this status (a pattern), and that a page of another origin may read it.
readable() {
  local head
  head=$(head_of "${@:3}" | tr -d '\r')
  if [[ $head =~ ^HTTP/[0-9.]+\ $2 ]] && grep -qix 'Access-Control-Allow-Origin: \*' <<<"$head"; then
    say ok "$1"
  else
    say FAILED "$1: ${head:0:300}"
  fi
}

# The least milliseconds that eight of the pages take, by one of five clients.
curl_client() {
  local url
  for url in "$@"; do printf 'url = "%s"\noutput = "/dev/null"\n' "$url"; done | curl -sSf -m 60 -K - -w '%{time_total}\n' |
    awk '{ took += $1 } NR % 8 == 0 { if (NR == 8 || took < least) least = took; took = 0 } END { printf "%.0f\n", least * 1000 }'
}
node_client() { timeout 60 node "$clients/pages.mjs" "$@"; }
go_client() { timeout 60 "$work/pages" "$@"; }
aiohttp_client() { timeout 60 "$clients/pages.py" "$@"; }
chromium_client() { timeout 120 "$clients/browser.py" pages.html "${@/#/--query=url=}"; }

# find_clients: those of the five whose programs are here. It says which are not.
find_clients() {
  found_clients=(curl)
  need 'the client of node' node && found_clients+=(node)
  need 'the client of Go' go && go build -o "$work/pages" "$clients/pages.go" && found_clients+=(go)
  if /usr/bin/python3 -c 'import aiohttp' 2>/dev/null; then found_clients+=(aiohttp); else say skipped 'the client aiohttp, since python3-aiohttp is not here'; fi
  need 'the browser' chromium && found_clients+=(chromium)
}

# start_reference: nginx that closes each connection and keeps no page, before a publisher of its own. It stays while the script runs.
start_reference() {
  prepare "$work/reference" || return
  sed -i 's|access_log off;|access_log off; keepalive_timeout 0;|; s|proxy_cache pages;|proxy_cache off;|' "$directory/nginx.conf"
  run reference.log bash -c "exec $(documented nginx)"
  within 30 listens "$front" || { say FAILED "the reference does not start: $(cat "$work/reference.log")"; return; }
  serve_pages reference && reference_pages=("${pages[@]}")
}

# serve_pages NAME: a publisher of many pages behind the proxy. `pages` has the URLs of as many as the clients read.
serve_pages() {
  local base=http://localhost:$front/tiny/
  serve "$1.pages.log" "$publisher" 1000000 "$feed" --cuts span:600 --base "$base" || return
  mapfile -t pages < <("$clients/page_urls.py" "$publisher" "$base" $((tries * 24 * ${#found_clients[@]})))
}

# measure PROXY: each client reads eight pages by the reference and by the proxy, and again other pages where the proxy was slower.
measure() {
  local client first=0 attempt wanted took
  prepare "$work/measured" && start_proxy "$1" && serve_pages "$1" || return
  for client in "${found_clients[@]}"; do
    for ((attempt = 0; attempt < tries; attempt++)); do
      wanted=$("${client}_client" "${reference_pages[@]:first:24}" 2>&1 | tail -n 1)
      took=$("${client}_client" "${pages[@]:first:24}" 2>&1 | tail -n 1)
      first=$((first + 24))
      is_near "$took" "$wanted" && break
    done
    holds "$1: $client reads eight pages in $took ms, and by nginx that closes each connection in $wanted" is_near "$took" "$wanted"
  done
  stop_proxy
  stop "$server"
}

# is_near TOOK WANTED: whether both are milliseconds, and the first at most 1.5 times the second.
is_near() { [[ $1 =~ ^[0-9]+$ && $2 =~ ^[0-9]+$ ]] && [ "$1" -le $(($2 * 3 / 2 + slack)) ]; }

# start_publisher: as the document starts it.
start_publisher() {
  run publisher.log bash -c "cd '$top' && exec $(documented '\./lc serve')"
  server=$started
  within 60 listens "$publisher" || say FAILED "the publisher does not start: $(cat "$work/publisher.log")"
}

# What the document shows of a proxy is tried, and the message that it posts makes a second version.
documented_checks() {
  local command said
  while IFS= read -r command; do
    said=$(cd "$top" && bash -c "$command")
    case $command in
      *updates*) has "$1: a message as in the document" 'HTTP/1.1 204 No Content' "$said" ;;
      *) holds "$1: a page as in the document" grep -q '"@graph"' <<<"$said" ;;
    esac
  done < <(documented curl)
}

http_checks() {
  local proxy=$1 head
  head=$(head_of "${name}connections?departureTime=2024-05-01T08:00:00.000Z")
  has "$proxy: the time gate names the newest version" "Location: ${name}${page/1970-01-01T00/2024-05-01T07}" "$head"
  has "$proxy: the time gate is not kept" 'Cache-Control: no-cache' "$head"
  head=$(head_of "$name$page")
  has "$proxy: a page may be kept for a year" 'Cache-Control: public, max-age=31536000, immutable' "$head"
  has "$proxy: a page has its version" 'Memento-Datetime: Thu, 01 Jan 1970 00:00:00 GMT' "$head"
  holds "$proxy: a page that is not packed has its length" grep -qi '^Content-Length: [1-9]' <<<"$head"
  has "$proxy: a page is packed" 'Content-Encoding: gzip' "$(head_of --compressed "$name$page")"
  has "$proxy: the stops may be kept for an hour" 'Cache-Control: public, max-age=3600' "$(head_of "${name}stops")"
  readable "$proxy: a page can be read from another origin" 200 "$name$page"
  readable "$proxy: no such path" 404 "${name}trains"
  readable "$proxy: no such version" 404 "${name}memento/connections?version=2024-05-01T01:00:00.000Z"
  readable "$proxy: a moment that is none" 400 "${name}connections?departureTime=soon"
  # Varnish ends the connection without a word.
  holds "$proxy: a head that is too long is refused" grep -qE '^(4..|000)$' <<<"$(code -H "X-Long: $(head -c 20000 /dev/zero | tr '\0' x)" "${name}stops")"
}

preflight_checks() {
  local proxy=$1 url head
  for url in "${name}connections" "$name$page" "${name}stops" "${secure_name}connections"; do
    head=$(head_of -X OPTIONS -H 'Origin: https://app.example' -H 'Access-Control-Request-Method: GET' \
      -H 'Access-Control-Request-Headers: accept-datetime' "$url" | tr -d '\r')
    holds "$proxy: preflight of ${url%%\?*}" allows_asking "$head"
  done
}

# allows_asking HEAD: whether a browser may send Accept-Datetime from then on.
allows_asking() {
  grep -qE '^HTTP/[0-9.]+ 204' <<<"$1" && grep -qiE '^Access-Control-Max-Age: [1-9]' <<<"$1" && grep -qix 'Access-Control-Allow-Headers: Accept-Datetime' <<<"$1"
}

message_checks() {
  local proxy=$1 url
  same "$proxy: a message with Expect: 100-continue is asked for" 409 \
    "$(code -m 15 --expect100-timeout 30 -H 'Expect: 100-continue' --data-binary "@$top/examples/late.pb" "${name}updates")"
  # By HTTP/2 curl misses a reply that comes before it has sent the body.
  for url in "$name" "$secure_name"; do
    same "$proxy: a message from elsewhere to $url" 403 "$(code --http1.1 --interface 127.0.0.2 --data-binary x "${url}updates")"
    same "$proxy: which says that it is from here" 403 \
      "$(code --http1.1 --interface 127.0.0.2 -H 'X-Real-IP: 127.0.0.1' -H 'X-Forwarded-For: 127.0.0.1' --data-binary x "${url}updates")"
  done
}

rate_checks() {
  local proxy=$1 counts
  case $proxy in
    caddy) say skipped "$proxy: a limit on the rate, since it has none"; return ;;
    apache) [ -e /usr/lib/apache2/modules/mod_security2.so ] || { say skipped "$proxy: a limit on the rate, since mod_security2 is not here"; return; } ;;
  esac
  counts=$(by --interface 127.0.0.3 -o /dev/null -w '%{http_code} %header{access-control-allow-origin}\n' "${secure_name}stops#[1-2500]" |
    sort | uniq -c | tr -s ' \n' ' ')
  holds "$proxy: of 2,500 requests at once some are refused, which can be read:$counts" grep -qE '^ [0-9]+ 200 \* [0-9]+ 429 \* $' <<<"$counts"
  same "$proxy: another client is answered" 302 "$(code "${name}connections")"
}

https_checks() {
  local proxy=$1 head links
  head=$(head_of "${secure_name}connections?departureTime=2024-05-01T08:00:00.000Z")
  has "$proxy: over https a redirect leads to https" "Location: $secure_name${page/1970-01-01T00/2024-05-01T07}" "$head"
  has "$proxy: over https the time gate is named by https" \
    "Link: <${secure_name}connections?departureTime=2024-05-01T08:00:00.000Z>; rel=\"original timegate\"" "$head"
  links=$(by --compressed "$secure_name$page" | grep -oE 'https?://lc\.example/tiny/' | sort -u | tr '\n' ' ')
  if changes_bodies "$proxy"; then
    same "$proxy: over https all links lead to https" "$secure_name " "$links"
  else
    same "$proxy: over https links stay as they are" "$name " "$links"
  fi
  same "$proxy: over http links stay as they are" "$name " "$(by --compressed "$name$page" | grep -oE 'https?://lc\.example/tiny/' | sort -u | tr '\n' ' ')"
}

# The page past.html in chromium, with the options `asks`.
past() {
  "$clients/browser.py" past.html --query "base=$secure_name" --query 'newest=Wed, 01 May 2024 07:00:00 GMT' --query 'asked=Wed, 01 May 2024 06:59:59 GMT' \
    --query 'past=Thu, 01 Jan 1970 00:00:00 GMT' --certificate "$directory/cert.pem" --key "$directory/key.pem" --secure "$secure" "${asks[@]}"
}

# Where the proxy leaves links as they are, the page asks for https itself. That chromium warns without this shows that the check can fail.
browser_checks() {
  local asks=()
  need "$1: a page of another origin" chromium || return
  if ! changes_bodies "$1"; then
    holds "$1: chromium warns of a page that does not ask for https" grep -qx 'FAILED: chromium warns of mixed content' <<<"$(past)"
    asks=(--upgrade)
  fi
  take "$1: chromium" past
}

# The proxy stays, and the publisher goes and comes again.
restart_checks() {
  stop "$server"
  readable "$1: without a publisher an error can be read" '50[234]' "${name}connections"
  if keeps_pages "$1"; then
    same "$1: a kept page needs no publisher" 200 "$(code "$name$page")"
  else
    say skipped "$1: a kept page, since it keeps none"
  fi
  start_publisher
  holds "$1: a publisher that is started anew is asked" within 10 answers 302 "${name}connections"
}

# slow_checks PROXY: slow clients meet a proxy and a publisher of their own. Its page is the whole timetable, of some megabytes, and before haproxy a
# part of it: what the kernel does not hold of a reply waits for the client there.
slow_checks() {
  local cuts=whole
  running=()
  trap end_running EXIT
  [ "$1" = haproxy ] && cuts=count:5000
  start_proxy "$1" || return
  serve slow.log "$publisher" 1000000 "$feed" --cuts "$cuts" --base "$name" || return
  "$clients/slow.py" "$front" "/tiny/$page" /tiny/connections
}

check() {
  local proxy=$1 slow
  # shellcheck disable=SC2046
  need "$proxy" $(tools "$proxy") || return
  if [ "$proxy" = varnish ] && ! compgen -G '/usr/lib/*/varnish/vmods/libvmod_vsthrottle.so' >/dev/null; then
    say skipped 'varnish, since varnish-modules is not here'
    return
  fi
  prepare "$work/slow" || return
  (slow_checks "$proxy") >"$work/slow.out" 2>&1 &
  slow=$!
  running[slow]=$slow
  [ "${#reference_pages[@]}" -eq 0 ] || measure "$proxy"
  prepare "$work/proxy" && start_proxy "$proxy" || return
  readable "$proxy: before the publisher is there an error can be read" '50[234]' "${name}connections"
  start_publisher
  holds "$proxy: once it is there it is asked" within 10 answers 302 "${name}connections"
  documented_checks "$proxy"
  http_checks "$proxy"
  preflight_checks "$proxy"
  message_checks "$proxy"
  rate_checks "$proxy"
  https_checks "$proxy"
  browser_checks "$proxy"
  restart_checks "$proxy"
  stop_proxy
  stop "$server"
  wait "$slow"
  unset "running[slow]"
  take "$proxy" cat "$work/slow.out"
}

[ "$#" -gt 0 ] || set -- nginx haproxy caddy apache varnish
for proxy in "$@"; do
  [[ $proxy =~ ^(nginx|haproxy|caddy|apache|varnish)$ ]] || { echo "proxies.sh: no proxy $proxy" >&2; exit 2; }
done
python3 "$top/bench/make_feed.py" 20000 "$feed" || exit 2
find_clients
need 'what the times are measured against' nginx && start_reference
for proxy in "$@"; do check "$proxy"; done
summary
