# shellcheck shell=bash
# What the scripts of this directory share. A script sources it first; it then finds the program in LC, has a directory `$work` of its own, and counts
# its checks. What it starts with `serve` or `run` is ended with it.
set -u
here=$(cd "$(dirname "${BASH_SOURCE[0]}")" && pwd)
top=$(dirname "$here")
script=$(basename "$0")
# `--help` prints the comment with which the script begins.
case " $* " in *' --help '*) sed -n '2,/^[^#]/s/^# \{0,1\}//p' "$0" | grep -v '^shellcheck'; exit 0 ;; esac
LC=${LC:-$top/crates/lc/out/lc}
[ -x "$LC" ] || { echo "$script: no program at $LC: build it by ./lc prove" >&2; exit 2; }
command -v python3 >/dev/null || { echo "$script: python3 is not here" >&2; exit 2; }
LC=$(realpath "$LC")
export LC
work=$(mktemp -d)
passed=0
failed=0
skipped=0
running=()
prepared=()

# end_running: ends what was started and not stopped, and waits for it.
end_running() {
  [ "${#running[@]}" -eq 0 ] || kill "${running[@]}" 2>/dev/null
  wait 2>/dev/null
}

finish() {
  end_running
  rm -rf "$work"
}
trap finish EXIT

# say RESULT NAME: counts a check and prints it.
say() {
  case $1 in
    ok) passed=$((passed + 1)) ;;
    skipped) skipped=$((skipped + 1)) ;;
    *) failed=$((failed + 1)) ;;
  esac
  echo "$1: $2"
}

# summary: prints the last line. Its status is 0 where no check failed.
summary() {
  echo "$passed passed, $failed failed, $skipped skipped"
  [ "$failed" -eq 0 ]
}

# same NAME WANTED FOUND: a check that two texts are the same.
same() {
  if [ "$2" = "$3" ]; then say ok "$1"; else say FAILED "$1: wanted '$2', found '$3'"; fi
}

# has NAME WANTED TEXT: a check that a text has a line, whose end may be CR. HTTP/2 writes the names of fields in small letters, so case is nothing.
has() {
  if tr -d '\r' <<<"$3" | grep -qixF -- "$2"; then say ok "$1"; else say FAILED "$1: no line '$2'"; fi
}

# holds NAME COMMAND...: a check that a command has the status 0.
holds() {
  if "${@:2}"; then say ok "$1"; else say FAILED "$1"; fi
}

# take NAME COMMAND...: runs checks of another program, one on each line as `ok: ..`, `FAILED: ..` or `skipped: ..`, and at least one.
take() {
  local name=$1 count=0 line
  shift
  while IFS= read -r line; do
    case $line in
      ok:* | FAILED:* | skipped:*) say "${line%%:*}" "$name: ${line#*: }" ;;
      *) echo "  $line" ;;
    esac
    count=$((count + 1))
  done < <("$@" 2>&1)
  [ "$count" -gt 0 ] || say FAILED "$name: said nothing"
}

# need NAME TOOL...: whether all these tools are here; else what is skipped is said.
need() {
  local tool
  for tool in "${@:2}"; do
    command -v "$tool" >/dev/null || { say skipped "$1, since $tool is not here"; return 1; }
  done
}

# free_ports N: so many ports at which nobody listens, none of which was prepared before.
free_ports() {
  python3 - "$1" "${prepared[@]}" <<'PYTHON'
import socket
import sys

count, taken = int(sys.argv[1]), {int(port) for port in sys.argv[2:]}
held: list[socket.socket] = []
while len(held) < count + len(taken):
    held.append(socket.socket())
    held[-1].bind(("127.0.0.1", 0))
print(*[port for port in (one.getsockname()[1] for one in held) if port not in taken][:count])
PYTHON
}

# free_port: one such port.
free_port() { free_ports 1; }

# within SECONDS COMMAND...: tries a command until it has the status 0, for so long.
within() {
  local tries=$(($1 * 10))
  shift
  until "$@"; do
    tries=$((tries - 1))
    [ "$tries" -gt 0 ] || return 1
    sleep 0.1
  done
}

# run LOG COMMAND...: starts a program that is ended with the script, and after ten minutes in any case. Its process is `$started`.
run() {
  : >"$work/$1"
  timeout -k 5 600 "${@:2}" >"$work/$1" 2>&1 &
  started=$!
  running[started]=$started
}

# serve LOG PORT CONNECTIONS FEED ARGUMENT...: starts a server and waits until it listens.
serve() {
  run "$1" "$LC" serve "$4" 20240501 --port "$2" --connections "$3" "${@:5}"
  server=$started
  within 120 says_listening "$work/$1" "$2" "$server"
  grep -qx "listening $2" "$work/$1" && return
  say FAILED "serve does not listen: $(cat "$work/$1")"
  return 1
}

# says_listening LOG PORT PID: whether the server listens, or has ended.
says_listening() { grep -qx "listening $2" "$1" || ! kill -0 "$3" 2>/dev/null; }

# stop PID: ends a program and waits for it.
stop() {
  kill "$1" 2>/dev/null
  wait "$1" 2>/dev/null
  unset "running[$1]"
}

# ended LOG SECONDS: waits until the server of the log has ended, and gives its last line.
ended() {
  within "$2" grep -q '^served\|^error' "$work/$1"
  tail -n 1 "$work/$1"
}

# status ARGUMENT...: the status that curl is answered with.
status() { curl -s -m 30 -o "$work/body" -w '%{http_code}' "$@"; }

# listens PORT: whether somebody takes connections at the port.
listens() { (exec 3<>"/dev/tcp/127.0.0.1/$1") 2>/dev/null; }

# adapt: a text of docs/PROXIES.md or of examples/proxies, with the ports and the directory of this run in place of its own.
adapt() {
  sed -e "s|/tmp/lc-proxy|$directory|g; s|\b8000\b|$front|g; s|\b8443\b|$secure|g; s|\b8444\b|$inner|g" \
    -e "s|\b8081\b|$publisher|g; s|\b8082\b|$second|g; s|^\./lc |$LC |"
}

# documented WORD: the commands of docs/PROXIES.md that begin with it, for this run.
documented() { sed -n 's/^    //p' "$top/docs/PROXIES.md" | grep -E "^$1 " | sed 's/ &$//' | adapt; }

# prepare DIRECTORY: chooses ports, and makes the directory of a proxy as docs/PROXIES.md says. A proxy that root starts runs as another user, who may
# come in.
prepare() {
  local command
  read -r front secure inner publisher second < <(free_ports 5)
  prepared+=("$front" "$secure" "$inner" "$publisher" "$second")
  directory=$1
  rm -rf "$directory"
  chmod 755 "$work"
  while IFS= read -r command; do
    [[ $command == chown* && $EUID -ne 0 ]] && continue
    (cd "$top" && bash -c "$command") >"$directory.log" 2>&1 || { say FAILED "$command: $(cat "$directory.log")"; return 1; }
  done < <(documented '(mkdir|cp|openssl|cat|chown)')
  find "$directory" -maxdepth 1 -type f ! -name '*.pem' | while IFS= read -r command; do
    adapt <"$command" >"$directory.adapted" && cat "$directory.adapted" >"$command"
  done
}
