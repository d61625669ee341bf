#!/usr/bin/env bash
# interop/operating.sh: runs each command of docs/OPERATING.md from the document itself, in order. They run on a copy of this machine that goes at the
# end: an overlay of its files, with a network and processes of its own. There the package is made and installed, `agency.example` is a server
# with a small feed of today and its messages, and a stand-in for systemctl starts what the installed units say. It prints a line for each block
# of commands; the last line is `N passed, M failed, K skipped`, and the status is 0 where none failed. It takes some two minutes.
#
# LC is the program, `crates/lc/out/lc` of this repository if it is not set. VERBOSE=1 also prints what the commands say.
set -u
here=$(dirname "$(realpath "${BASH_SOURCE[0]}")")
top=$(dirname "$here")
LC=$(realpath -m "${LC:-$top/crates/lc/out/lc}")
export LC

# stop_here WHY: nothing can be tried.
stop_here() {
  echo "skipped: the commands of docs/OPERATING.md, since $1"
  echo '0 passed, 0 failed, 1 skipped'
  exit 0
}

# outside: makes the package, and goes on in a copy of the machine.
outside() {
  local work status tool
  [ "$(id -u)" -eq 0 ] || stop_here 'this is not root'
  [ -x "$LC" ] || stop_here "$LC is not here"
  for tool in agency/keep.py examples/proxies/varnish.vcl; do [ -f "$top/$tool" ] || stop_here "$tool is not here"; done
  for tool in unshare ip apt-get dpkg-deb nginx haproxy varnishd curl jq /usr/bin/python3; do
    command -v "$tool" >/dev/null || stop_here "$tool is not here"
  done
  unshare --mount --net --pid --fork true 2>/dev/null || stop_here 'mounts, networks and processes of its own are not allowed here'
  work=$(mktemp -d)
  if "$top/packaging/deb.sh" "$work" >"$work/log" 2>&1; then
    timeout 600 unshare --mount --net --pid --fork --kill-child "$0" --inside "$work"
    status=$?
  else
    echo "FAILED: the package is not made: $(tail -n 3 "$work/log")"
    echo '0 passed, 1 failed, 0 skipped'
    status=1
  fi
  rm -rf --one-file-system "$work"
  exit "$status"
}

# inside WORK: lays the copy of the machine, whose changes are in memory alone, and runs the document there.
inside() {
  local copy=$1/copy root=$1/copy/root
  set -e
  ip link set lo up
  mkdir "$copy"
  mount -t tmpfs tmpfs "$copy"
  mkdir "$root" "$copy/upper" "$copy/below"
  mount -t overlay overlay -o "lowerdir=/,upperdir=$copy/upper,workdir=$copy/below" "$root"
  mount -t proc proc "$root/proc"
  mount --rbind /dev "$root/dev"
  mount -t tmpfs tmpfs "$root/run"
  mkdir -p "$root/root/operating"
  cp "$1"/monteneem_*.deb "$top/docs/OPERATING.md" "$root/root/operating"
  cp -R "$top/examples/tiny" "$root/root/operating/tiny"
  echo '127.0.0.1 localhost agency.example' >"$root/etc/hosts"
  # What is installed stays as it is, since the network of this copy has no mirror.
  echo 'APT::Get::Upgrade "false";' >"$root/etc/apt/apt.conf.d/99operating"
  rm -f "$root"/usr/bin/systemctl "$root"/usr/bin/journalctl
  stand_in >"$root/usr/bin/systemctl"
  # shellcheck disable=SC2016 # The dollar signs are those of the script that is written.
  printf '#!/bin/sh\n# journalctl -u UNIT -n COUNT -o cat\ntail -n "$4" "/run/units/$2.log"\n' >"$root/usr/bin/journalctl"
  chmod 755 "$root"/usr/bin/{systemctl,journalctl}
  driver >"$root/root/operating/driver.py"
  cd "$root"
  exec chroot "$root" env -i HOME=/root PATH=/usr/sbin:/usr/bin:/sbin:/bin LC_ALL=C.UTF-8 DEBIAN_FRONTEND=noninteractive \
    VERBOSE="${VERBOSE:-}" /usr/bin/python3 /root/operating/driver.py
}

# stand_in: a program that starts, reloads and stops units by their files, as far as the units here need it. Nothing of a sandbox is tried by it.
stand_in() {
  cat <<'PYTHON'
#!/usr/bin/python3
import fcntl, os, re, shlex, signal, socket, subprocess, sys, time
from pathlib import Path

STATE = Path("/run/units")
STATE.mkdir(exist_ok=True)
# What is locked here. A process that stays does not keep it.
LOCKS = []


def stay():
    """Makes this a process that stays when the command ends."""
    os.setsid()
    for lock in LOCKS:
        lock.close()


def unit_of(name):
    """The name with its ending, and what the file of the unit says, with %i and continued lines replaced."""
    name = name if name.endswith((".service", ".path")) else f"{name}.service"
    stem, _, ending = name.rpartition(".")
    template, _, instance = stem.partition("@")
    file = Path("/lib/systemd/system") / (f"{template}@.{ending}" if "@" in stem else name)
    text = file.read_text().replace("\\\n", " ").replace("%i", instance)
    found = {}
    for line in text.splitlines():
        key, equals, value = line.partition("=")
        if equals and not line.startswith("#"):
            found.setdefault(key.strip(), []).append(value.strip())
    return name, found


def environment(unit):
    return dict(pair.split("=", 1) for line in unit.get("Environment", []) for pair in shlex.split(line))


def words(command, variables):
    expanded = re.sub(r"\$\{?(\w+)\}?", lambda match: variables.get(match[1], ""), command.lstrip("-"))
    return shlex.split(expanded)


def log_of(name):
    return STATE / f"{name.removesuffix('.service')}.log"


def pid_of(name):
    path = STATE / f"{name}.pid"
    pid = int(path.read_text()) if path.exists() else 0
    return pid if pid and Path(f"/proc/{pid}").exists() else 0


def supervise(name, unit):
    """Starts the unit in a process of its own, which holds its socket, and waits until it is ready."""
    reader, writer = os.pipe()
    if os.fork() == 0:
        stay()
        os.close(reader)
        run(name, unit, writer)
        os._exit(0)
    os.close(writer)
    with os.fdopen(reader) as said:
        answer = said.readline().strip()
    if answer != "ready":
        sys.exit(f"{name} does not start: {answer}: {log_of(name).read_text()[-2000:]}")


def run(name, unit, writer):
    log = open(log_of(name), "ab")
    os.dup2(log.fileno(), 1)
    os.dup2(log.fileno(), 2)
    try:
        process, kind = begin(name, unit, log)
    except Exception as error:
        os.write(writer, f"{error}\n".encode())
        return
    if kind is not None:
        kind.settimeout(120)
        while True:
            try:
                if b"READY=1" in kind.recv(4096):
                    break
            except TimeoutError:
                os.write(writer, b"it does not say that it is ready\n")
                return
            finally:
                if process.poll() is not None:
                    os.write(writer, b"it has ended\n")
                    return
    elif unit.get("Type", ["simple"])[-1] == "forking":
        process.wait()
        time.sleep(0.5)
    (STATE / f"{name}.pid").write_text(Path(unit["PIDFile"][-1]).read_text().strip() if "PIDFile" in unit else str(process.pid))
    os.write(writer, b"ready\n")
    os.close(writer)
    process.wait()


def begin(name, unit, log):
    variables = environment(unit)
    for command in unit.get("ExecStartPre", []):
        subprocess.run(words(command, variables), check=True)
    more = {}
    if "User" in unit:
        more = {"user": unit["User"][-1], "group": unit["Group"][-1], "extra_groups": []}
    for directory in unit.get("StateDirectory", []):
        path = Path("/var/lib") / directory
        for one in (path.parent, path):
            if not one.exists():
                one.mkdir()
                subprocess.run(["chown", f"{unit['User'][-1]}:{unit['Group'][-1]}", str(one)], check=True)
    kind = None
    if unit.get("Type", ["simple"])[-1] == "notify":
        place = STATE / f"{name}.socket"
        place.unlink(missing_ok=True)
        kind = socket.socket(socket.AF_UNIX, socket.SOCK_DGRAM)
        kind.bind(str(place))
        os.chmod(place, 0o666)
        variables["NOTIFY_SOCKET"] = str(place)
    everything = {**os.environ, **variables}
    folder = unit.get("WorkingDirectory", ["/"])[-1]
    return subprocess.Popen(words(unit["ExecStart"][-1], variables), env=everything, cwd=folder, stdin=subprocess.DEVNULL, **more), kind


def watch(name, unit):
    """Runs the service of a path unit each time its file changes."""
    if os.fork():
        return
    stay()
    log = os.open(log_of(name), os.O_WRONLY | os.O_CREAT | os.O_APPEND, 0o644)
    os.dup2(log, 1)
    os.dup2(log, 2)
    path, before = Path(unit["PathChanged"][-1]), None
    _, service = unit_of(name.replace(".path", ".service"))
    while True:
        now = path.stat().st_mtime_ns if path.exists() else None
        if now != before:
            subprocess.run(words(service["ExecStart"][-1], {}), check=False)
        before = now
        time.sleep(0.2)


def start(name):
    name, unit = unit_of(name)
    if name.endswith(".path"):
        watch(name, unit)
    elif not pid_of(name):
        supervise(name, unit)


def stop(name):
    name, _ = unit_of(name)
    pid = pid_of(name)
    if pid:
        os.kill(pid, signal.SIGTERM)
        for _ in range(600):
            # A process that ended and that nobody waits for is there all the same.
            stat = Path(f"/proc/{pid}/stat")
            if not stat.exists() or stat.read_text().rpartition(")")[2].split()[0] == "Z":
                break
            time.sleep(0.1)
        else:
            sys.exit(f"{name} does not stop")
    (STATE / f"{name}.pid").unlink(missing_ok=True)


def reload(name):
    name, unit = unit_of(name)
    pid = pid_of(name)
    if not pid:
        sys.exit(f"{name} is not active")
    for command in unit["ExecReload"]:
        subprocess.run(words(command, {**environment(unit), "MAINPID": str(pid)}), check=True)


def main(arguments):
    verb, *names = [word for word in arguments if not word.startswith("--")]
    for name in names:
        # One at a time does something to a unit.
        with open(STATE / f"{unit_of(name)[0]}.lock", "w") as lock:
            fcntl.flock(lock, fcntl.LOCK_EX)
            LOCKS.append(lock)
            is_active = pid_of(unit_of(name)[0]) != 0
            if verb in ("enable", "start"):
                start(name)
            elif verb == "reload" or (verb == "try-reload-or-restart" and is_active):
                reload(name)
            elif verb == "restart":
                stop(name)
                start(name)
            elif verb == "stop":
                stop(name)


main(sys.argv[1:])
PYTHON
}

# driver: a program that is the agency's server, and runs the blocks.
driver() {
  cat <<'PYTHON'
import io, json, os, re, subprocess, sys, threading, time, urllib.request, zipfile
from datetime import date, timedelta
from http.server import BaseHTTPRequestHandler, ThreadingHTTPServer
from pathlib import Path

ROOM = Path("/root/operating")
BEGUN = int(time.time())
# What a block has to print, by a word of the block.
WANTED = {
    "monteneem-lint http": r"^0 refused",
    "--check": r"ok",
    "enable --now monteneem@tiny": r"true",
    "lc plan": r"http://localhost/tiny/\d+/memento/connections[^\n]*\n?[\s\S]*journey 2 arrives \d{4}-\d\d-\d\dT08:31:00|journey 2 arrives",
    "jq '{ok": r'"ok": true[\s\S]*\{',
    "--past": r"\"changes\"",
    "--against": r"the feed does not know 0 of 1 trips",
    "haproxy.py": r"\"@context\"",
    "monteneem-split": r"\d parts connections \d+[\s\S]*\nok$",
}


def varint(value):
    out = bytearray()
    while value > 127:
        out.append(value % 128 + 128)
        value //= 128
    return bytes(out + bytes([value]))


def number(field, value):
    return varint(field * 8) + varint(value)


def text(field, inner):
    return varint(field * 8 + 2) + varint(len(inner)) + inner


def message(moment):
    """T5 is a minute late today."""
    late = text(2, number(1, 1) + text(3, number(1, 60)))
    trip = text(3, text(1, text(1, b"T5") + text(3, date.today().strftime("%Y%m%d").encode())) + late)
    return text(1, text(1, b"2.0") + number(3, moment)) + text(2, text(1, b"1") + trip)


def feed():
    """The small feed, on the days round today."""
    whole = io.BytesIO()
    with zipfile.ZipFile(whole, "w") as archive:
        for path in (ROOM / "tiny").iterdir():
            if path.name != "calendar_dates.txt":
                archive.write(path, path.name)
        days = "".join(f"w,{date.today() + timedelta(days=n):%Y%m%d},1\n" for n in range(-2, 30))
        archive.writestr("calendar_dates.txt", "service_id,date,exception_type\n" + days)
        archive.writestr("agency.txt", "agency_id,agency_name,agency_url,agency_timezone\na,Agency,http://agency.example/,UTC\n")
        archive.writestr("routes.txt", "route_id,agency_id,route_short_name,route_type\nr,a,1,3\n")
    return whole.getvalue()


class Agency(BaseHTTPRequestHandler):
    bodies = {"/feed.zip": feed(), "/trips.pb": message(BEGUN)}

    def do_GET(self):
        body = message(int(time.time())) if self.path == "/later.pb" else self.bodies.get(self.path)
        self.send_response(404 if body is None else 200)
        self.end_headers()
        self.wfile.write(body or b"")

    def log_message(self, *_):
        pass


def blocks():
    """The blocks of commands of the document, with the heading or the paragraph that is before each."""
    name, block, inside = "", [], False
    for line in (ROOM / "OPERATING.md").read_text().splitlines():
        if line == "```sh":
            inside, block = True, []
        elif line == "```" and inside:
            inside = False
            yield name, "\n".join(block)
        elif inside:
            block.append(line)
        elif line.startswith(("**", "## ")):
            name = re.sub(r"^\*\*([^*]*)\*\*.*", r"\1", line).strip("# .")


class Reader(threading.Thread):
    """Somebody who reads through nginx all the time, and counts what fails."""

    def __init__(self):
        super().__init__(daemon=True)
        self.base, self.count, self.failed = "", 0, []

    def run(self):
        while True:
            if self.base:
                try:
                    with urllib.request.urlopen(f"{self.base}connections", timeout=60) as reply:
                        reply.read()
                except OSError as error:
                    self.failed.append(repr(error))
                self.count += 1
            time.sleep(0.02)

    def begin(self):
        """Reads from here on, of the window to plan by, once nginx knows the processes that a restart before this began."""
        for _ in range(150):
            try:
                with urllib.request.urlopen("http://localhost/tiny/catalog.json", timeout=5) as reply:
                    said = json.load(reply)
                base = next(one["base"] for one in said["windows"] if one["window"] == said["current"])
                with urllib.request.urlopen(f"{base}connections", timeout=5):
                    self.base = base
                return
            except (OSError, ValueError):
                time.sleep(0.2)


def serves():
    """Waits until nginx serves the catalog: the unit that watches for windows may be on its way."""
    for _ in range(300):
        try:
            with urllib.request.urlopen("http://localhost/tiny/catalog.json", timeout=5) as reply:
                return reply.status == 200
        except OSError:
            time.sleep(0.2)
    return False


def main():
    threading.Thread(target=ThreadingHTTPServer(("127.0.0.1", 9000), Agency).serve_forever, daemon=True).start()
    # Somebody may be installing on the machine that this is a copy of.
    subprocess.run(["dpkg", "--configure", "-a"], stdout=subprocess.DEVNULL, stderr=subprocess.DEVNULL)
    reader = Reader()
    reader.start()
    passed = failed = 0
    for name, block in blocks():
        if "$base" in block:
            serves()
        # A restart may have readers wait, and a reload may not.
        is_reload = "systemctl reload" in block
        if is_reload:
            reader.begin()
        reader.count, reader.failed = 0, []
        # A file and no pipe: what a block starts may hold it open.
        with open(ROOM / "said", "wb") as file:
            # timeout ends with status 124.
            done = subprocess.run(["timeout", "120", "bash", "-euc", block], cwd=ROOM, stdout=file, stderr=subprocess.STDOUT)
        said = (ROOM / "said").read_text(errors="replace")
        if is_reload:
            # The old process goes a few seconds after the reload.
            time.sleep(8)
            reader.base = ""
            if reader.failed or not reader.count:
                said += f"{len(reader.failed)} of {reader.count} requests failed, as {reader.failed[:1]}"
                done.returncode = done.returncode or 1
        wrong = [word for word, wanted in WANTED.items() if word in block and not re.search(wanted, said, re.MULTILINE)]
        if done.returncode == 0 and not wrong:
            passed += 1
            print(f"ok: {name}: {block.splitlines()[0]}", flush=True)
        else:
            failed += 1
            print(f"FAILED: {name}: status {done.returncode}, wanted of {wrong}: {block}\n{said[-3000:]}", flush=True)
            for log in sorted(Path("/run/units").glob("*.log")):
                print(f"{log.name}:", *log.read_text(errors="replace").splitlines()[-8:], sep="\n  ", flush=True)
        if os.environ.get("VERBOSE"):
            print(said, flush=True)
    print(f"{passed} passed, {failed} failed, 0 skipped", flush=True)
    return 1 if failed or not passed else 0


sys.exit(main())
PYTHON
}

if [ "${1:-}" = --inside ]; then inside "$2"; else outside; fi
