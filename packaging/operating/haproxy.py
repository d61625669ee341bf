#!/usr/bin/python3
"""Writes the configuration of haproxy before the replicas of `monteneem-keep`, by what it says of them.

    haproxy.py PORT UPSTREAMS.json... > haproxy.cfg

PORT is where haproxy listens, of the loopback address. UPSTREAMS.json is `proxy/NAME.upstreams.json`: of each window the path and the ports.
"""

from __future__ import annotations

import json
import re
import sys
from pathlib import Path
from typing import Any, Iterator, Sequence

# Varnish or nginx is before haproxy, so clients and what they may do are theirs to judge.
COMMON = """\
global
    maxconn 4096

defaults
    mode http
    timeout connect 2s
    timeout client 60s
    timeout server 60s
    timeout queue 60s
    timeout check 5s
    # A publisher gets a connection for each request, so that none idles there.
    option http-server-close
    # Replicas given the same messages answer the same bytes. So what one did not answer another is asked for, and so is what it does not know: it may
    # not have the newest message yet.
    retries 3
    option redispatch 1
    retry-on conn-failure empty-response junk-response response-timeout 404 500 502 503 504
    # A replica makes one reply at a time. One that takes no connection is left out at once: it would look free, and get each request that is tried
    # again. It gets requests once two checks have found it.
    default-server maxconn 2 check inter 1s fall 1 rise 2 observe layer4 error-limit 1 on-error mark-down
"""


def windows_of(paths: Sequence[str]) -> Iterator[tuple[str, str, list[int]]]:
    """Of each window its name, its path and its ports."""
    for path in paths:
        said: dict[str, Any] = json.loads(Path(path).read_text(encoding="utf-8"))
        for window in said["windows"]:
            name = f"{said['name']}_{window['window']}"
            if not re.fullmatch(r"[A-Za-z0-9_-]+", name) or not re.fullmatch(r"/[A-Za-z0-9._~%/-]*", window["path"]):
                raise ValueError(f"{path}: {name} or {window['path']} is no name and path of a window")
            yield name, window["path"], [int(port) for port in window["ports"]]


def configuration(port: int, paths: Sequence[str]) -> Iterator[str]:
    windows = list(windows_of(paths))
    yield COMMON
    yield "frontend readers"
    yield f"    bind 127.0.0.1:{port}"
    # Each replica has to get each message: monteneem-keep posts them.
    yield "    http-request deny deny_status 403 unless METH_GET or METH_HEAD"
    for name, path, _ in windows:
        yield f"    use_backend {name} if {{ path_beg {path} }}"
    for name, _, ports in windows:
        yield f"\nbackend {name}"
        for one in ports:
            yield f"    server port{one} 127.0.0.1:{one}"


def main(words: Sequence[str]) -> int:
    if len(words) < 2 or not words[0].isdecimal():
        print(__doc__, file=sys.stderr)
        return 2
    try:
        print("\n".join(configuration(int(words[0]), words[1:])))
    except (OSError, ValueError, KeyError, TypeError) as error:
        print(f"haproxy.py: {error}", file=sys.stderr)
        return 1
    return 0


if __name__ == "__main__":
    sys.exit(main(sys.argv[1:]))
