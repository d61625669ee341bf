#!/usr/bin/python3
"""Slow clients of a proxy, and an honest client beside them. Prints `ok: ..` or `FAILED: ..` for each check, within a minute.

    slow.py PORT PAGE GATE

PORT is that of the proxy, PAGE the path of a large page that it does not keep yet, and GATE that of a time gate, which no proxy keeps.
"""

import socket
import sys
import threading
import time
from collections.abc import Callable

HOST = "lc.example"
# An honest client is to be answered so soon. The least of some times says what a slow client costs, and not what else the machine does.
SOON = 0.3
TRIES = 10
# Heads may take 10 seconds, and a proxy may linger before it closes. Before Apache the kernel holds a silent connection back for half a minute.
ENDS_WITHIN = 60


def say(holds: bool, name: str) -> None:
    print(("ok: " if holds else "FAILED: ") + name, flush=True)


def connect(port: int) -> socket.socket:
    return socket.create_connection(("127.0.0.1", port), timeout=60)


def honest(port: int, path: str, beside: str) -> None:
    """The least time that some requests take, each on a connection of its own."""
    try:
        least = min(request(port, path) for _ in range(TRIES))
        say(least < SOON, f"beside {beside} a request takes {least * 1000:.0f} ms")
    except OSError as error:
        say(False, f"beside {beside} a request ends with: {error}")


def request(port: int, path: str) -> float:
    """The seconds that one takes to be redirected."""
    begun = time.monotonic()
    with connect(port) as peer:
        peer.sendall(f"GET {path} HTTP/1.1\r\nHost: {HOST}\r\nConnection: close\r\n\r\n".encode())
        reply = b""
        while piece := peer.recv(65536):
            reply += piece
    if not reply.startswith(b"HTTP/1.1 302"):
        raise OSError(f"the reply {reply[:40]!r}")
    return time.monotonic() - begun


def is_ended(peer: socket.socket) -> bool:
    """Whether the other side has ended the connection; what it sent before is passed over."""
    peer.settimeout(0.01)
    try:
        while piece := peer.recv(65536):
            if not piece:
                break
        return True
    except TimeoutError:
        return False
    except OSError:
        return True


def heads(port: int, gate: str, send: Callable[[socket.socket], None], name: str) -> None:
    """Twenty clients that do not come to the end of a head."""
    begun = time.monotonic()
    peers = [connect(port) for _ in range(20)]
    for peer in peers:
        send(peer)
    honest(port, gate, f"twenty {name}")
    waiting = peers
    while waiting and time.monotonic() - begun < ENDS_WITHIN:
        for peer in waiting:
            try:
                send(peer)
            except OSError:
                pass
        time.sleep(1)
        waiting = [peer for peer in waiting if not is_ended(peer)]
    say(not waiting, f"after {time.monotonic() - begun:.0f} s {20 - len(waiting)} of twenty {name} are ended")
    for peer in peers:
        peer.close()


def reader(port: int, page: str, gate: str) -> None:
    """Clients that ask for a large page, and read nothing of it."""
    peers = []
    for _ in range(3):
        peer = socket.socket()
        peer.setsockopt(socket.SOL_SOCKET, socket.SO_RCVBUF, 4096)
        peer.settimeout(60)
        peer.connect(("127.0.0.1", port))
        peer.sendall(f"GET {page} HTTP/1.1\r\nHost: {HOST}\r\n\r\n".encode())
        peers.append(peer)
    time.sleep(0.5)
    honest(port, gate, "three clients that read nothing of a large page")
    for peer in peers:
        peer.close()


def main() -> None:
    port, page, gate = int(sys.argv[1]), sys.argv[2], sys.argv[3]
    reader(port, page, gate)
    kinds = [
        threading.Thread(target=heads, args=(port, gate, lambda peer: peer.sendall(b"G"), "heads of a byte a second")),
        threading.Thread(target=heads, args=(port, gate, lambda peer: None, "silent clients")),
    ]
    for kind in kinds:
        kind.start()
    for kind in kinds:
        kind.join()


main()
