#!/usr/bin/env python3
"""Peers that hold a publisher up, or try to: after each the next client is answered. Prints `ok: ..` or `FAILED: ..` for each check.

    hostile.py FEED

LC is the program, and FEED a feed whose timetable is a page of some megabytes. Each peer has a server of its own, and all run at once, for
some 70 seconds.
"""

from __future__ import annotations

import os
import socket
import struct
import subprocess
import sys
import threading
import time
from collections.abc import Callable

FEED = sys.argv[1]
LOCK = threading.Lock()


def say(holds: bool, name: str) -> None:
    with LOCK:
        print(("ok: " if holds else "FAILED: ") + name, flush=True)


class Server:
    """A publisher of one page at a free port."""

    def __init__(self) -> None:
        with socket.socket() as free:
            free.bind(("127.0.0.1", 0))
            self.port = free.getsockname()[1]
        words = ["serve", FEED, "20240501", "--port", str(self.port), "--connections", "1000000", "--cuts", "whole"]
        self.process = subprocess.Popen([os.environ["LC"], *words], stdout=subprocess.PIPE, stderr=subprocess.STDOUT, text=True)
        assert self.process.stdout is not None
        self.said = self.process.stdout.readline()

    def connect(self) -> socket.socket:
        return socket.create_connection(("127.0.0.1", self.port), timeout=100)

    def is_answering(self) -> bool:
        """Whether a further client is answered."""
        with self.connect() as peer:
            return answered(peer)

    def runs(self) -> bool:
        return self.process.poll() is None

    def stop(self) -> None:
        self.process.kill()
        self.process.wait()


def answered(peer: socket.socket) -> bool:
    peer.sendall(b"GET /stops HTTP/1.1\r\nHost: localhost\r\nConnection: close\r\n\r\n")
    reply = b""
    while piece := peer.recv(65536):
        reply += piece
    return reply.startswith(b"HTTP/1.1 200 OK\r\n")


def page() -> bytes:
    return b"GET /memento/connections?version=1970-01-01T00:00:00Z&departureTime=2024-05-01T00:00:00Z HTTP/1.1\r\nHost: x\r\n\r\n"


def reset(peer: socket.socket) -> None:
    peer.setsockopt(socket.SOL_SOCKET, socket.SO_LINGER, struct.pack("ii", 1, 0))
    peer.close()


def silent(server: Server) -> list[socket.socket]:
    return [server.connect()]


def drip(server: Server) -> list[socket.socket]:
    """A byte a second."""
    peer = server.connect()

    def send() -> None:
        try:
            for byte in STREAM:
                peer.sendall(bytes([byte]))
                time.sleep(1)
        except OSError:
            pass

    threading.Thread(target=send, daemon=True).start()
    time.sleep(0.5)
    return [peer]


STREAM = b"GET /stops HTTP/1.1\r\nHost: localhost\r\nX-Long: " + b"x" * 1000


def reads_nothing(server: Server) -> list[socket.socket]:
    """Asks for more than any buffer takes, and reads nothing."""
    peer = server.connect()
    peer.sendall(page() * 2)
    time.sleep(0.5)
    return [peer]


def resets_in_mid_reply(server: Server) -> list[socket.socket]:
    peer = server.connect()
    peer.sendall(page() * 2)
    peer.recv(1000)
    reset(peer)
    return []


def goes_away(server: Server) -> list[socket.socket]:
    """Closes with a reply on its way."""
    peer = server.connect()
    peer.sendall(page() * 2)
    peer.recv(1000)
    peer.close()
    return []


def resets_at_once(server: Server) -> list[socket.socket]:
    for _ in range(20):
        reset(server.connect())
    return []


def floods(server: Server) -> list[socket.socket]:
    """Sends what is no request, without an end."""
    peer = server.connect()

    def send() -> None:
        try:
            while True:
                peer.sendall(b"x" * 65536)
        except OSError:
            pass

    threading.Thread(target=send, daemon=True).start()
    time.sleep(0.5)
    return [peer]


def meet(name: str, limit: int, attack: Callable[[Server], list[socket.socket]]) -> None:
    server = Server()
    start = time.monotonic()
    try:
        peers = attack(server)
        holds = server.is_answering() and server.runs()
        took = time.monotonic() - start
        say(holds and took < limit, f"{name}: the next client is answered, within {limit} seconds")
        for peer in peers:
            peer.close()
    except OSError as error:
        say(False, f"{name}: {error} after {time.monotonic() - start:.0f} seconds")
    server.stop()


def crowd() -> None:
    """200 connections at once: each is answered."""
    server = Server()
    counts: list[bool] = []

    def ask() -> None:
        try:
            with server.connect() as peer:
                counts.append(answered(peer))
        except OSError:
            counts.append(False)

    threads = [threading.Thread(target=ask) for _ in range(200)]
    for thread in threads:
        thread.start()
    for thread in threads:
        thread.join()
    say(counts.count(True) == 200, f"200 connections at once: {counts.count(True)} are answered")
    server.stop()


ATTACKS = [
    ("a peer that sends nothing", 20, silent),
    ("a byte a second", 90, drip),
    ("a peer that reads nothing of a large page", 90, reads_nothing),
    ("a reset in mid-reply", 20, resets_in_mid_reply),
    ("a peer that goes away", 20, goes_away),
    ("twenty resets at once", 20, resets_at_once),
    ("a flood", 20, floods),
]

threads = [threading.Thread(target=meet, args=attack) for attack in ATTACKS] + [threading.Thread(target=crowd)]
for thread in threads:
    thread.start()
for thread in threads:
    thread.join()
