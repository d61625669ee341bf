#!/usr/bin/env python3
"""Asks a publisher of examples/tiny, by Python's http.client and by bytes on a socket. Prints `ok: ..` or `FAILED: ..` for each check.

    http_client.py PORT MESSAGE

The publisher takes messages, and MESSAGE is one that it has not admitted. The checks make seven connections and get 208 replies.
"""

from __future__ import annotations

import http.client
import json
import socket
import sys
from typing import BinaryIO

PORT = int(sys.argv[1])
STOPS = b"GET /stops HTTP/1.1\r\nHost: localhost\r\n\r\n"


def say(holds: bool, name: str) -> None:
    print(("ok: " if holds else "FAILED: ") + name, flush=True)


def connection() -> tuple[socket.socket, BinaryIO]:
    peer = socket.create_connection(("127.0.0.1", PORT), timeout=30)
    return peer, peer.makefile("rb")


def reply(stream: BinaryIO) -> tuple[int, bytes] | None:
    """The status and the body of the next reply, or None where the connection has ended."""
    head = stream.readline()
    if not head:
        return None
    length = 0
    while (line := stream.readline()) not in (b"\r\n", b""):
        name, value = line.split(b":", 1)
        if name.lower() == b"content-length":
            length = int(value)
    return int(head.split()[1]), stream.read(length)


def status(stream: BinaryIO) -> int | None:
    """The status of the next reply, or None where the connection has ended."""
    found = reply(stream)
    return None if found is None else found[0]


def keep_alive() -> None:
    """A hundred requests on one connection, which then ends."""
    peer = http.client.HTTPConnection("127.0.0.1", PORT, timeout=30)
    statuses = set()
    for _ in range(100):
        peer.request("GET", "/stops")
        answer = peer.getresponse()
        statuses.add(answer.status)
        json.loads(answer.read())
    say(statuses == {200}, "http.client: 100 requests on one connection")
    say(peer.sock.recv(1) == b"", "http.client: which then ends")
    peer.close()


def messages() -> None:
    peer = http.client.HTTPConnection("127.0.0.1", PORT, timeout=30)
    with open(sys.argv[2], "rb") as file:
        message = file.read()
    found = []
    for _ in range(2):
        peer.request("POST", "/updates", body=message)
        answer = peer.getresponse()
        answer.read()
        found.append(answer.status)
    say(found == [204, 409], "http.client: a message, and the same again, on one connection")
    peer.request("HEAD", "/stops")
    answer = peer.getresponse()
    say(answer.status == 200 and answer.read() == b"", "http.client: HEAD behind them")
    peer.close()


def pipelined() -> None:
    """A hundred and one requests in one piece: a hundred replies in their order."""
    peer, stream = connection()
    other = b"GET /none HTTP/1.1\r\nHost: localhost\r\n\r\n"
    peer.sendall((STOPS + other) * 50 + STOPS)
    statuses = [status(stream) for _ in range(100)]
    say(statuses == [200, 404] * 50, "socket: 100 of 101 pipelined requests are answered in order")
    say(reply(stream) is None, "socket: and the connection ends")
    peer.close()


def byte_by_byte() -> None:
    peer, stream = connection()
    peer.setsockopt(socket.IPPROTO_TCP, socket.TCP_NODELAY, 1)
    for byte in STOPS * 2:
        peer.sendall(bytes([byte]))
    say([status(stream) for _ in range(2)] == [200, 200], "socket: two requests byte by byte")
    peer.shutdown(socket.SHUT_WR)
    say(reply(stream) is None, "socket: the end of the input ends the connection")
    peer.close()


def half_closed() -> None:
    peer, stream = connection()
    peer.sendall(STOPS)
    peer.shutdown(socket.SHUT_WR)
    say(status(stream) == 200 and reply(stream) is None, "socket: a client that has ended its side is answered")
    peer.close()


def old_version() -> None:
    """HTTP/1.0 needs no Host, and its connection ends after the reply."""
    peer, stream = connection()
    peer.sendall(b"GET /stops HTTP/1.0\r\n\r\n" + STOPS)
    say(status(stream) == 200 and reply(stream) is None, "socket: HTTP/1.0")
    peer.close()


def refused() -> None:
    """A client that sends a whole body before it reads gets the refusal of its head, and no broken pipe."""
    peer = http.client.HTTPConnection("127.0.0.1", PORT, timeout=30)
    try:
        peer.request("POST", "/updates", body=bytes(17_000_000))
        say(peer.getresponse().status == 413, "http.client: a message that is too long")
    except OSError as error:
        say(False, f"http.client: a message that is too long: {error}")
    peer.close()


for check in (keep_alive, messages, pipelined, byte_by_byte, half_closed, old_version, refused):
    try:
        check()
    except (OSError, TypeError, ValueError, http.client.HTTPException) as error:
        say(False, f"{check.__name__}: {error!r}")
