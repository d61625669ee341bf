"""Says to systemd that the service is up (sd_notify(3)). Without systemd nothing happens."""

from __future__ import annotations

import os
import socket


def say_ready(status: str) -> None:
    address = os.environ.get("NOTIFY_SOCKET", "")
    if not address.startswith(("/", "@")):
        return
    try:
        with socket.socket(socket.AF_UNIX, socket.SOCK_DGRAM | socket.SOCK_CLOEXEC) as out:
            out.sendto(f"READY=1\nSTATUS={status}".encode(), address.replace("@", "\0", 1) if address.startswith("@") else address)
    except OSError:
        pass
