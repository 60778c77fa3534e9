#!/usr/bin/env python3
"""Carries octets over TCP, in place of `ssh`: `carry.py HOST PORT` between the standard streams and a connection;
`carry.py --listen HOST PORT SOCKET` between connections and a Unix socket."""
from __future__ import annotations

import os
import socket
import sys
import threading
from collections.abc import Callable


def pump(read: Callable[[], bytes], write: Callable[[bytes], object], end: Callable[[], None]) -> None:
    """Carries one direction, to its end."""
    try:
        while octets := read():
            write(octets)
    except OSError:
        pass
    end()


def join(one: socket.socket, other: socket.socket) -> None:
    """Carries between two connections, until one of them ends."""

    def end() -> None:
        for it in (one, other):
            try:
                it.shutdown(socket.SHUT_RDWR)
            except OSError:
                pass

    for a, b in ((one, other), (other, one)):
        threading.Thread(target=pump, args=(lambda a=a: a.recv(1 << 16), b.sendall, end), daemon=True).start()


def listen(host: str, port: int, path: str) -> None:
    listener = socket.create_server((host, port))
    while True:
        peer, _ = listener.accept()
        peer.setsockopt(socket.IPPROTO_TCP, socket.TCP_NODELAY, 1)
        door = socket.socket(socket.AF_UNIX)
        try:
            door.connect(path)
        except OSError:
            peer.close()
            continue
        join(peer, door)


def connect(host: str, port: int) -> None:
    peer = socket.create_connection((host, port), timeout=2)
    peer.settimeout(None)
    peer.setsockopt(socket.IPPROTO_TCP, socket.TCP_NODELAY, 1)
    words = (lambda: os.read(0, 1 << 16), peer.sendall, lambda: os._exit(0))
    threading.Thread(target=pump, args=words, daemon=True).start()
    pump(lambda: peer.recv(1 << 16), lambda octets: os.write(1, octets), lambda: os._exit(1))


if sys.argv[1] == "--listen":
    listen(sys.argv[2], int(sys.argv[3]), sys.argv[4])
else:
    connect(sys.argv[1], int(sys.argv[2]))
