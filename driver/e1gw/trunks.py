"""Trunks: what gives 2048 kbit/s as octets and takes as many. A device, a file, a FIFO, a pseudo-terminal, a socket."""
from __future__ import annotations

import os
import socket
import tty

from e1gw_common.fault_words import named


class Stream:
    """A trunk that is read and written by one descriptor or two, on which nothing waits. `name` is where it is: a path,
    or an address."""

    def __init__(self, reads: int, writes: int, name: str) -> None:
        self.reads, self.writes, self.name = reads, writes, name
        for file in {reads, writes}:
            if os.isatty(file):
                tty.setraw(file)
            os.set_blocking(file, False)

    def close(self) -> None:
        for file in {self.reads, self.writes}:
            os.close(file)


def open_files(reads: str, writes: str) -> Stream:
    """A device, files or FIFOs; both may be one. Waits for the other end of a FIFO."""
    if os.path.exists(writes) and os.path.samefile(reads, writes):
        file = os.open(reads, os.O_RDWR | os.O_NOCTTY)
        return Stream(file, file, reads)
    first = os.open(reads, os.O_RDONLY | os.O_NOCTTY)
    try:
        second = os.open(writes, os.O_WRONLY | os.O_CREAT | os.O_TRUNC | os.O_NOCTTY, 0o666)
    except OSError:
        os.close(first)
        raise
    return Stream(first, second, f'{reads} {writes}')


def open_unix(path: str) -> Stream:
    """A Unix stream socket, to which it connects."""
    line = socket.socket(socket.AF_UNIX)
    try:
        line.connect(path)
    except OSError as fault:
        line.close()
        raise named(fault, path) from None
    file = line.detach()
    return Stream(file, file, path)


def open_tcp(host: str, port: int) -> Stream:
    """A TCP socket, to which it connects."""
    try:
        line = socket.create_connection((host, port), timeout=10)
    except OSError as fault:
        raise named(fault, f'{host}:{port}') from None
    line.settimeout(None)
    line.setsockopt(socket.IPPROTO_TCP, socket.TCP_NODELAY, 1)
    file = line.detach()
    return Stream(file, file, f'{host}:{port}')
