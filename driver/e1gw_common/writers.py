"""What is written: whole, in its place at once, behind what a file has, and to none of the first three by mistake."""
from __future__ import annotations

import errno
import os
import sys
import time
from contextlib import suppress

OPENS = 2.0                 # seconds in which somebody reads a FIFO


def write_all(file: int, octets: bytes) -> None:
    """Writes to a descriptor, also to one that somebody has made non-blocking."""
    while octets:
        try:
            octets = octets[os.write(file, octets):]
        except BlockingIOError:
            time.sleep(0.02)


def append_line(file: int, line: str) -> None:
    """Appends a line to a file, or nothing of it. OSError if it cannot be."""
    length = os.fstat(file).st_size
    try:
        write_all(file, f'{line}\n'.encode())
    except OSError:
        with suppress(OSError):         # (a FIFO has no length)
            os.ftruncate(file, length)
        raise


def write_at(file: int, octets: bytes, place: int) -> None:
    """Writes at a place of a file."""
    while octets:
        count = os.pwrite(file, octets, place)
        octets, place = octets[count:], place + count


def put_file(path: str, octets: bytes, mode: int = 0o644, part: str = '.new', is_synced: bool = False) -> None:
    """Puts a file in its place at once: a reader sees the old one or the new one, whole; if it `is_synced` also after
    the machine has died. `part` is behind its name before that."""
    with open(os.open(f'{path}{part}', os.O_WRONLY | os.O_CREAT | os.O_TRUNC | os.O_CLOEXEC, mode), 'wb') as file:
        os.fchmod(file.fileno(), mode)
        file.write(octets)
        file.flush()
        if is_synced:
            os.fsync(file.fileno())
    os.replace(f'{path}{part}', path)


def open_to_append(path: str, waits: bool = True) -> int:
    """Opens a file behind what it has; a FIFO that nobody reads may be waited for OPENS."""
    until = time.monotonic() + OPENS * waits
    while True:
        try:
            flags = os.O_WRONLY | os.O_CREAT | os.O_APPEND | os.O_CLOEXEC | os.O_NOCTTY | os.O_NONBLOCK
            file = os.open(path, flags, 0o640)
        except OSError as fault:
            if fault.errno != errno.ENXIO:
                raise
            if time.monotonic() >= until:
                raise OSError(errno.ENXIO, 'nobody reads it') from None
            time.sleep(0.05)
        else:
            os.set_blocking(file, True)
            return file


def hold_descriptors() -> None:
    """Opens /dev/null as each of the descriptors 0 to 2 that is closed, also for what this process starts, so that
    nothing else becomes one of them."""
    for file in range(3):
        try:
            os.fstat(file)
        except OSError:
            os.set_inheritable(os.open(os.devnull, os.O_RDWR), True)
    for name, file, mode in (('stdin', 0, 'r'), ('stdout', 1, 'w'), ('stderr', 2, 'w')):
        if getattr(sys, name) is None:
            setattr(sys, name, open(file, mode, closefd=False))     # noqa: SIM115
