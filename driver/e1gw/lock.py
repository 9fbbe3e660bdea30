"""A file that one process has locked, and that names it: nothing takes it from a process that lives."""
from __future__ import annotations

import fcntl
import os
from contextlib import suppress


class InUse(Exception):
    """Another process has it. The words are its number."""


def take_lock(path: str) -> int:
    """The descriptor of the file, which is locked as long as that is open. InUse says who has it."""
    while True:
        file = os.open(path, os.O_RDWR | os.O_CREAT | os.O_CLOEXEC, 0o600)
        try:
            fcntl.flock(file, fcntl.LOCK_EX | fcntl.LOCK_NB)
        except BlockingIOError:
            pid = os.pread(file, 32, 0).decode(errors='replace') or '?'
            os.close(file)
            raise InUse(pid) from None
        if is_at(file, path):
            break
        os.close(file)                      # (one that ended has removed it meanwhile)
    with suppress(OSError):                 # (without room nobody knows who has it)
        os.ftruncate(file, 0)
        os.pwrite(file, str(os.getpid()).encode(), 0)
    return file


def is_at(file: int, path: str) -> bool:
    """Whether a path leads to this file."""
    try:
        return os.path.samestat(os.stat(path), os.fstat(file))
    except OSError:
        return False


def release_lock(file: int, path: str) -> None:
    """Removes it: the next holder makes another one."""
    if is_at(file, path):
        os.unlink(path)
    os.close(file)
