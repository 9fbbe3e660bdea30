"""The log of a trunk, which its programs write and read. Here its four files are held, so that its folder may vanish;
nothing of them is understood."""
from __future__ import annotations

import fcntl
import os
import time
from contextlib import suppress

NAME, LOCK = 'log-', 'lock'
FILES = 'state.0', 'state.1', 'records.0', 'records.1'
CHUNK = 1 << 20


class HeldLog:
    """The files of a log, open."""

    def __init__(self, given: dict[str, int]) -> None:
        """It takes its own from those of the holder before this one, `given` by their names."""
        self._files = {name: given.pop(NAME + name) for name in FILES if NAME + name in given}
        if len(self._files) < len(FILES):
            self.close()

    @property
    def files(self) -> dict[str, int]:
        """Their descriptors by names."""
        return {NAME + name: file for name, file in self._files.items()}

    def are_in(self, folder: str) -> bool:
        """Whether a folder has these files."""
        try:
            return bool(self._files) and all(os.path.samestat(os.stat(f'{folder}/{name}'), os.fstat(file))
                                             for name, file in self._files.items())
        except OSError:
            return False

    def hold(self, folder: str) -> None:
        """Holds those of a folder, all of one: another may take its place meanwhile. OSError if one is not there."""
        if self.are_in(folder):
            return
        self.close()
        place = os.open(folder, os.O_RDONLY | os.O_DIRECTORY | os.O_CLOEXEC)
        try:
            for name in FILES:
                self._files[name] = os.open(name, os.O_RDONLY | os.O_CLOEXEC, dir_fd=place)
        except OSError:
            self.close()
            raise
        finally:
            os.close(place)

    def close(self) -> None:
        while self._files:
            os.close(self._files.popitem()[1])

    def put_back(self, folder: str) -> bool:
        """Has a folder have them again, if it has them no more: copies, which are held in their place (a program writes
        there, and may end before it is known to be up). Whether it was done. OSError if it cannot be: then it has all
        of them, or none."""
        if not self._files or self.are_in(folder):
            return False
        remove(new := f'{folder}.new')
        os.mkdir(new, 0o700)
        try:
            for name, file in self._files.items():
                copy(file, f'{new}/{name}')
            copies = HeldLog({})
            copies.hold(new)
        except OSError:
            remove(new)                     # (what is full stays so else)
            raise
        remove(folder)
        os.rename(new, folder)
        self.close()
        self._files = copies._files
        return True


def copy(file: int, path: str) -> None:
    """A copy of a file."""
    with open(os.open(path, os.O_WRONLY | os.O_CREAT | os.O_CLOEXEC, 0o640), 'wb') as its:
        place = 0
        while octets := os.pread(file, CHUNK, place):
            its.write(octets)
            place += len(octets)


def remove(folder: str) -> None:
    """Removes a folder of files, if it is there."""
    with suppress(OSError):
        for name in os.listdir(folder):
            os.unlink(f'{folder}/{name}')
        os.rmdir(folder)


def rename_over(folder: str, other: str) -> None:
    """A folder of files, if it is there, takes the place of another one."""
    if os.path.isdir(folder):
        remove(other)
        os.rename(folder, other)


def is_there(folder: str) -> bool:
    """Whether a folder has a log."""
    return os.path.exists(f'{folder}/{FILES[0]}')


def silence_of(folder: str) -> float:
    """The seconds since a log was written; 0 if that is not known."""
    with suppress(OSError, ValueError), os.scandir(folder) as files:
        return max(0.0, time.time() - max(file.stat().st_mtime for file in files))
    return 0.0


def process_that_locks(folder: str) -> int:
    """The number of the process that has a log locked: 0 if none has, -1 if it is not seen from here."""
    try:
        file = os.open(f'{folder}/{LOCK}', os.O_RDONLY | os.O_CLOEXEC)
    except OSError:
        return 0
    try:
        fcntl.flock(file, fcntl.LOCK_EX | fcntl.LOCK_NB)
        return 0
    except BlockingIOError:
        return locker_of(file)
    finally:
        os.close(file)


def locker_of(file: int) -> int:
    """The process that has locked a file, by proc(5). (What the file says may be of one that has ended.)"""
    inode = f':{os.fstat(file).st_ino}'
    with suppress(OSError), open('/proc/locks', encoding='ascii') as locks:
        for row in map(str.split, locks):
            if row[1] == 'FLOCK' and row[5].endswith(inode) and int(row[4]) > 0:
                return int(row[4])
    return -1


def has_log(pid: int, folder: str) -> bool:
    """Whether a process is a program that was started on a log."""
    with suppress(OSError), open(f'/proc/{pid}/cmdline', 'rb') as file:
        words = file.read().split(b'\0')
        return b'trunk' in words and os.fsencode(folder) in words
    return False
