"""What outlives a holder: descriptors that systemd keeps (sd_pid_notify_with_fds(3)), or that the process which it
becomes has."""
from __future__ import annotations

import array
import fcntl
import os
import select
import signal
import socket
import sys
import time
from typing import Mapping, NoReturn

from .loop import CAUGHT
from .note import HolderNote, Identity, note_in

FIRST, APART = 3, 400       # the first descriptor that systemd gives; where they are put
GRACE, HEARD, SOON = 5.0, 1.0, 0.01     # seconds for systemd at the end, and before that; between two tries
HELD = 'E1GW_HELD'          # what the process has that became this one


class Store:
    """systemd, if it listens, and what it keeps. `files` were given to this process, until they are taken; `was` is
    what the process has noted that became this one. Nothing here waits but `forget`."""

    def __init__(self) -> None:
        self._path = os.environ.get('NOTIFY_SOCKET', '').replace('@', '\0', 1)
        self._line = socket.socket(socket.AF_UNIX, socket.SOCK_DGRAM)
        self._line.setblocking(False)
        self._kept, self._wanted = dict[str, Identity](), dict[str, tuple[int, Identity]]()
        self.lags, self._pending = False, list[str]()       # something was not taken; what is to be told
        self.files, self.was = self._given()

    def _given(self) -> tuple[dict[str, int], HolderNote | None]:
        if text := os.environ.pop(HELD, ''):
            was = note_in(text)
            for file in was.files.values():
                os.set_inheritable(file, False)
            self._kept = {**was.kept}
            return {**was.files}, was
        count, pid = int(os.environ.pop('LISTEN_FDS', '0')), os.environ.pop('LISTEN_PID', '')
        names, files = os.environ.pop('LISTEN_FDNAMES', '').split(':'), dict[str, int]()
        if pid == str(os.getpid()):
            for number, name in enumerate(names[:count], FIRST):
                files[name] = fcntl.fcntl(number, fcntl.F_DUPFD_CLOEXEC, APART)
                os.close(number)
        self._kept = {name: known for name, file in files.items() if (known := identity(file))}
        return files, None

    @property
    def has_manager(self) -> bool:
        """Whether systemd listens, which begins another holder if this one ends."""
        return bool(self._path)

    def send_message(self, *lines: str, file: int = -1) -> bool:
        """Whether it was taken, or nobody listens. (systemd lets ten messages wait.)"""
        if not self._path:
            return True
        rights = [(socket.SOL_SOCKET, socket.SCM_RIGHTS, array.array('i', [file]))] if file >= 0 else []
        try:
            self._line.sendmsg(['\n'.join(lines).encode()], rights, 0, self._path)
        except (FileNotFoundError, ConnectionRefusedError):
            return True
        except OSError:
            return False
        return True

    def notify(self, *lines: str) -> None:
        """Tells what has to be told, in this order."""
        self._pending.append('\n'.join(lines))
        self.send()

    def keep(self, files: Mapping[str, int]) -> None:
        """These are to be kept from now on, and no others, the first of them first."""
        self._wanted = {name: (file, known) for name, file in files.items() if (known := identity(file))}
        self.send()

    def send(self) -> None:
        """Tells what was not taken yet. To be called at each turn."""
        self.lags = not self._is_sent()

    def _is_sent(self) -> bool:
        while self._pending:
            if not self.send_message(self._pending[0]):
                return False
            self._pending.pop(0)
        its = self._wanted if self._path else {}
        for name in [name for name, known in self._kept.items() if name not in its or its[name][1] != known]:
            if not self.send_message('FDSTOREREMOVE=1', f'FDNAME={name}'):
                return False
            del self._kept[name]
        for name, (file, known) in its.items():
            if name in self._kept or identity(file) != known:       # (one that is closed is soon kept no more)
                continue
            if not self.send_message('FDSTORE=1', f'FDNAME={name}', 'FDPOLL=0', file=file):
                return False
            self._kept[name] = known
        return True

    def forget(self) -> None:
        """Nothing is kept any more: the trunk has ended. What systemd has no room for waits, GRACE at most."""
        self.keep({})
        until = time.monotonic() + GRACE
        while self.lags and time.monotonic() < until:
            time.sleep(SOON)
            self.send()

    def wait_until_closed(self) -> None:
        """systemd has closed what it is no longer to keep (sd_notify_barrier(3)), unless that takes too long."""
        (reads, writes), until = os.pipe(), time.monotonic() + HEARD
        while (self.lags or not self.send_message('BARRIER=1', file=writes)) and time.monotonic() < until:
            time.sleep(SOON)
            self.send()
        os.close(writes)
        select.select([reads], [], [], max(0.0, until - time.monotonic()) if self.has_manager else 0.0)
        os.close(reads)

    def become_next(self, files: Mapping[str, int], note: HolderNote) -> NoReturn:
        """Becomes another process of the same command line, which has the same child and descriptors. OSError if that
        cannot be."""
        for file in files.values():
            os.set_inheritable(file, True)
        signal.pthread_sigmask(signal.SIG_BLOCK, CAUGHT)
        os.environ[HELD] = note._replace(files=files, kept=self._kept).spell()
        try:
            os.execv(sys.executable, [sys.executable, *sys.orig_argv[1:]])
        finally:                            # (it has failed)
            os.environ.pop(HELD)
            signal.pthread_sigmask(signal.SIG_UNBLOCK, CAUGHT)
            for file in files.values():
                os.set_inheritable(file, False)


def identity(file: int) -> Identity | None:
    """By which a file is known again; None if it is closed."""
    try:
        about = os.fstat(file)
    except OSError:
        return None
    return about.st_dev, about.st_ino
