"""Systemd played for one service: a socket that takes what it tells, and keeps its descriptors for the next start."""
from __future__ import annotations

import array
import fcntl
import os
import socket
import subprocess
import sys
import threading

from . import support

MARK = b'all of this'
APART = 300                 # descriptors that a service is given have numbers from here on before it starts


class Manager:
    """What systemd does for a service: it keeps descriptors by their names, and gives them to the next start."""

    def __init__(self, path: str) -> None:
        self.path, self.files = path, dict[str, int]()
        self.line = socket.socket(socket.AF_UNIX, socket.SOCK_DGRAM)
        self.line.bind(path)
        self._told = list[str]()
        self._marks = 0
        self._taker = threading.Thread(target=self._take, daemon=True)
        self._taker.start()

    def _take(self) -> None:
        while True:
            try:
                text, rights, _, _ = self.line.recvmsg(4096, socket.CMSG_SPACE(16))
            except OSError:
                return
            if not text:                    # the socket is shut down
                return
            if text == MARK:
                self._marks += 1
                continue
            words = dict(line.split('=', 1) for line in text.decode().split('\n'))
            self._told += text.decode().split('\n')
            if 'FDSTORE' in words:
                (file,) = array.array('i', rights[0][2])
                os.set_inheritable(file, False)
                self._keep(words['FDNAME'], file)
            elif 'BARRIER' in words:
                (file,) = array.array('i', rights[0][2])
                os.close(file)
            elif 'FDSTOREREMOVE' in words:
                if words['FDNAME'] in self.files:
                    os.close(self.files.pop(words['FDNAME']))

    def _keep(self, name: str, file: int) -> None:
        """One that is there already, by whichever name, is not kept again."""
        if any(os.path.sameopenfile(file, its) for its in self.files.values()):
            os.close(file)
        else:
            self.files[name] = file

    def read_lines(self) -> list[str]:
        """The lines of all that was told up to now."""
        self.take_all()
        return self._told

    def take_all(self) -> None:
        """Returns once all is taken that was told before, as systemd does before it starts a service again."""
        marks = self._marks
        with socket.socket(socket.AF_UNIX, socket.SOCK_DGRAM) as line:
            line.sendto(MARK, self.path)
        support.until(lambda: self._marks > marks)

    def starts(self, words: list[str], told: int) -> subprocess.Popen[bytes]:
        """Starts the service with what is kept, from descriptor 3 on."""
        self.take_all()
        script = ('import os, sys\n'
                  'os.environ["LISTEN_PID"] = str(os.getpid())\n'
                  'os.execv(sys.argv[1], sys.argv[1:])\n')
        held = [fcntl.fcntl(file, fcntl.F_DUPFD_CLOEXEC, APART) for file in self.files.values()]

        def give() -> None:
            for place, file in enumerate(held):
                os.dup2(file, 3 + place, inheritable=True)
        around = {'LISTEN_FDS': str(len(held)), 'LISTEN_FDNAMES': ':'.join(self.files)} if held else {}
        try:
            return subprocess.Popen([sys.executable, '-c', script, *words], stderr=told, stdin=subprocess.DEVNULL,
                                    env={**os.environ, 'NOTIFY_SOCKET': self.path, **around}, close_fds=False,
                                    preexec_fn=give)
        finally:
            for file in held:
                os.close(file)

    def drop(self, name: str) -> None:
        """One of them is not kept."""
        os.close(self.files.pop(name))

    def forget(self) -> None:
        """Nothing is kept of what was told before."""
        self.take_all()
        while self.files:
            os.close(self.files.popitem()[1])

    def close(self) -> None:
        self.line.shutdown(socket.SHUT_RDWR)
        self._taker.join()                  # (else it could read from a later file with this number)
        self.line.close()
        for file in self.files.values():
            os.close(file)
