"""One `e1gw trunk`: a child of this process, on a leash. However this process ends, the leash is closed, and the
program ends behind what it has in hand; so nobody ever finds one that is nobody's."""
from __future__ import annotations

import os
import re
import select
import signal
import socket
import struct
from contextlib import suppress
from math import inf
from typing import Callable, Iterable, NamedTuple, Sequence

from e1gw_common.writers import put_file
from ..holder_state import fields_of
from ..memory import in_memory
from .decisions import EndFault
from .loop import Loop

NO_RECORD = bytes(4)        # the program closes the connection for that, and logs nothing
MOST_SAID = 1 << 20         # octets of what it says that are kept
LAST = 65_536               # .. of which so many are looked at
FAULTS = ((r'fault [56] ', EndFault.TRUNK), (r'.*\blog\b.* has no state|state \d', EndFault.LOG_LOST),
          (r'cannot (open|write) the log\b', EndFault.LOG_WRITE))
CRASHES = signal.SIGSEGV, signal.SIGBUS, signal.SIGABRT, signal.SIGILL, signal.SIGFPE, signal.SIGTRAP, signal.SIGSYS


class ProgramWants(NamedTuple):
    """What a program is started with: files, the ends of the line, the circuits' sockets, and words."""

    program: int
    config: str
    folder: str
    line: tuple[int, int]
    sockets: Sequence[int]
    said: int
    words: Sequence[str]

    def command_line(self, config: int, end: int) -> list[str]:
        sockets = ['--sockets', f'{self.sockets[0]}-{self.sockets[-1]}'] if self.sockets else []
        return ['e1gw', 'trunk', '--config', f'/dev/fd/{config}', '--log', f'{self.folder}/log', '--tell',
                f'{self.folder}/tell', '--control', f'{self.folder}/program', '--end', str(end), *sockets, '--totals',
                *self.words]


class Child:
    """A process that this one has started. `ends` is called once it has ended, until its status is taken."""

    def __init__(self, pid: int, loop: Loop, ends: Callable[[], object] = lambda: None) -> None:
        """OSError if nobody can wait for its end: then it is ended, too."""
        self.pid, self._loop = pid, loop
        try:
            self._file = os.pidfd_open(pid)
        except OSError:
            self.kill()
            os.waitpid(pid, 0)
            raise
        loop.watch(self._file, ends)

    def kill(self) -> None:
        os.kill(self.pid, signal.SIGKILL)       # (its number is no other's before its status was taken)

    def is_stopped(self) -> bool:
        """Whether a signal has stopped it."""
        return fields_of(self.pid)[:1] == ['T']

    def exit_status(self) -> int | None:
        """Its status once it has ended, negative for a signal. To be called no more then."""
        pid, status = os.waitpid(self.pid, os.WNOHANG)
        if not pid:
            return None
        self._loop.unwatch(self._file)
        os.close(self._file)
        return os.waitstatus_to_exitcode(status)


class HeldProgram(Child):
    """One that runs. `deadline` is until when it is to carry the trunk."""

    def __init__(self, pid: int, loop: Loop, leash: int, said: int, deadline: float = inf) -> None:
        super().__init__(pid, loop)
        self.leash, self.said, self.deadline, self.is_up = leash, said, deadline, deadline == inf
        self.asked: float | None = None         # when it was asked to end
        self.hangs = False
        self._lines: tuple[socket.socket, socket.socket] | None = None

    # ---- its beginning ----

    @classmethod
    def started(cls, wants: ProgramWants, loop: Loop, deadline: float) -> HeldProgram:
        """OSError if it cannot be started."""
        end, leash = os.pipe()
        opened = [end]
        try:
            opened.append(config := in_memory(wants.config.encode()))
            program = executable(wants.program)
            opened += [program] * (program != wants.program)
            passed = end, config, program, *wants.sockets
            files = *zip((*wants.line, wants.said), range(3)), *zip(passed, passed)
            return cls(spawned(f'/proc/self/fd/{program}', wants.command_line(config, end), files), loop, leash,
                       wants.said, deadline)
        except OSError:
            os.close(leash)
            raise
        finally:
            for file in opened:
                os.close(file)

    def is_answering(self, control: str) -> bool:
        """Whether it, and no other process, answers at its control socket: it closes a connection that gives no record,
        and not the one before that, as it does at its end."""
        if self._lines is None:
            with suppress(OSError):
                self._lines = connected(control, self.pid), connected(control, self.pid)
                self._lines[1].send(NO_RECORD)
        if self._lines and is_closed(self._lines[1]):
            self.is_up = not is_closed(self._lines[0])
            self._hang_up()
        return self.is_up

    def _hang_up(self) -> None:
        for each in self._lines or ():
            each.close()
        self._lines = None

    # ---- its end ----

    def ask(self, now: float) -> None:
        """Asks it to end behind what it has read."""
        self.asked = self.asked or now
        if self.leash >= 0:
            os.close(self.leash)
            self.leash = -1

    def kill(self) -> None:
        """It hangs."""
        self.hangs = True
        super().kill()

    def lines(self) -> list[str]:
        """The last that it has said."""
        size = os.fstat(self.said).st_size
        return os.pread(self.said, LAST, max(0, size - LAST)).decode(errors='replace').splitlines()

    def forget_lines(self) -> None:
        """Gives back what it has said, if that is much."""
        if os.fstat(self.said).st_size > MOST_SAID:
            os.ftruncate(self.said, 0)

    def close(self) -> None:
        self._hang_up()
        for file in (self.leash, self.said):
            if file >= 0:
                os.close(file)


def spawned(program: str, words: list[str], files: Iterable[tuple[int, int]]) -> int:
    """The number of a process that was started, with these descriptors as those of these numbers. OSError if it cannot
    be."""
    return os.posix_spawn(program, words, os.environ, setsid=True, setsigmask=[], setsigdef=[signal.SIGPIPE],
                          file_actions=[(os.POSIX_SPAWN_DUP2, file, number) for file, number in files])


def open_said(path: str) -> int:
    """A new file for what a process says: there, or in memory if there is no room."""
    try:
        put_file(path, b'', 0o640)
        return os.open(path, os.O_RDWR | os.O_APPEND | os.O_CLOEXEC)
    except OSError:
        return os.memfd_create('e1gw-said')


def executable(program: int) -> int:
    """This file, or a copy if its rights no longer let it be executed: it was tried."""
    if os.access(f'/proc/self/fd/{program}', os.X_OK):
        return program
    return in_memory(os.pread(program, os.fstat(program).st_size, 0))


# ---- what it says ----

def counted_octets(lines: Sequence[str]) -> int | None:
    """The octets that it has counted, which it says if it has ended in order."""
    return next((int(line[7:]) for line in lines if re.fullmatch(r'octets \d+', line)), None)


def fault_in(lines: Sequence[str]) -> EndFault:
    """Of what it has ended, if it has said so."""
    return next((fault for line in lines for begins, fault in FAULTS if re.match(begins, line)), EndFault.NONE)


def end_words(status: int, lines: Sequence[str]) -> str:
    """How it has ended, with what it said of that."""
    if status < 0:
        return f'ended by signal {signal_words(-status)}'
    its = [line for line in lines[-8:] if not (re.fullmatch(r'\w+ \d+', line) or line.endswith(' begins as new'))]
    return f'says: {"; ".join(its)}' if its and status else f'ended with status {status}'


def signal_words(number: int) -> str:
    """The number of a signal, and its name if it has one. (Those for real time have none.)"""
    with suppress(ValueError):
        return f'{number} ({signal.Signals(number).name})'
    return str(number)


# ---- its socket ----

def connected(path: str, pid: int) -> socket.socket:
    """A connection at which this process listens; else OSError."""
    line = socket.socket(socket.AF_UNIX)
    try:
        line.setblocking(False)
        line.connect(path)
        if struct.unpack('3i', line.getsockopt(socket.SOL_SOCKET, socket.SO_PEERCRED, 12))[0] != pid:
            raise ConnectionRefusedError
        return line
    except OSError:
        line.close()
        raise


def is_closed(line: socket.socket) -> bool:
    poll = select.poll()
    poll.register(line, select.POLLIN)
    return bool(poll.poll(0))
