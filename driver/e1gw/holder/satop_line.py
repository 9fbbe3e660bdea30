"""The line of an emulated circuit: `e1gw satop` stands between the packets and the program, joined by a socket pair of
which the program has the end `near`, the process `far`. The holder holds both, so neither sees the other one die, and
starts the process again in its place. If the holder dies both end, and the next one begins with a pair of its own."""
from __future__ import annotations

import os
import socket
import time
from contextlib import contextmanager, suppress
from typing import Iterator, Mapping

from e1gw_common.addresses import host_and_port
from ..satop_numbers import SatopBegun, begun_in, lines_in, number_of_now
from .decisions import EndFault, Openings
from .journal import Severity, log_line
from .line import HeldLine
from .loop import Loop
from .note import HeldLineNote
from .options import LineWants
from .program import Child, end_words, open_said, spawned

MULTIFRAME = 512
ONES = b'\xff' * 2 * MULTIFRAME         # behind which frame alignment is looked for again
ANEW = 0.2                  # seconds for the far end to take its packets as a new stream
GRACE, SOON = 1.0, 0.005    # seconds for the process to send what it was given last; between two looks
ENDED, BROKEN = 'the trunk has ended', EndFault.TRUNK.value


class SatopLine(HeldLine):
    """Such a line. `near` is what a program reads and writes."""

    ends = 'near', 'far'

    def __init__(self, options: LineWants, files: dict[str, int], loop: Loop) -> None:
        self._words = list[str]()       # of the process: both ends as addresses, and options
        self._child: Child | None = None
        self._restarts, self._why, self._lacked = Openings(), '', False
        self._ones_due = 0.0            # when the far end is given ones, if it is to be
        self._path = f'{options.folder}/satop'      # of what the process says
        super().__init__(options, files, loop)

    @property
    def program_files(self) -> tuple[int, int]:
        return self.files[self.reads], self.files[self.reads]

    @property
    def pid(self) -> int:
        """Of the process; 0 without one."""
        return self._child.pid if self._child else 0

    def stored_files(self) -> dict[str, int]:
        return {}

    @property
    def reopen_time(self) -> float:
        dues = [self._ones_due] if self._ones_due else []
        return min([*dues, self._restarts.due if self.files and not self._child else super().reopen_time])

    # ---- its beginning ----

    def open_files(self) -> Mapping[str, int]:
        """Looks both ends up, unless that is known, and makes the pair."""
        from ..satop import addresses_of
        before = begun_in(self._path)
        near, far, *words = self.options.satop
        known = [*before.words] if before.asked == self.options.satop else []
        self._words = known or [*addresses_of(host_and_port(near), host_and_port(far)), *words]
        pair = socket.socketpair()
        pair[0].setblocking(False)
        return {self.reads: pair[0].detach(), self.writes: pair[1].detach()}

    def on_open(self) -> None:
        super().on_open()
        self._why = ''
        if not self._child and self._words:
            self._start(time.monotonic())

    def _start(self, now: float) -> None:
        """Starts the process, or lets it be started later."""
        from ..satop import can_send
        number = self._next_number()
        self._lacked, self._restarts = not can_send(self._words), self._restarts.with_one(now)
        said, far = open_said(self._path), self.files[self.writes]
        with suppress(OSError):
            SatopBegun(self.options.satop, (*self._words,), number).write_to(self._path)
        try:
            pid = spawned(self.options.program, ['e1gw', 'satop', *self._words, '--sequence', str(number)],
                          zip((far, far, said), range(3)))
            self._child = Child(pid, self.loop, self._on_exit)
        except OSError as fault:
            log_line(Severity.ERROR, f'e1gw satop cannot be started: {fault.strerror}')
            self._restarts = self._restarts.with_end(now)
        finally:
            os.close(said)

    def _next_number(self) -> int:
        """With which the process begins: as was said, or behind those of the one before it."""
        given, self.number = self.number, None
        if given is not None:
            return given
        before = number_of_now(self._path)
        return before.number if before else int.from_bytes(os.urandom(2))

    # ---- while it is there ----

    def step(self, now: float) -> None:
        if self._ones_due and now >= self._ones_due:
            self._ones_due = 0.0
            give(self.files[self.reads], ONES)
        if self._child and self._child.is_stopped():
            self._child.kill()
        elif not self._child and not self._why and (now >= self._restarts.due or self._lacked and self._can_send()):
            self._restart(now)

    def _can_send(self) -> bool:
        from ..satop import can_send
        return can_send(self._words)

    def _restart(self, now: float) -> None:
        """Octets are missing then, so with CRC-4 the program and the far end are given ones, behind which they look for
        multiframes again: moved by half a multiframe each submultiframe would be right, and E bits read where there are
        none."""
        if self.options.crc4:
            give(self.files[self.writes], ONES)
            self._ones_due = now + ANEW
        self._start(now)
        if self._child:
            self.fault = ''

    def _on_exit(self) -> None:
        """The process has ended. One that has done so by itself ends the line, unless it failed and is tried again."""
        status, now = self._reap(), time.monotonic()
        if status is None:
            return
        words, self._restarts = f'e1gw satop {end_words(status, lines_in(self._path))}', self._restarts.with_end(now)
        if status >= 0 and not (status and self.options.reopens):
            self._why = f'{BROKEN}: {words}' if status else ENDED
            return shut(self.files[self.writes])    # (the program is given what has come, and ends behind that)
        self.fault = f'{BROKEN}: {words}'
        log_line(Severity.WARNING, self.fault)
        self.step(now)

    def _reap(self) -> int | None:
        status = self._child.exit_status() if self._child else None
        if status is not None:
            self._child = None
        return status

    # ---- its end ----

    def why_ended(self, took: int) -> str:
        return self._why

    def close(self) -> None:
        if self.files:
            shut(self.files[self.reads])
        until = time.monotonic() + GRACE
        while self._child and self._reap() is None:
            drop(self.files[self.reads])        # (who cannot write does not look for an end)
            if time.monotonic() >= until:
                self._child.kill()
            time.sleep(SOON)
        self._ones_due = 0.0
        super().close()

    def note(self) -> HeldLineNote:
        return HeldLineNote(self.pid, self._words, self._why)

    def restore_note(self, note: HeldLineNote) -> None:
        self._words, self._why = [*note.words], note.why
        if note.pid:
            self._child = Child(note.pid, self.loop, self._on_exit)


@contextmanager
def end_of(file: int) -> Iterator[socket.socket]:
    """This end of a socket pair as a socket. What fails there is passed over."""
    with suppress(OSError), socket.socket(fileno=os.dup(file)) as line:
        yield line


def drop(file: int) -> None:
    """Takes what it has, which nobody reads any more."""
    with end_of(file) as line:
        line.recv(1 << 16, socket.MSG_DONTWAIT)


def shut(file: int) -> None:
    """Nothing more is sent by this end: the other one sees the end of it."""
    with end_of(file) as line:
        line.shutdown(socket.SHUT_WR)


def give(file: int, octets: bytes) -> None:
    """Sends octets by this end, as far as there is room."""
    with end_of(file) as line:
        line.send(octets, socket.MSG_DONTWAIT)
