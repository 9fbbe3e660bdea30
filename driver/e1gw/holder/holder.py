"""One trunk that is held: what there is of it, and a turn, which does what is due."""
from __future__ import annotations

import os
import time
from contextlib import suppress

from e1gw_common.fault_words import words_of_fault
from e1gw_common.unix_listener import CannotListen
from e1gw_common.writers import put_file
from .. import VERSION
from ..holder_state import ACTIVE, INTERFACE, STANDBY, HolderState, start_of
from .decisions import Deaths, EndReason, Renewals
from .journal import Severity, log_line, report_failure
from .lifecycle import finish, is_late, on_program_exit, on_program_up, start_program
from .line import HeldLine
from .log import FILES, HeldLog
from .loop import Loop
from .options import Options
from .program import HeldProgram
from .reloading import Reloads
from .requests import Door, HolderRequest
from .roles import CHANGES, change_role, give_log
from .sockets import HeldSockets
from .store import Store
from .version import Versions
from .watcher_child import WatcherChild

TICK, SOON = 0.24, 0.002    # seconds between two looks while nothing happens, and while something is to come
LAGS = 0.01                 # .. while systemd has no room for what it is told
AGAIN = 0.1                 # .. before what has failed is begun again
NEEDED = 'program', 'tell', 'log/lock', *(f'log/{name}' for name in FILES)     # of the folder, by a program


class Holder:
    """What is held. Each step may be begun again after one that has failed."""

    def __init__(self, options: Options, store: Store, line: HeldLine, loop: Loop) -> None:
        self.options, self.store, self.line, self.loop = options, store, line, loop
        self.folder = options.folder
        self.sockets, self.log = HeldSockets(store.files), HeldLog(store.files)
        self.versions, self.reloads = Versions(None), Reloads(self)
        self.door = Door(loop, self.handle_request)
        self.program: HeldProgram | None = None
        self.watcher: WatcherChild | None = None
        self.reason, self.requests = EndReason.NONE, list[HolderRequest]()  # why it is to end; who waits for another
        self.ending, self.status = '', None     # type: str, int | None
        self.is_active = True                   # this holder is to have the trunk
        self.was_up, self.why, self.lost = False, 'begins', ''      # in words, of the next program
        self.down_since, self.since = time.monotonic(), time.time()     # since when no program is up; since when one is
        self.deaths, self.renewals, self.due, self._ticked = Deaths(), Renewals(), 0.0, 0.0
        self._waits = self._failed = ''
        self.log_locker, self.lock = (0, 0.0), -1       # who has the log locked, and since when; the lock of the trunk
        loop.on_signal = self.reloads.on_signal

    # ---- turns ----

    def run(self) -> int:
        """Until the end; returns the status."""
        while self.status is None:
            try:
                self.turn(time.monotonic())
                self.loop.wait(self._wait())
            except Exception as fault:      # pylint: disable=broad-exception-caught
                report_failure(fault, self._failed)
                self._failed = str(fault)
                time.sleep(AGAIN)
        return self.status

    def _wait(self) -> float:
        """How long nothing is to be done."""
        now = time.monotonic()
        if self.status is not None:
            return 0.0
        if self.program and not self.program.is_up or self.reloads.is_busy:
            return SOON
        if self.store.lags:
            return LAGS
        dues = [due for due in (self.due, self.line.reopen_time, self._ticked + TICK) if due > now]
        return min(dues, default=now + TICK) - now

    def turn(self, now: float) -> None:
        """Does what is due now."""
        self.store.send()
        if now >= self._ticked + TICK:
            self._ticked = now
            self._tick(now)
        self.reloads.follow_trial(now)
        if self.line.files:
            self.line.step(now)
        if self.program:
            self._look_at(self.program, now)
        if not self.program and self.status is None:        # (at once: calls wait)
            self._go_on(now)

    def _look_at(self, program: HeldProgram, now: float) -> None:
        """Whether it has ended, is late, or has come to carry the trunk."""
        if (status := program.exit_status()) is not None:
            on_program_exit(self, program, status, now)
        elif is_late(program, now) and not program.hangs:
            what = 'end' if program.asked else 'come up'
            log_line(Severity.WARNING, f'program {program.pid} does not {what} in time, and is killed')
            program.kill()
        elif not program.is_up and program.is_answering(f'{self.folder}/program'):
            on_program_up(self, now)

    def _go_on(self, now: float) -> None:
        """Goes on without a program."""
        if self.ending:
            finish(self, self.ending, 0)
        elif self.is_active:
            self._bring_up(now)
        else:
            self._stand_by(now)

    def _stand_by(self, now: float) -> None:
        """Has a version ready: calls wait once it takes the trunk."""
        if self.line.is_opening and self.line.try_to_open(now):
            self.line.close()               # (it was opened too late)
        if not self.versions.now and now >= self.due:
            self.reloads.try_first()

    def _bring_up(self, now: float) -> None:
        """Goes towards a program, if there is none: a version, the line, a start."""
        if not self.versions.now:
            return self.reloads.try_first() if now >= self.due else None
        if not self.line.files and self.line.try_to_open(now):
            self._on_opening_end()
        if self.line.files and now >= self.due and self.status is None:
            start_program(self, now)

    def _on_opening_end(self) -> None:
        """It has come to be known whether the line can be opened."""
        if self.line.files:
            self.publish()
        elif self.options.line.reopens or self.was_up:
            self.report_waiting('the trunk is not open yet')
        else:
            finish(self, self.line.fault, 1)

    def _tick(self, now: float) -> None:
        """A few times a second."""
        self.store.send_message('WATCHDOG=1')
        if self.watcher:
            self.watcher.step(now)
        if self.versions.trial and now >= self.versions.trial.until:
            self.versions.confirm()
            self.sockets.close_others(self.versions.addresses())
            self.publish()
        self.listen()
        if self.program and self.program.is_up and not self.program.asked:
            self._see_to(self.program, now)

    def _see_to(self, program: HeldProgram, now: float) -> None:
        """Sees to a program that carries the trunk."""
        if program.is_stopped():
            log_line(Severity.WARNING, f'program {program.pid} was stopped by a signal, and is killed')
            return program.kill()
        program.forget_lines()
        if now >= self.renewals.due and self.versions.now and (
                not all(os.path.lexists(f'{self.folder}/{name}') for name in NEEDED) or
                self.sockets.lacking and self.sockets.bind(self.versions.now.its.ports)):
            self.renew(now)

    def listen(self) -> None:
        """Listens in the folder, if that is there and has no socket of this holder."""
        with suppress(OSError, CannotListen):
            self.door.open_at(f'{self.folder}/hold')

    # ---- what is wanted ----

    def renew(self, now: float) -> None:
        """Another program is to follow, which has again what is gone."""
        self.renewals = self.renewals.with_one(now)
        try:
            os.makedirs(f'{self.folder}/log', 0o700, exist_ok=True)
        except OSError as fault:
            return log_line(Severity.ERROR, f'{words_of_fault(fault)}: the program goes on without its folder')
        self.request_end(EndReason.RENEW, now)

    def request_end(self, reason: EndReason, now: float) -> None:
        """The program of now is to end for this."""
        self.reason = reason
        if self.program:
            self.program.ask(now)

    def end(self, why: str) -> None:
        """The end is asked for."""
        self.ending = self.ending or why
        self.store.notify('STOPPING=1')
        self.request_end(EndReason.END, time.monotonic())

    def handle_request(self, request: HolderRequest) -> None:
        """Somebody asks for something at the socket."""
        match request.text:
            case 'reload' | 'reload force' | 'reload when-idle':
                self.reloads.begin(request)
            case words if CHANGES.fullmatch(words):
                change_role(self, request, time.monotonic())
            case 'quit':
                request.answer_done()
                self.end('quit')
            case _:
                request.answer('unknown')

    def release(self) -> None:
        """The other machine carries the trunk."""
        self.line.close()
        self.sockets.close_others(())
        give_log(self)
        self.report_waiting('it does not have the trunk')
        self.answer_waiting('reload', 'take', refused='the trunk was released')
        self.answer_waiting('release')

    def answer_waiting(self, *words: str, refused: str = '') -> None:
        """Answers those who have waited for this."""
        its = [each for each in self.requests if each.word in words]
        self.requests = [each for each in self.requests if each.word not in words]
        if refused and any(each.word == 'reload' for each in its):
            self.store.notify('READY=1')           # (systemd waits for the end of it, too)
        for each in its:
            if refused:
                each.answer_refused(refused)
            else:
                each.answer_done()

    # ---- what others have and know ----

    def descriptors_to_store(self) -> dict[str, int]:
        """What the next holder needs, the line first."""
        version = self.versions.stored_version()
        its = {'program': version.program, 'tried': version.file} if version else {}
        return {**self.line.stored_files(), **its, **self.log.files, **self.sockets.files}

    def publish(self) -> None:
        """Has systemd keep that, and puts down what others know of the trunk. (Of one that has ended, or is released,
        nothing is kept.)"""
        self.store.keep(self.descriptors_to_store() if self.is_active and self.status is None else {})
        program, line, version = self.program, self.line, self.versions.now
        pid, its = program.pid if program else 0, version.its if version else None
        state = HolderState(
            INTERFACE, VERSION, os.getpid(), pid, start_of(pid) if pid else 0, self.since, self.why,
            bool(self.lost), bool(line.files), line.since, line.fault, line.card.span if line.card else 0,
            (*sorted(self.sockets.lacking),), its.name if its else '', its.senders if its else '',
            self.versions.before is not None, ACTIVE if self.is_active else STANDBY, self.options.line.trunk,
            self.options.words, self.options.state, its.wait if its else ())
        try:
            put_file(f'{self.folder}/holder', state.spell(), 0o640)
        except OSError as fault:
            log_line(Severity.WARNING, f'{words_of_fault(fault)}: who watches the trunk sees it as it was')

    def report_waiting(self, words: str) -> None:
        """It has begun, and waits for this."""
        if words != self._waits:
            self.store.notify('READY=1', f'STATUS={words}')
        self._waits = words
        self.publish()
