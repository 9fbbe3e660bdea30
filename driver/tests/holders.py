"""A holder with thirty calls for tests, whose program or which itself is killed, stopped or replaced. The exchange goes
in lock step with it: it waits for what comes back, or for the holder to say that another program goes on."""
from __future__ import annotations

import os
import signal
import socket
import subprocess
import sys
from typing import Any
from unittest import mock

from . import limits, support
from .keepers import KeeperCase
from .manager import Manager
from .support import SECONDS
from e1gw import holder_state
from e1gw.holder_state import HolderState, TrunkPlaces, state_in

LONG = {f'holder.{name}': limits.LONG for name in (
    'lifecycle.START', 'lifecycle.RELOADED', 'lifecycle.OLD', 'lifecycle.LEFT', 'lifecycle.GRACE', 'job.SECONDS',
    'job.PATIENCE', 'store.HEARD', 'store.GRACE')}


def places_in_memory(places: TrunkPlaces) -> TrunkPlaces:
    """Where the folder of a trunk is once it takes no writes."""
    with mock.patch.object(holder_state, 'MEMORY', os.path.dirname(support.launcher('trunk'))):     # (tests/start)
        return TrunkPlaces(holder_state.folder_in_memory(places.folder))


class HolderCase(KeeperCase):
    """Such a holder, and systemd, which keeps what it is told to keep."""

    line_options: tuple[str, ...] = ('--unix', '@/card')

    def setUp(self) -> None:
        super().setUp()
        self.manager = Manager(self.path('notify'))
        self.addCleanup(self.manager.close)
        self.options = ['--config', self.config, '--folder', self.memory, '--program', support.program(), '--reopen',
                        '--alone', *(word.replace('@', self.folder) for word in self.line_options)]
        self.within: dict[str, Any] = {}

    def words(self) -> list[str]:
        return [sys.executable, '-B', support.launcher('trunk'), *self.options]

    def starts_holder(self, is_by_hand: bool = False) -> None:
        """Starts a holder, by hand or by systemd with what that keeps."""
        around = limits.around(LONG | self.within)
        os.environ |= around                    # (Manager.starts gives this on)
        try:
            with open(self.path('told'), 'ab') as told:
                self.told_from = len(self.read_log())
                self.keeper = subprocess.Popen(self.words(), stderr=told, stdin=subprocess.DEVNULL) if is_by_hand else \
                    self.manager.starts(self.words(), told.fileno())
            self.addCleanup(self._end)
        finally:
            for name in around:
                del os.environ[name]

    def begins(self, *options: str) -> None:
        """The first start, with thirty calls."""
        self.options += options
        self.starts_holder()
        self.device.accept()
        self.goes_on()
        self.calls()
        self.settles()

    def scripted(self, *lines: str) -> str:
        """A program: a script, which does this, and goes on as the program."""
        path = self.write('e1gw.new', '\n'.join(['#!/bin/sh', *lines, f'exec {support.program()} "$@"', '']))
        os.chmod(path, 0o700)
        os.replace(path, self.path('e1gw'))     # (a program that was started has the file before)
        return self.path('e1gw')

    # ---- what is known of it ----

    def state(self) -> HolderState:
        with open(self.places.holder, 'rb') as file:
            return state_in(file.read())

    def settles(self) -> None:
        """Until systemd has all that the next one needs."""
        files = {'program', 'tried', *(f'log-{name}.{n}' for name in ('state', 'records') for n in '01')}
        support.until(lambda: self.manager.read_lines() and files <= {*self.manager.files}
                      and len(self.manager.files) == len(files) + 30 + 1)

    def asks(self, words: str) -> str:
        """The answer to a word, if that comes."""
        with self.asking(words) as line:
            return line.makefile('r').read().strip()

    def asking(self, words: str) -> socket.socket:
        """A connection at which a word was said."""
        support.until(lambda: os.path.exists(self.places.hold_path))     # (a folder is made again before it is there)
        line = support.connected(self.places.hold_path)
        line.sendall(f'{words}\n'.encode())
        return line

    # ---- deaths ----

    def kill_holder(self, number: int = signal.SIGKILL) -> None:
        os.kill(self.keeper.pid, number)
        self.keeper.wait(SECONDS)

    def replaces(self) -> None:
        """Another holder is in place of this one."""
        os.kill(self.keeper.pid, signal.SIGUSR2)
        self.awaits('the holder was replaced: program')

    def dies(self, number: int = signal.SIGKILL) -> None:
        """The program is sent a signal when it has answered all, and another one goes on."""
        os.kill(self.program, number)
        self.goes_on_all()

    def goes_on_all(self) -> None:
        """Another program goes on with all calls, and octets flow."""
        self.goes_on()
        self.step(20)
        self.assertEqual(self.device.exchange.signals, self.up())

    def ends(self) -> None:
        """It ends, and leaves nothing, nor at systemd."""
        super().ends()
        self.manager.take_all()
        self.assertEqual(self.manager.files, {})
