"""What guards a trunk from other users, a dead machine, a process that hangs, and speech of the past."""
from __future__ import annotations

import os
import socket
import stat
import unittest
from types import SimpleNamespace
from typing import Any
from unittest import mock

from .support import FolderCase
from e1gw import trial
from e1gw.holder.job_types import JobRequest
from e1gw.holder import holder as held, lifecycle, main
from e1gw.log_folder import LogPair
from e1gw.watcher import http_pages
from e1gw.watcher.reader import LogReader
from e1gw_common.unix_listener import CannotListen, unix_listener


class FolderOwnTests(FolderCase):
    def test_a_folder_of_others(self) -> None:
        """Nobody else may write there, or have made it."""
        for mode in 0o700, 0o755, 0o770, 0o702:
            folder = self.path(f'{mode:o}')
            main.make_own(folder)
            self.assertEqual(stat.S_IMODE(os.stat(folder).st_mode), 0o700)
            os.chmod(folder, mode)
            if mode & 0o022:
                self.assertRaisesRegex(OSError, 'other users', main.make_own, folder)
            else:
                main.make_own(folder)
        with mock.patch('os.getuid', return_value=os.getuid() + 1):
            self.assertRaisesRegex(OSError, 'other users', main.make_own, self.path('700'))
        os.symlink(self.path('700'), self.path('link'))
        self.assertRaisesRegex(OSError, 'other users', main.make_own, self.path('link'))

    def test_a_state_is_on_the_disk(self) -> None:
        """Before it takes the place of the one before."""
        def run(asked: Any, program: int, words: list[str], config: str, log: LogPair) -> tuple[int, str, str]:
            self.write(os.path.basename(words[-1]), 'x')
            return 0, '', ''
        calls = mock.Mock()
        asked = JobRequest('save', seconds=1.0, state=self.path('state'))
        with mock.patch.multiple(trial, run=run, last_of=mock.Mock(return_value=LogPair(1, 0, b'', b''))), \
                mock.patch.multiple(os, fsync=calls.fsync, replace=calls.replace):
            trial.save_state(asked)
        self.assertEqual([name for name, *_ in calls.mock_calls], ['fsync', 'replace'])


class SpeechTests(unittest.TestCase):
    def test_speech_of_the_past(self) -> None:
        """It is not played where no program was there for more than a second."""
        for silence, drops in (0.9, 0), (1.1, 1):
            sockets = mock.Mock(lacking={})
            lifecycle.bind_sockets(mock.Mock(down_since=50.0, sockets=sockets), 50.0 + silence)
            self.assertEqual((sockets.drop_old.call_count, sockets.bind.call_count), (drops, 1))

    def test_a_machine_that_has_no_trunk(self) -> None:
        """The other one receives what is sent to the address: no socket is kept."""
        its = mock.Mock(is_active=True)
        held.Holder.release(its)
        its.sockets.close_others.assert_called_once_with(())

    def test_another_program_has_another_file(self) -> None:
        reader = LogReader('none', 0.1, None, lambda: None, bytes)
        reader._begun = 0
        recording = mock.Mock(why='', **{'wants.is_long.return_value': False})
        reader._recording = recording
        state = SimpleNamespace(place=3, state=b'')
        for follows, begins in (False, 0), (True, 1), (False, 1):
            if follows:
                reader.on_next_program(False)
            reader._see_file(state, False)      # type: ignore[arg-type]
            self.assertEqual(recording.begin.call_count, begins)


class HostTests(unittest.IsolatedAsyncioTestCase):
    def test_a_name_with_both_kinds_of_address(self) -> None:
        """That of IPv4 is taken, as the program does."""
        answers = [(family, 2, 17, '', (address, 0)) for family, address in (
            (socket.AF_INET6, '2001:db8::1'), (socket.AF_INET, '192.0.2.1'))]
        with mock.patch('socket.getaddrinfo', return_value=answers):
            self.assertEqual(trial.look_up(['peer'], 60.0), {'peer': '192.0.2.1'})

    def test_signs_of_life(self) -> None:
        """systemd kills who gives none."""
        its = mock.Mock(watcher=None, program=None, versions=mock.Mock(trial=None))
        held.Holder._tick(its, 1.0)
        its.store.send_message.assert_called_once_with('WATCHDOG=1')

    async def test_who_draws_is_behind_the_calls(self) -> None:
        behind, process = mock.Mock(), mock.Mock(pid=7)
        with mock.patch.multiple(http_pages, put_behind=behind, start_process=mock.AsyncMock(return_value=process),
                                 run_process=mock.AsyncMock(return_value=(0, '', b'x'))):
            self.assertEqual(await http_pages.picture_of([]), b'x')
        behind.assert_called_once_with(7, http_pages.NICE)


class ControlPlaceTests(FolderCase):
    def test_a_place_of_another(self) -> None:
        """Neither a socket at which somebody listens is taken, nor a file; one that was left is."""
        place = self.path('control')
        with unix_listener(place, 0o600, None), socket.socket(socket.AF_UNIX) as client:
            self.assertRaisesRegex(CannotListen, 'another one listens', unix_listener, place, 0o600, None)
            client.connect(place)
        unix_listener(place, 0o600, None).close()
        self.assertRaisesRegex(CannotListen, 'no socket', unix_listener, self.write('file', b''), 0o600, None)
