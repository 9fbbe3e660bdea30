"""A holder that is to take the trunk, or to release it: with which log it goes on, and who gets which answer."""
from __future__ import annotations

import fcntl
import os
import shutil
import time
from typing import Any
from unittest import mock

from . import support
from e1gw.holder import roles
from e1gw.holder.decisions import EndReason
from e1gw.holder.holder import Holder
from e1gw.holder.log import FILES, HeldLog
from e1gw.holder.requests import HolderRequest
from e1gw.holder.roles import CHANGES, REVERSE, change_role, give_log, take_log


class RoleCase(support.FolderCase):
    """A holder whose line and program are played."""

    def setUp(self) -> None:
        super().setUp()
        self.holder = mock.Mock(spec=Holder, folder=self.folder, is_active=False, program=None, log=HeldLog({}),
                                lost='', requests=[], line=mock.Mock(number=None), sockets=mock.Mock())
        self.addCleanup(self.holder.log.close)
        self.answers = list[str]()
        for name in 'answer_waiting', 'release':
            setattr(self.holder, name, getattr(Holder, name).__get__(self.holder))

    def log(self, name: str, text: str, age: float = 0.0) -> None:
        """A log in a folder."""
        os.mkdir(self.path(name))
        for each in (*FILES, 'lock'):
            path = self.write(f'{name}/{each}', text)
            os.utime(path, (time.time() - age,) * 2)

    def found(self) -> dict[str, str]:
        """The logs that there are."""
        return {name: support.text_of(self.path(f'{name}/{FILES[0]}')) for name in sorted(os.listdir(self.folder))
                if os.path.isdir(self.path(name))}

    def says(self, text: str) -> None:
        request = HolderRequest(None, text)
        setattr(request, 'answer', self.answers.append)
        change_role(self.holder, request, 5.0)

    def up(self, **its: Any) -> mock.Mock:
        """A program."""
        self.holder.program = program = mock.Mock(**{'is_up': True, 'asked': None, **its})
        return program


class TakenLogTests(RoleCase):
    def test_what_was_fed(self) -> None:
        """It is in place of another log. It is copied if somebody has it locked: who writes there later writes to files
        that nobody reads."""
        for is_locked in False, True:
            self.log('log', 'before')
            self.log('fed', 'fed')
            with open(self.path(f'fed/{FILES[0]}'), 'r+b', 0) as file, open(self.path('fed/lock'), 'rb') as lock:
                if is_locked:
                    fcntl.flock(lock, fcntl.LOCK_EX)
                take_log(self.holder, 5.0)
                self.assertIs(os.path.samestat(os.fstat(file.fileno()), os.stat(self.path(f'log/{FILES[0]}'))),
                              not is_locked)
            self.assertEqual((self.found(), self.holder.lost, self.holder.why), ({'log': 'fed'}, '', 'promoted'))
            self.assertTrue(self.holder.log.are_in(self.path('log')))       # (else it is put back again)
            shutil.rmtree(self.path('log'))

    def test_no_room(self) -> None:
        """Without room for a copy it is taken as it is."""
        self.log('fed', 'fed')
        with mock.patch.object(HeldLog, 'put_back', side_effect=OSError(28, 'No space left on device')), \
                mock.patch.object(roles, 'process_that_locks', return_value=-1):
            take_log(self.holder, 5.0)
        self.assertEqual((self.found(), self.holder.lost), ({'log': 'fed'}, ''))
        self.assertTrue(self.holder.log.are_in(self.path('log')))

    def test_nothing_that_is_of_use(self) -> None:
        """What is old, or a part of it, is not taken, nor is a log that is left: all calls begin anew."""
        for fed in 3000.0, None:
            self.log('log', 'before')
            if fed:
                self.log('fed', 'fed', fed)
            with mock.patch.object(roles, 'MOST_AGE', 2000.0):
                take_log(self.holder, 5.0)
            self.assertEqual((self.found(), self.holder.lost), ({}, '; all calls begin anew'))

    def test_since_when_nobody_carries_it(self) -> None:
        self.log('fed', 'fed', 1000.0)
        with mock.patch.object(roles, 'MOST_AGE', 2000.0):
            take_log(self.holder, 5000.0)
        self.assertAlmostEqual(self.holder.down_since, 4000.0, delta=support.SECONDS)

    def test_what_is_given(self) -> None:
        """The log is as if it had been fed; without one what was fed stays."""
        self.log('fed', 'before')
        give_log(self.holder)
        self.assertEqual(self.found(), {'fed': 'before'})
        self.log('log', 'mine')
        give_log(self.holder)
        self.assertEqual(self.found(), {'fed': 'mine'})


class ChangedRoleTests(RoleCase):
    def test_words(self) -> None:
        its = 'take', 'take 0', 'take 65535', 'release'
        for text in (*its, 'take x', 'release 3', 'take 123456', 'takes'):
            self.assertEqual(bool(CHANGES.fullmatch(text)), text in its, text)

    def test_taken(self) -> None:
        """It waits for a program; the number is that of the first packet, and is said once."""
        self.log('fed', 'fed')
        for text in 'take 77', 'take 78', 'take':
            self.says(text)
        self.assertEqual((self.holder.line.number, self.found(), self.answers), (77, {'log': 'fed'}, []))
        self.holder.publish.assert_called()        # (the next holder has that role)
        self.holder.answer_waiting('take')
        self.up()
        self.says('take')
        self.assertEqual(self.answers, ['take: done'] * 4)

    def test_released(self) -> None:
        """Not before the program has ended, however often it is asked; then its log is what is known."""
        self.holder.is_active, program = True, self.up()
        self.log('log', 'mine')
        self.says('release')
        self.holder.request_end.assert_called_with(EndReason.RELEASE, 5.0)
        program.asked = 5.0
        self.says('release')
        self.assertEqual((self.answers, self.found()), ([], {'log': 'mine'}))
        self.holder.program = None
        self.holder.release()
        self.says('release')
        self.assertEqual((self.answers, self.found()), (['release: done'] * 3, {'fed': 'mine'}))

    def test_taken_back_meanwhile(self) -> None:
        """While its program ends: another one goes on with its own log, on the same line, and who asked for the reverse
        is told."""
        self.holder.is_active, program = True, self.up()
        self.log('log', 'mine')
        self.log('fed', 'other')
        self.says('release')
        program.asked = 5.0
        self.says('take 9')
        self.assertEqual(self.answers, [f'release: refused: {REVERSE}'])
        self.holder.request_end.assert_called_with(EndReason.TAKEN_BACK, 5.0)
        self.holder.program = None
        self.assertEqual((self.found()['log'], self.holder.is_active, self.holder.line.number), ('mine', True, None))
        self.holder.answer_waiting('take')
        self.assertEqual(self.answers[1:], ['take: done'])
