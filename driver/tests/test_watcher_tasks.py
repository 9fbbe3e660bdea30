"""What a watcher begins again, notes and says."""
from __future__ import annotations

import asyncio
import logging
import os
import sys
import unittest
from unittest import mock

from . import support
from .support import SECONDS
from e1gw.events import AlarmChanged, AlignmentLost
from e1gw_common.lines import Alignment
from e1gw.watcher import journal
from e1gw_common import tasks
from e1gw.watcher.journal import MOST, LineLimit
from e1gw.watcher.note import NoteFiles


class LineLimitTests(unittest.TestCase):
    def record(self, created: float, kind: str | None) -> logging.LogRecord:
        found = logging.LogRecord('e1gw', logging.INFO, '', 0, 'words', None, None)
        found.created = created
        if kind:
            found.kind = kind
        return found

    def test_twenty_a_minute(self) -> None:
        """Of each kind; the next line behind that says how many there were. Lines without a kind all pass."""
        limit = LineLimit()
        self.assertEqual([limit.filter(self.record(0.0, 'gap')) for _ in range(MOST + 5)], [True] * MOST + [False] * 5)
        self.assertTrue(limit.filter(self.record(0.0, 'alarm')))
        self.assertTrue(all(limit.filter(self.record(0.0, None)) for _ in range(MOST + 5)))
        later = self.record(60.0, 'gap')
        self.assertTrue(limit.filter(later))
        self.assertEqual(later.getMessage(), 'gap: .. and 5 more in the last minute\nwords')

    def test_the_clock_is_set_back(self) -> None:
        """No line of a kind was told for as long as it was set back by."""
        limit = LineLimit()
        times = *[7200.0] * (MOST + 1), 3600.0, 3660.0
        passed = [limit.filter(self.record(created, 'alarm')) for created in times]
        self.assertEqual(passed, [True] * MOST + [False, True, True])

    def test_kinds_of_events(self) -> None:
        """An alarm is one line, and not another one for the alignment that is lost."""
        with self.assertLogs(journal.logger) as told:
            for event in AlarmChanged(Alignment.FRAME, True, 0), AlignmentLost(Alignment.FRAME, 0):
                journal.tell_journal(event)
        self.assertEqual([getattr(record, 'kind') for record in told.records], ['alarm'])


class NoteFilesTests(support.FolderCase):
    def test_a_note_that_is_torn(self) -> None:
        """The one before it is whole: they are written in turn. What is there is not written again."""
        files, notes = NoteFiles(self.folder), [self.path(name) for name in ('note.0', 'note.1')]
        for text in b'one', b'two', b'three':
            files.write_text(text)
        self.assertEqual([NoteFiles(self.folder).read(), *sorted(os.listdir(self.folder))],
                         [b'three', 'note.0', 'note.1'])
        os.utime(notes[0], (0, 0))
        files.write_text(b'three')
        self.assertEqual(os.stat(notes[0]).st_mtime, 0)
        os.unlink(notes[0])
        files.write_text(b'three')
        os.truncate(notes[0], 28)           # (a head has 24 octets)
        self.assertEqual(NoteFiles(self.folder).read(), b'three')
        os.truncate(notes[1], 28)
        self.assertEqual(NoteFiles(self.folder).read(), b'')


class JournalTests(unittest.TestCase):
    def test_lines_of_all_packages(self) -> None:
        """A notice is for the operator, a failure of a work too."""
        code = f'''import sys; sys.path[:0] = ["{support.TOP}/driver"]
from e1gw.watcher import blocks
from e1gw.watcher.journal import NOTICE, ServiceJournal
from e1gw_common.tasks import reporting_failures
journal = ServiceJournal('its name')
with reporting_failures('the work'):
    raise ValueError('odd')
blocks.logger.log(NOTICE, 'circuit 1: blocked')
journal.close()'''
        self.assertEqual(support.ran(sys.executable, '-c', code), (
            0, '', 'its name: the work goes on: ValueError: odd (<string>:7 in <module>)\n'
            'its name: circuit 1: blocked\n'))


class TaskTests(unittest.IsolatedAsyncioTestCase):
    async def test_what_fails_is_begun_again(self) -> None:
        """It is told where, in one line."""
        faults = [ValueError('odd'), None]

        async def work() -> None:
            if fault := faults.pop(0):
                raise fault
        with mock.patch.object(tasks, 'AGAIN', 0.0), self.assertLogs('e1gw_common.tasks') as told:
            await tasks.retry(work, 'the work')
        self.assertRegex(told.records[0].getMessage(),
                         r'^the work goes on: ValueError: odd \(test_watcher_tasks.py:\d+ in work\)$')

    async def test_beats(self) -> None:
        """The same for all, and none within a quarter of them."""
        for now, beat in (10.0, 10.08), (10.03, 10.32), (10.08, 10.32):
            with mock.patch.object(asyncio.get_running_loop(), 'time', lambda: now):
                self.assertAlmostEqual(tasks.next_beat(0.24), beat)

    async def test_either(self) -> None:
        """One event is enough, or the time; what has waited for them waits no more."""
        one, other = asyncio.Event(), asyncio.Event()
        await tasks.wait_any(0.0, one, other)
        other.set()
        await tasks.wait_any(SECONDS, one, other)
        await asyncio.sleep(0)
        self.assertEqual(asyncio.all_tasks(), {asyncio.current_task()})
