"""What is read of the log of a trunk, and kept of it, whatever ends meanwhile."""
from __future__ import annotations

import asyncio
import glob
import itertools
import json
import os
import threading
import time
import types
import unittest
from contextlib import closing
from dataclasses import replace
from unittest import mock

from . import support
from .logs import WrittenLog
from .plain_trunk import PlainTrunk
from .support import SECONDS
from .test_tell_lines import BEGIN, row
from e1gw.clock import TICK, ClockFinding
from e1gw.counts import DatagramCounts
from e1gw.watcher import reader, recordings, tell_client
from e1gw.log_folder import RECORDS, LogState
from e1gw.watcher.reader import LogReader, ReadingNote
from e1gw.watcher.recordings import RecordingNote, RecordingWants, TrunkRecording
from e1gw_common.session import MULTIFRAME, OCTETS_A_SECOND


class RingBeginTests(support.FolderCase, unittest.IsolatedAsyncioTestCase):
    def test_room(self) -> None:
        ring = self.write('ring', '')
        self.assertFalse(recordings.has_room(ring))
        os.unlink(ring)
        for free in 2 ** 25 - 1, 2 ** 25:       # (32 MiB)
            with mock.patch.object(os, 'statvfs', return_value=mock.Mock(f_bavail=1, f_frsize=free)):
                self.assertEqual(recordings.has_room(ring), free == 2 ** 25)
        self.assertTrue(recordings.has_room(ring))
        self.assertEqual((os.listdir(ring), os.stat(ring).st_mode & 0o7), ([], 0))

    async def test_when_it_can_begin(self) -> None:
        """Once nothing is written any more, and there is room."""
        its = LogReader('none', 0.1, None, lambda: None, bytes)
        for is_over, room in itertools.product((False, True), repeat=2):
            ended = mock.Mock(**{'is_over.return_value': is_over, 'wants.session': 'ring'})
            with mock.patch.object(reader, 'has_room', return_value=room) as looked:
                self.assertEqual(await its._can_begin(ended), is_over and room)
            self.assertEqual((ended.close.call_count, looked.mock_calls), (1, [mock.call('ring')] * is_over))

    def test_another_file_at_a_state_of_the_log(self) -> None:
        """Another file of a ring begins, if another program has begun or the file is long. If a part of the log was not
        read, one of a ring does, and a recording that is one file ends."""
        for is_break, is_cut, keep, octets in itertools.product(
                (False, True), (False, True), (None, 60), (1_280_004, 1_280_005)):
            its = LogReader('none', 0.1, None, lambda: None, bytes)
            its._begun, its._is_cut, its.octets = 5, is_cut, octets
            its._recording = recording = mock.Mock(why='', wants=RecordingWants('s', keep, 'w', 'c', 200))
            its._see_file(LogState(3, 99, b'state'), is_break)
            ends = [mock.call('a part of the log was not read')] * (is_break and not keep)
            begins = keep is not None and (is_break or is_cut or octets == 1_280_005)
            self.assertEqual((recording.begin.call_count, recording.end.mock_calls), (begins, ends))
        its._see_file(LogState(4, 0, b'of a new gateway'), True)
        self.assertEqual([each.args[0].state for each in recording.begin.mock_calls], [b'state', b''])


class RecordingTests(support.LoopCase):
    def recording(self, path: str, left: RecordingNote | None, keep: int | None = None) -> TrunkRecording:
        return TrunkRecording(RecordingWants(path, keep, 'west', 'c', 200), lambda: None, left)

    async def test_what_was_not_noted_is_cut(self) -> None:
        """The next service goes on behind what the one before it has noted."""
        path = self.write('kept', 'noted more')
        left = RecordingNote(path, None, '', (), path, 0, 5, 5, 5)
        its = self.recording(path, left)
        its.record(b' octets', 12, 9)
        await its.wait_until_written(12, SECONDS)
        await asyncio.to_thread(its.close)
        self.assertEqual((support.text_of(path), its.is_over()), ('noted octets', True))
        self.assertEqual(its.note(0), replace(left, place=12, octets=9, size=12))

    async def test_a_ring_that_was_left(self) -> None:
        """It has the files and the fault that it had."""
        ring = self.path('ring')
        left = RecordingNote(ring, 60, 'no room', (('a', 0), ('b', 9)), f'{ring}/b', 3, 9, 5, 7)
        its = self.recording(ring, left, 60)
        await asyncio.to_thread(its.close)
        self.assertEqual(its.note(3), left)

    async def test_what_is_written_waits_no_more(self) -> None:
        path = self.path('kept')
        with mock.patch.object(recordings, 'MOST_BEHIND', 150):
            its = self.recording(path, RecordingNote(path, None, '', (), path, 0, 0, 0, 0))
            for place in 99, 198:
                its.record(bytes(99), place, place)
                await its.wait_until_written(place, SECONDS)
            await asyncio.to_thread(its.close)
        self.assertEqual((its.why, os.path.getsize(path)), ('', 198))

    async def test_who_closes_it_waits(self) -> None:
        """Until all is written."""
        goes_on, path = threading.Event(), self.path('kept')
        its = self.recording(path, RecordingNote(path, None, '', (), path, 0, 0, 0, 0))
        with mock.patch.object(its, '_write', goes_on.wait):
            closes = asyncio.create_task(asyncio.to_thread(its.close))
            await asyncio.sleep(0.01)
            self.assertFalse(closes.done())
            goes_on.set()
            await closes
        self.assertTrue(its.is_over())

    async def test_one_that_is_too_slow(self) -> None:
        """It ends, is told once, and takes no more."""
        os.mkfifo(path := self.path('kept'))
        with closing(os.fdopen(os.open(path, os.O_RDWR), 'rb', buffering=0)), \
                mock.patch.object(recordings, 'MOST_BEHIND', 99), self.assertLogs('e1gw.watcher') as told:
            its = self.recording(path, None)
            self.assertEqual(its.note(7), RecordingNote(path, None, '', (), '', 7, 0, 0, 0))
            with mock.patch.object(its, '_write'):
                its.record(bytes(99), 99, 99)
                self.assertEqual(its.why, '')
                for _ in range(2):
                    its.record(b'x', 100, 100)
                await its.wait_until_written(200, SECONDS)
                await asyncio.to_thread(its.close)
        its.record(b'x', 101, 101)
        self.assertFalse(its._waiting)
        self.assertEqual([each.getMessage() for each in told.records],
                         [f'session ended, the calls go on: it takes too little: {path}'])


class LogReaderTests(support.LoopCase):
    """What is read of a log, by a clock of the test's own; a part may be written over before it is read."""

    def setUp(self) -> None:
        super().setUp()
        self.now, self.log = 5000.0, WrittenLog(self.path('log'))
        self.addCleanup(self.log.close)
        self.enterContext(mock.patch.object(reader, 'time', types.SimpleNamespace(
            time=time.time, monotonic=lambda: self.now)))
        self.reader = self.reads()

    def reads(self, wants: RecordingWants | None = None) -> LogReader:
        return LogReader(self.path('log'), 0.1, wants, lambda: None, bytes)

    def go(self, seconds: float, comes: bool = True, looks: bool = True) -> None:
        until, due = self.now + seconds, self.now + TICK
        while self.now < until:
            self.now += MULTIFRAME / OCTETS_A_SECOND
            if comes:
                self.log.multiframe()
            if looks and self.now >= due:
                due = self.now + TICK
                self.reader.read_at_tick()

    def written(self, at: float) -> None:
        """The log was written last at this time."""
        for name in RECORDS:
            os.utime(self.path(f'log/{name}'), (at, at))

    def goes_on(self) -> int:
        """The log goes on, so that who has read it up to now is overtaken. How many octets of the trunk come."""
        before = self.log.octets
        for _ in range(3):
            for _ in range(500):
                self.log.multiframe()
            self.log.turns()
        self.log.multiframe()
        return self.log.octets - before

    async def test_its_program_has_died(self) -> None:
        """Nobody can say where it was: what nobody read had the octets of its time, and the next program begins behind
        them. So does one of another service. If a clock was set meanwhile, no more than the log had."""
        self.log.multiframe()
        self.written(at := 1e9)
        self.reader.read_at_tick()
        for is_another in (False, True):
            if is_another:
                note, self.reader = self.reader.noted(), self.reads()
                self.reader.restore_note(note, None)
            self.written(at := at + self.goes_on() / OCTETS_A_SECOND)
            with self.assertLogs('e1gw.watcher.reader', 'WARNING'):
                await self.reader.keep_older_pair()
            self.assertEqual(self.reader.octets, self.log.octets)
        before, place = self.log.octets, self.log.place
        octets = self.goes_on()
        self.written(at + 1e6)
        with self.assertLogs('e1gw.watcher.reader', 'WARNING'):
            await self.reader.keep_older_pair()
        records = 501           # that the log still has, whose octets are counted
        self.assertEqual(self.reader.octets, before + octets + (self.log.place - place - octets) - 4 * records)

    async def test_it_ends(self) -> None:
        """And with it what tries a ring again."""
        runs = asyncio.create_task(self.reads(RecordingWants(self.path('ring'), 60, 'west', 'c', 200)).run())
        for _ in range(3):
            await asyncio.sleep(0)
        self.assertEqual(len(asyncio.all_tasks()), 2)
        runs.cancel()
        await asyncio.wait([runs])
        for _ in range(3):
            await asyncio.sleep(0)
        self.assertEqual(asyncio.all_tasks(), {asyncio.current_task()})

    async def test_what_is_not_read_is_no_gap(self) -> None:
        """It was found as one, told as a slip, and all calls were resynchronised; then octets came too early."""
        found = list[ClockFinding]()
        self.reader.found = found.append
        self.go(2)
        for _ in range(5):
            self.go(0.2, looks=False)
            self.log.turns()
        with self.assertLogs('e1gw.watcher.reader', 'WARNING'):
            self.go(0.2)
        self.assertTrue(self.reader.has_missed)
        self.reader.count_on(self.log.octets - self.reader.octets)
        self.go(2)
        self.assertEqual(found, [])

    async def test_its_program_does_not_say_where_it_is(self) -> None:
        """It hangs, or has no octets: what it tells otherwise is read, and it is asked again."""
        config, tell = self.write('trunk.toml', 'law = "A"\n[[circuit]]\nnumber = 1\n'), self.path('tell')
        trunk = PlainTrunk(self.reader, self.folder, config)
        setattr(trunk, 'missed_reports', mock.AsyncMock(return_value=None))
        with support.listening(tell) as listener, mock.patch.object(tell_client, 'PATIENCE', 0.01, create=True), \
                mock.patch.object(tell_client, 'REST', 0.001):
            its = tell_client.TellClient(trunk, 'west', lambda event: None, DatagramCounts(), lambda line: None)
            follows = asyncio.create_task(its.run())
            await asyncio.sleep(0)
            with listener.accept()[0] as line:
                line.sendall('\n'.join([*BEGIN, 'now', '']).encode())
                await self.until(lambda: its.state.live)
                self.reader.has_missed = True
                for state in 'seized', 'acked':
                    line.sendall(f'{row(1, state)}\n'.encode())
                    await self.until(lambda: its.state.lines[1].state == state)
                self.assertTrue(self.reader.has_missed)
            follows.cancel()
            await asyncio.wait([follows])

    async def test_overtaken(self) -> None:
        """Who missed a part counts on from where the program says that the trunk is, and no octet twice."""
        self.log.multiframe()
        self.reader.read_at_tick()
        for _ in range(3):
            self.log.multiframe()
            self.log.turns()
        self.log.multiframe()
        told = 5 * MULTIFRAME
        self.reader.told = lambda: told
        with self.assertLogs('e1gw.watcher.reader', 'WARNING'):
            self.reader.read_at_tick()
        self.assertEqual(self.reader.octets, told)
        self.log.multiframe()
        self.reader.read_at_tick()
        self.assertEqual(self.reader.octets, told + MULTIFRAME)

    async def test_where_a_program_says_that_it_is(self) -> None:
        """Who has missed a part counts on from there. One that does not say it has told something else, or has gone."""
        self.reader.read_at_tick()
        self.reader.octets, self.reader.has_missed = 1000, True
        tells = iter([b'e1gw tell 1 A\nat 2048\nalarms', b'e1gw tell 1 A\nat 2560\n', *3 * [b'e1gw tell 1 A\nat 512\n'],
                      b'x' * 300, b'e1gw tell 1 A\n'])

        def serve_place(_: asyncio.StreamReader, writer: asyncio.StreamWriter) -> None:
            writer.write(next(tells))
            writer.close()
        await asyncio.start_unix_server(serve_place, self.path('tell'))
        its = PlainTrunk(self.reader, self.folder, '', 500)
        await its.know_place()
        await its.know_place()              # (nothing is missed any more)
        self.assertEqual((self.reader.octets, self.reader.has_missed), (500 + 2560, False))
        for _ in range(2):
            self.reader.has_missed = True
            with self.assertRaisesRegex(OSError, 'it does not tell where it is'):
                await its.know_place()

    async def test_slips_are_noted(self) -> None:
        """Beside the file of a ring, at the place where octets were lost; and what a program had in hand."""
        self.reader = self.reads(RecordingWants(self.path('ring'), 60, 'west', '/etc/west.toml', 200))
        self.reader.restore_note(ReadingNote(), None)
        self.reader.on_next_program(True)
        self.go(2)
        place = self.log.octets
        self.go(0.25, comes=False)
        self.go(2)
        await self.reader.finish()
        (path,) = glob.glob(self.path('ring/*.json'))
        slips = json.loads(support.text_of(path))['slips']
        self.assertEqual(slips[0], [0, 0.008])
        self.assertEqual([seconds for _, seconds in slips[1:]], [0.25])
        self.assertLess(abs(slips[1][0] - place), 0.2 * OCTETS_A_SECOND)
