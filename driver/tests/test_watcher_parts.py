"""The parts of a watcher: what it makes of what a holder and a program say, what it notes, and what it asks."""
from __future__ import annotations

import asyncio
import json
import os
import unittest
from contextlib import closing
from unittest import mock

from . import support
from e1gw.events import (Crc4Changed, Event, LogLost, RoleGiven, SatopChanged, SendersGiven, TrunkLost,
                         TrunkOpened)
from e1gw.calls import CallRecord, CallsNote, CircuitNote
from e1gw.counts import PacketsNote, ToldCounts
from e1gw.crc4 import Crc4Note
from e1gw.holder_state import ACTIVE, INTERFACE, STANDBY, HolderState, TrunkPlaces, other_interface, state_in
from e1gw_common.answers import DONE, AnswerWord, CommandAnswer, refused
from e1gw_common.lines import LineCounts
from e1gw_common.plain import plain_of
from e1gw.lock import InUse
from e1gw.log_folder import LogPair, LogWriter, logged_by
from e1gw_common.session import MULTIFRAME, trunk_record
from e1gw.slots import SlotsNote
from e1gw.status import TransportStatus
from e1gw.watcher import ask_holder
from e1gw.watcher.flow import Flow
from e1gw.watcher.blocks import BlockStage, BlockedCircuits
from e1gw.watcher.held import HeldNote, HeldTrunk, events_of, fault_of, nearest, wait_of
from e1gw.watcher.main import WatchLock, is_over, parser
from e1gw.watcher.memo import WatchNote, blocks_told, note_in
from e1gw.watcher.missed import replay_reports
from e1gw.watcher.process import start_process
from e1gw.watcher.reader import LogReader, ReadingNote
from e1gw.watcher.recordings import RecordingNote
from e1gw.watcher.program_output import LineNote, SaidFile, SaidLine, SaidNote
from e1gw.watcher.tell_client import ToldNote
from e1gw.watcher.watch import ShownNote

STATE = HolderState(INTERFACE, '0.1.0', 7, 8, 9, 5.0, 'begins', False, True, 4.0, '', 0, (), '0.1.0', 'host', False,
                    ACTIVE, '/dev/e1', ('--crc4', '--live', '--seizure-wait', '700'), '')
OPENED = TrunkOpened('/dev/e1', {'trunk': '/dev/e1'})


class HolderSaysTests(unittest.TestCase):
    def test_events(self) -> None:
        """Of each change, and of none twice."""
        closed = STATE._replace(open=False, fault='the trunk has ended', program=0)
        died = STATE._replace(program=18, why='the program ended by signal 9 (SIGKILL)')
        lost = STATE._replace(why='the program says: cannot write the log: No space left')
        cases: list[tuple[HolderState | None, HolderState, list[Event]]] = [
            (None, STATE, [OPENED]), (STATE, STATE, []), (STATE, died, []), (None, closed, []),
            (STATE, closed, [TrunkLost('the trunk has ended')]), (closed, STATE, [OPENED]),
            (STATE, STATE._replace(opened=6.0, why='the trunk has ended'), [TrunkLost('the trunk has ended'), OPENED]),
            (STATE, lost, [LogLost()]), (lost, lost._replace(since=9.0), []),
            (STATE, closed._replace(role=STANDBY), [RoleGiven(STANDBY)]),
            (None, STATE._replace(senders='any'), [SendersGiven('any'), OPENED]),
            (STATE._replace(senders='any'), STATE, [SendersGiven('host')]),
            (STATE, STATE._replace(senders='peer'), [SendersGiven('peer')]), (STATE, STATE._replace(senders=''), [])]
        for before, now, told in cases:
            self.assertEqual(events_of(before, now, TransportStatus(now.trunk)), told)

    def test_what_it_means(self) -> None:
        self.assertEqual(state_in(STATE.spell()), STATE)
        self.assertEqual([fault_of(each) for each in (
            STATE, STATE._replace(fault='away'), STATE._replace(role=STANDBY), other_interface(9))],
            ['', 'away', 'standby', f'the holder has interface 9, and its watcher knows {INTERFACE}'])
        self.assertEqual([wait_of(STATE.words), wait_of(())], [700, 200])
        self.assertEqual([nearest([0, 5000, 9000], 5512), nearest([], 512), nearest([], -512), nearest([0], 200_000)],
                         [5000, 512, 0, 200_000])


class WatchNoteTests(unittest.TestCase):
    def test_all_of_it(self) -> None:
        """It is read as it was noted; what is none, or of another version, is none."""
        note = WatchNote(
            HeldNote(STATE, '8.9', 512, 8, 'ab', LineNote(SaidNote(3, 4), SaidNote(), Crc4Note(
                {'errored': 1}, None, {}), SlotsNote(False, 1, 2, 3)), 8, 1),
            ReadingNote(1, 2, 3, ((4, 5.0),), 6.0, 7, 8.0),
            ToldNote(True, 1.0, (True, False) * 2, (1, 2), Flow(1, 2.0, 3.0, 4)),
            ShownNote((('trunk open', 1.0),), (('alarm frame', 'LFA', 2.0),), ('a,b',), {1: 'Late'}, 5,
                      (('seize', 'done', 6),)), {1: 'BLOCKED'}, {3: 7},
            RecordingNote('s', 60, '', (('a', 1),), 'p', 1, 2, 3, 4),
            CallsNote(1, 2, 2.0, {1: CircuitNote('idle', 4.0, None, LineCounts(3, 4, 5, 6, 7.0), PacketsNote(
                ToldCounts(1), ToldCounts(2, 3), 4, 'Late'))}, (CallRecord(1, 2.0, 3),), {1: {'sent': 5}}, ('line',)))
        self.assertEqual(note_in(note.text()), note)
        for octets in b'', b'{}', note.text().replace(b'"version": 2,', b'"version": 1,'), note.text()[:-9]:
            self.assertIsNone(note_in(octets))

    def test_blocks(self) -> None:
        """What was told of a circuit is not told again, nor of one that is no longer blocked."""
        kept = BlockedCircuits().add((1, 2))
        self.assertEqual(blocks_told(kept, {1: 'BLOCKED', 3: 'IDLE'}).circuits,
                         {1: BlockStage.BLOCKED, 2: BlockStage.TAKEN})
        self.assertEqual(blocks_told(kept, {1: 'x'}), kept)


class SaidFileTests(support.FolderCase):
    def test_lines(self) -> None:
        """Whole ones, once each, also behind those of another watcher; None where another process begins."""
        self.write('said', 'one\ntw')
        its = SaidFile(self.path('said'), SaidNote())
        self.assertEqual([[*its.read_lines()], [*its.read_lines()]], [[None, 'one'], []])
        self.write('said', 'one\ntwo\n')
        later = SaidFile(self.path('said'), its.note)
        self.assertEqual([[*later.read_lines()], [*its.read_lines()]], [['two'], ['two']])
        self.write('said', 'x\n')               # (it was cut, as too long)
        self.assertEqual([*its.read_lines()], ['x'])
        self.write('new', 'three\n')
        with open(self.path('said'), 'a', encoding='ascii') as file:
            file.write('last\n')
        os.replace(self.path('new'), self.path('said'))
        self.assertEqual([*its.read_lines()], ['last', None, 'three'])
        os.unlink(self.path('said'))
        self.assertEqual([*its.read_lines()], [])
        its.close()
        later.close()

    def test_datagrams_without_a_socket(self) -> None:
        """As many as packets are told, unless the far end is at this machine: they may be our own."""
        for far, is_told in ('192.0.2.1:5001', True), ('127.0.0.1:5001', False):
            self.write('satop', '')
            self.write('satop.ends', json.dumps({'words': ['127.0.0.1:5000', far, '--size', '256']}))
            told = list[Event]()
            its = SaidLine(self.path('said'), self.path('satop'), (), None, told.append)
            with mock.patch('e1gw.watcher.program_output.unheard', side_effect=(5000, 6000)):
                for ticks in 1000, 2000:
                    with open(self.path('satop'), 'a', encoding='ascii') as file:
                        file.write(f'satop received=0 ticks={ticks}\n')
                    its.take_lines()
            self.assertEqual(any('source port' in each.words() for each in told), is_told, far)
            its.close()

    def test_of_the_line(self) -> None:
        """CRC-4 and packets are counted and told; totals are not, and the rest is for the operator."""
        live = 'live submultiframes {} errored 0 far_end_errored 0 multiframes_found 1 multiframes_lost 0 given_up 0\n'
        self.write('said', live.format(500) + 'octets 512\nodd words\n')
        self.write('satop', 'satop received=9 ticks=4\n')
        told = list[Event]()
        its = SaidLine(self.path('said'), self.path('satop'), STATE.words, None, told.append)
        with self.assertLogs('e1gw.watcher.program_output') as logs:
            its.take_lines()
        self.assertEqual([each.getMessage() for each in logs.records], ['program: odd words'])
        self.assertEqual([type(each) for each in told], [Crc4Changed, SatopChanged])
        assert its.crc4
        self.assertEqual((its.crc4.counts['submultiframes'], plain_of(its.status('x'))['silent']), (500, 1))
        later = SaidLine(self.path('said'), self.path('satop'), STATE.words, its.noted(), told.append)
        later.take_lines()
        assert later.crc4
        self.assertEqual((later.crc4.counts['submultiframes'], len(told)), (500, 2))
        self.write('new', live.format(100))
        os.replace(self.path('new'), self.path('said'))
        later.take_lines()                            # (another program counts from 0)
        self.assertEqual(later.crc4.counts['submultiframes'], 600)
        for each in its, later:
            each.close()


class WatchLockTests(support.FolderCase):
    def test_lock(self) -> None:
        """One has it; it is taken again in a folder that was made again, and waited for without one."""
        path = self.path('run/watch.lock')
        first, second = WatchLock(path), WatchLock(path)
        self.assertFalse(first.take())
        os.mkdir(self.path('run'))
        self.assertTrue(first.take() and first.take())
        with self.assertRaisesRegex(InUse, f'^{os.getpid()}$'):
            second.take()
        os.unlink(path)
        self.assertTrue(first.take())
        with self.assertRaises(InUse):
            second.take()

    def test_end_of_a_trunk(self) -> None:
        """A holder that has ended leaves nothing; one that was killed leaves its lock, and one that lives its file."""
        places = TrunkPlaces(self.path('run'))
        self.assertTrue(is_over(places))
        self.write('run.lock', '')
        self.assertFalse(is_over(places))
        os.unlink(self.path('run.lock'))
        os.mkdir(self.path('run'))
        self.write('run/holder', '')
        self.assertFalse(is_over(places))

    def test_options(self) -> None:
        """A page of them: no more than 20."""
        words = {word for each in parser()._actions for word in each.option_strings if word.startswith('--')}
        self.assertLessEqual(len(words - {'--help'}), 20)


class OpenLogTests(support.FolderCase):
    def test_reads_that_fail(self) -> None:
        """It is told once, and nothing of the log is missed, or read twice."""
        writer = LogWriter(self.path('log'))
        self.addCleanup(writer.close)
        writer.begin(0, b'state', trunk_record(bytes(MULTIFRAME)))
        reader = LogReader(self.path('log'), 0.1, None, lambda: None, lambda: b'')
        self.addCleanup(reader.log.close)
        reader.restore_note(ReadingNote(), None)
        reader.read_at_tick()
        writer.append(trunk_record(bytes(MULTIFRAME)))
        with mock.patch('os.pread', side_effect=OSError(5, 'Input/output error')), \
                self.assertLogs('e1gw.watcher.open_log') as told:
            for _ in range(3):
                reader.read_at_tick()
            self.assertEqual(reader.log.pairs(), [])
        self.assertEqual([each.getMessage() for each in told.records],
                         ['the log cannot be read: Input/output error; it is tried again'])
        with self.assertLogs('e1gw.watcher.open_log') as told:
            reader.read_at_tick()
            reader.read_at_tick()
        self.assertEqual([each.getMessage() for each in told.records], ['the log is read again'])
        self.assertEqual(reader.octets, 2 * MULTIFRAME)

    def test_slips_are_counted_on(self) -> None:
        first, later = (LogReader(self.path('log'), 0.1, None, lambda: None, lambda: b'') for _ in range(2))
        first.clock.gaps, first.clock.lost_seconds = 2, 0.5
        later.restore_note(first.noted(), None)
        self.assertEqual((later.clock.status().gaps, later.clock.status().gap_seconds), (2, 0.5))

    def test_who_has_it(self) -> None:
        os.mkdir(self.path('log'))
        self.assertEqual(logged_by(self.path('log')), 0)
        for text, number in (('', 0), ('x', 0), ('123\n', 123)):
            self.write('log/lock', text)
            self.assertEqual(logged_by(self.path('log')), number)


class HolderDoorTests(support.LoopCase):
    async def answers(self, answer: bytes | None) -> CommandAnswer:
        """What is made of an answer of a holder; of one that answers nothing with None."""
        async def answer_word(reader: asyncio.StreamReader, writer: asyncio.StreamWriter) -> None:
            self.said = await reader.readline()
            if answer is None:
                await reader.read()
            else:
                writer.write(answer)
            writer.close()
        server = await asyncio.start_unix_server(answer_word, self.path('hold'))
        try:
            return await ask_holder.ask(self.path('hold'), 'reload force', 0.1 if answer is None else None)
        finally:
            server.close()
            os.unlink(self.path('hold'))

    async def test_each_request_has_an_answer(self) -> None:
        for said, answer in (
                (b'reload: done\n', DONE), (b'reload: refused: x: no\n', refused('x: no')),
                (b'reload: circuits 3\nreload: done\n', DONE._replace(told=('circuits 3',))),
                (b'what?\n', refused('what?')),
                (b'', CommandAnswer(AnswerWord.UNKNOWN, 'the holder has ended before it has answered')),
                (None, CommandAnswer(AnswerWord.UNKNOWN, 'the holder does not answer within 0.1 s'))):
            self.assertEqual(await self.answers(said), answer)
            self.assertEqual(self.said, b'reload force\n')
        self.assertRegex((await ask_holder.ask(self.path('hold'), 'quit')).lines('quit'),
                         'quit: refused: there is no holder: .*No such file')


class HeldTrunkTests(support.LoopCase):
    async def test_with_which_octet_a_program_begins(self) -> None:
        """Also if its log is in a folder that was made again, and nobody has looked since."""
        record, places = trunk_record(bytes(MULTIFRAME)), TrunkPlaces(self.folder)
        trunk = HeldTrunk(places, STATE, 'e1gw', '', mock.Mock(), None)
        trunk.set_reader(reader := LogReader(places.log, 1.0, None, mock.Mock(), bytes))
        self.addCleanup(reader.log.close)
        for folder, more in (places.log, 0), (self.path('again'), 3):
            with closing(LogWriter(folder)) as log:
                log.begin(0, b'', record)
                if more:
                    log.begin(len(record), b'', more * record)
                    support.remove(places.log)
                    os.rename(folder, places.log)
            reader.read()
            self.assertEqual(reader.octets, MULTIFRAME)
        with open(f'{places.log}/lock', 'w', encoding='ascii') as lock:
            lock.write(f'{os.getpid()}\n')

        def answer_word(_: asyncio.StreamReader, writer: asyncio.StreamWriter) -> None:
            writer.write(f'e1gw tell 1 A\nat {3 * MULTIFRAME}\n'.encode())
            writer.close()
        await asyncio.start_unix_server(answer_word, places.tell_path)
        await trunk.know_place()
        self.assertEqual((trunk.start_octet(), reader.octets), (MULTIFRAME, 4 * MULTIFRAME))


class ToldAgainTests(support.LoopCase):
    """A replay at which nobody can connect any more is not waited for, however long one may take to begin."""

    def asked(self, *words: str) -> asyncio.Task[bytes]:
        """A log is read again by this command, which listens nowhere."""
        version = mock.Mock(start=lambda _, *more: start_process(words[0], words, *more))
        return asyncio.create_task(replay_reports(version, [LogPair(1, 0, b'', b'')], self.folder))

    async def test_one_that_ends(self) -> None:
        with self.assertRaises(OSError):
            await self.asked('/bin/false')

    async def test_whose_folder_is_removed(self) -> None:
        task = self.asked('/bin/sleep', '900')
        await self.until(lambda: os.listdir(self.folder))
        support.remove(self.folder)
        with self.assertRaises(OSError):
            await task
