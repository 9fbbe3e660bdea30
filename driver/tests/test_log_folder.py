"""The folder of a log: what is read of it while it is written, killed inside a write and damaged."""
from __future__ import annotations

import os
import unittest
from typing import Callable
from unittest import mock

from . import support
from e1gw import log_folder
from e1gw.log_folder import (HEAD_LEN, RECORDS, STATES, FolderReader, LogBegun, LogFiles, LogNews, LogPair,
                                     LogPiece, LogState, LogTurn, LogWriter, NoRoom, head_of)

ROOM = 1 << 12              # octets of the files
STEPS = 300


class Killed(Exception):
    """The process that writes has ended."""


class LogRoomTests(unittest.TestCase):
    def test_what_the_program_gives_them(self) -> None:
        text = support.text_of(os.path.join(support.TOP, 'crates', 'gw_open', 'src', 'log_folder.rt'))
        for name in 'STATE_ROOM', 'RECORDS_ROOM':
            self.assertIn(f'{name}: u64 = {getattr(log_folder, name):_};', text)


class LogFolderCase(support.FolderCase):
    """A log, its writer, and what was written."""

    def setUp(self) -> None:
        super().setUp()
        patched = mock.patch.multiple(log_folder, STATE_ROOM=ROOM, RECORDS_ROOM=ROOM)
        patched.start()
        self.addCleanup(patched.stop)
        self.chance = support.chance_of(self)
        self.written, self.states = b'', dict[int, bytes]()     # the octets of records; the states, by their places
        self.writer = self.writes(0)
        self.turns()

    def writes(self, turn: int) -> LogWriter:
        writer = LogWriter(self.folder, turn)
        self.addCleanup(writer.close)
        return writer

    def files(self) -> LogFiles:
        files = LogFiles(self.folder)
        self.addCleanup(files.close)
        return files

    def append(self) -> None:
        octets = self.chance.randbytes(self.chance.randrange(1, 200))
        try:
            self.writer.append(octets)
        except NoRoom:
            return self.turns()
        self.written += octets

    def turns(self) -> None:
        """Another state is written."""
        state = self.chance.randbytes(self.chance.randrange(1, 300))
        self.states[len(self.written)] = state
        self.writer.begin(len(self.written), state)

    def is_told(self, news: LogNews, place: int) -> int:
        """What a reader tells that has read up to a place is so. How far it is behind that."""
        if isinstance(news, LogPiece):
            self.assertEqual(news.place, place)
            self.assertEqual(news.octets, self.written[place:place + len(news.octets)])
            return place + len(news.octets)
        self.assertEqual(self.states[news.state.place], news.state.state)
        if isinstance(news, LogTurn):
            self.assertEqual(news.state.place, place)
        elif place >= 0:
            self.assertEqual((news.missed, news.is_anew), (news.state.place - place, False))
        return news.state.place


class FolderReaderTests(LogFolderCase):
    def within(self, looks: Callable[[], object]) -> mock._patch[object]:
        """A look before, within and behind each write of a file."""
        def writes(file: int, octets: bytes, place: int) -> None:
            looks()
            middle = self.chance.randrange(len(octets) + 1)
            for part, at in ((octets[:middle], place), (octets[middle:], place + middle)):
                os.pwrite(file, part, at)
                looks()
        return mock.patch.object(log_folder, 'write_at', writes)

    def read(self, often: float) -> tuple[int, list[LogNews]]:
        """A reader that looks at so many of the moments: what it tells, and how far it has read."""
        reader, place, told = FolderReader(self.files()), -1, list[LogNews]()

        def looks() -> None:
            nonlocal place
            self.written, held = self.written + self.hand, self.written       # (it may be there, and not yet counted)
            if self.chance.random() < often:
                for news in reader.read_news():
                    place = self.is_told(news, place)
                    told.append(news)
            self.written = held
        self.hand = b''
        with self.within(looks):
            for _ in range(STEPS):
                self.hand = self.chance.randbytes(self.chance.randrange(1, 200))
                try:
                    self.writer.append(self.hand)
                    self.written, self.hand = self.written + self.hand, b''
                except NoRoom:
                    self.hand = b''
                    self.turns()
        for news in reader.read_news():
            place = self.is_told(news, place)
            told.append(news)
        return place, told

    def test_who_looks_often_sees_all(self) -> None:
        place, told = self.read(1.0)
        self.assertEqual([type(news) for news in told if isinstance(news, LogBegun)], [LogBegun])
        self.assertEqual(place, len(self.written))
        self.assertEqual({news.state.place for news in told if not isinstance(news, LogPiece)}, {*self.states})

    def test_who_looks_seldom_knows_what_he_missed(self) -> None:
        place, _ = self.read(0.01)
        self.assertEqual(place, len(self.written))
        reader = FolderReader(self.files(), place - 1)
        self.assertFalse(reader.is_overtaken())         # (nothing was read yet)
        reader.read_news()
        place = reader.place
        for turn in range(4):
            self.assertEqual(reader.is_overtaken(), turn > 1)
            self.turns()
            self.append()
        for news in reader.read_news():
            place = self.is_told(news, place)
        self.assertEqual(place, len(self.written))

    def test_written_over_while_it_is_read(self) -> None:
        """Between any two reads of a look the writer may go on, by turns if need be: what is told is so still."""
        reader, place, read = FolderReader(self.files()), -1, os.pread

        def reads(file: int, length: int, start: int) -> bytes:
            for _ in range(self.chance.choice((0, 0, 0, 1, 30))):
                self.append()
            octets = read(file, length, start)
            for _ in range(self.chance.choice((0, 0, 0, 1, 30))):
                self.append()
            return octets
        for _ in range(STEPS // 10):
            with mock.patch('os.pread', reads):
                found = reader.read_news()
            for news in found:
                place = self.is_told(news, place)
        for news in reader.read_news():
            place = self.is_told(news, place)
        self.assertEqual(place, len(self.written))

    def test_on_from_a_place(self) -> None:
        """Another reader goes on where the one before it was, or at the older state; of another log it begins anew."""
        for _ in range(20):
            self.append()
        before = len(self.written)
        self.turns()
        while len(self.written) < before + 2:       # (the place before + 1 is to have more behind it)
            self.append()
        found = FolderReader(self.files(), before - 7).read_news()
        self.assertEqual([type(news) for news in found], [LogPiece, LogTurn, LogPiece])
        self.assertEqual([self.is_told(news, before - 7) for news in found[:1]], [before])
        found = FolderReader(self.files(), before + 1).read_news()
        self.assertEqual([self.is_told(news, before + 1) for news in found], [len(self.written)])
        self.assertEqual(FolderReader(self.files(), len(self.written)).read_news(), [])
        found = FolderReader(self.files(), 0).read_news()
        self.assertEqual([type(news) for news in found], [LogPiece, LogTurn, LogPiece])
        (first, _) = FolderReader(self.files(), len(self.written) + 1).read_news()
        assert isinstance(first, LogBegun)
        self.assertTrue(first.is_anew)
        self.turns()
        found = FolderReader(self.files(), 0).read_news()
        self.assertEqual([type(news) for news in found], [LogBegun, LogPiece, LogTurn])
        assert isinstance(found[0], LogBegun)
        self.assertEqual((found[0].missed, found[0].is_anew, found[0].state.place), (before, False, before))

    def test_room(self) -> None:
        """To the last octet of a file."""
        room = ROOM - HEAD_LEN
        for most, puts in ((room, self.writer.append), (room - 12, lambda octets: self.writer.begin(0, octets)),
                           (room, lambda octets: self.writer.begin(0, b'', octets))):
            puts(bytes(most))
            with self.assertRaises(NoRoom):
                puts(bytes(most + 1))
            self.assertEqual(os.path.getsize(self.path(RECORDS[0])), ROOM)
            self.writer.begin(0, b'')

    def test_a_folder_that_is_gone(self) -> None:
        """What was open can be read still."""
        self.append()
        files = self.files()
        self.assertTrue(files.are_in(self.folder))
        for name in (*STATES, *RECORDS):
            os.unlink(self.path(name))
        self.assertFalse(files.are_in(self.folder))
        self.assertEqual(files.last(), LogPair(1, 0, self.states[0], self.written))
        self.write(STATES[0], b'')
        before = self.held()
        with self.assertRaises(FileNotFoundError):
            LogFiles(self.folder)
        self.assertEqual(self.held(), before)       # (nothing stays open)


class KilledWriterTests(LogFolderCase):
    def test_a_write_that_is_cut(self) -> None:
        """At any octet: the log has what was there, or that with what was being written; and goes on."""
        for _ in range(STEPS):
            kept, left = (len(self.written), self.files().last()), self.chance.randrange(400)

            def writes(file: int, octets: bytes, place: int) -> None:
                nonlocal left
                if len(octets) == HEAD_LEN:     # (the system writes a head whole)
                    left = 0 if left < HEAD_LEN else left
                os.pwrite(file, octets[:left], place)
                left -= len(octets)
                if left < 0:
                    raise Killed
            octets, state = self.chance.randbytes(150), self.chance.randbytes(250)
            with mock.patch.object(log_folder, 'write_at', writes):
                try:
                    if self.chance.randrange(2):
                        self.writer.append(octets)
                    else:
                        self.writer.begin(kept[0], state)
                except (Killed, NoRoom):
                    pass
            found = self.files().last()
            assert found and kept[1]
            before = kept[1]
            self.assertIn((found.state, found.records, found.end), (
                (before.state, before.records, kept[0]), (state, b'', kept[0]),
                (before.state, before.records + octets, kept[0] + 150)))
            self.written = b'-' * found.end
            self.writer = self.writes(found.turn)       # (which makes the files again, as a new machine does)
            self.writer.begin(found.end, found.state)


class DamagedFolderTests(LogFolderCase):
    def test_any_octet(self) -> None:
        """The pair before is taken, or none: never a state or records that were not written."""
        self.append()
        first = LogPair(1, 0, self.states[0], self.written)
        self.turns()
        self.append()
        second = LogPair(2, len(first.records), self.states[len(first.records)], self.written[len(first.records):])
        files = self.files()
        self.assertEqual((files.last(), files.newest()), (second, 0))
        rows = ((STATES[0], 12 + len(second.state)), (RECORDS[0], len(second.records)), (STATES[1], 0), (RECORDS[1], 0))
        for name, more in rows:
            length = HEAD_LEN + more
            whole = support.octets_of(self.path(name))
            for place in range(length):
                with open(self.path(name), 'r+b', buffering=0) as file:
                    file.seek(place)
                    file.write(bytes([whole[place] ^ 1 << self.chance.randrange(8)]))
                    self.assertEqual(files.last(), first if name.endswith('0') else second, (name, place))
                    file.seek(place)
                    file.write(whole[place:place + 1])

    def test_no_heads(self) -> None:
        for octets in (b'', bytes(HEAD_LEN), b'E1GL' + bytes(20)):
            self.assertIsNone(head_of(octets))
        self.assertEqual(log_folder.state_in(1, b'E1GC' + bytes(7) + b'\5xy'), LogState(1, 5, b'xy'))
        self.assertIsNone(log_folder.state_in(1, b'E1GS' + bytes(30)))

