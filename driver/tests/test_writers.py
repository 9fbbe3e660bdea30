"""Files of lines: places that cannot be written to, files that are moved away and full ones."""
from __future__ import annotations

import errno
import os
import threading
from unittest import mock

from . import support
from e1gw_common.call_lines import FIELDS
from e1gw_common.line_files import KEPT, MOST_OCTETS
from e1gw_common import line_files
from e1gw_common.line_files import EventFile
from e1gw_common.writers import put_file, write_all


class LineFileTests(support.FolderCase):
    def setUp(self) -> None:
        super().setUp()
        self.fifo = self.path('fifo')
        os.mkfifo(self.fifo)
        self.ended: list[str | None] = []

    def test_a_fifo_that_somebody_reads_in_time(self) -> None:
        file = EventFile('json', self.fifo, lambda what, why: self.ended.append(why))
        file.write_line('abc')
        with open(self.fifo, 'rb') as reads:
            file.write_line('def')
            self.assertEqual(reads.read(8), b'abc\ndef\n')
            file.close()
        self.assertEqual(self.ended, [])

    def test_what_somebody_has_made_non_blocking(self) -> None:
        """All is written."""
        reads, writes = os.pipe()
        self.addCleanup(os.close, reads)
        os.set_blocking(writes, False)
        (thread := threading.Thread(target=write_all, args=(writes, bytes(200_000)), daemon=True)).start()
        left = 200_000
        while left:
            left -= len(os.read(reads, left))
        thread.join()
        os.close(writes)

    def test_what_is_put_up_to_the_disk(self) -> None:
        """It is there before it takes the place of what was."""
        with mock.patch.multiple(os, fsync=(calls := mock.Mock()).fsync, replace=calls.replace):
            put_file(self.path('state'), b'x')
            put_file(self.path('state'), b'x', is_synced=True)
        self.assertEqual([name for name, *_ in calls.mock_calls], ['replace', 'fsync', 'replace'])

    def test_a_place_that_cannot_be_had(self) -> None:
        for path, why in ((f'{self.fifo}/none', 'Not a directory'), ('/dev/full', 'No space left on device')):
            with self.subTest(path):
                self.ended.clear()
                file = EventFile('json', path, lambda what, why: self.ended.append(why))
                file.write_line('abc')
                support.until(lambda: self.ended)
                self.assertEqual(self.ended, [f'{why}: {path}'])
                file.close()

    def test_a_disk_that_is_full_for_a_while(self) -> None:
        """A line waits until it is written, whole and once; at the end it is tried once more."""
        path, writes, is_full = self.path('calls'), os.write, False
        ended, tried = list[str | None](), threading.Semaphore(0)

        def write(file: int, octets: bytes) -> int:
            """A full disk has room for a part of a line."""
            if not is_full or octets == b'line 2\n':
                return writes(file, octets[:3] if is_full else octets)
            tried.release()
            raise OSError(errno.ENOSPC, 'No space left on device')
        with mock.patch.object(os, 'write', write), mock.patch.object(line_files, 'AGAIN', 0.01):
            file = EventFile('calls', path, lambda name, why: ended.append(why), 'head')
            file.write_line('line 1')
            support.until(lambda: not file.waiting)
            is_full = True
            file.write_line('line 2')
            file.write_line('line 3')
            for _ in range(3):
                tried.acquire()
            support.until(lambda: support.text_of(path) == 'head\nline 1\n')
            self.assertEqual(([*file.waiting], ended), (['line 2', 'line 3'], [f'No space left on device: {path}']))
            is_full = False
            support.until(lambda: not file.waiting)
            self.assertEqual(support.text_of(path), 'head\nline 1\nline 2\nline 3\n')
            self.assertEqual(ended[1:], [None])
        with mock.patch.object(os, 'write', write):
            is_full = True
            file.write_line('line 4')
            support.until(lambda: ended[2:])
            file.close()
        self.assertEqual(([*file.waiting], file._thread.is_alive()), (['line 4'], False))

    def test_room_at_the_end(self) -> None:
        """What has failed is tried once more."""
        os.mkdir(path := self.path('calls'))
        file = EventFile('calls', path, lambda what, why: self.ended.append(why), 'head')
        file.write_line('line')
        support.until(lambda: self.ended)
        os.rmdir(path)
        file.close()
        self.assertEqual(support.text_of(path), 'head\nline\n')

    def test_a_stream(self) -> None:
        """One that is open already, as standard output; it stays so."""
        reads, writes = os.pipe()
        with open(reads, 'rb') as taken, open(writes, 'w', encoding='utf-8') as stream:
            file = EventFile('json', stream, lambda what, why: self.ended.append(why))
            file.write_line('line 1')
            file.write_line('line 2')
            self.assertEqual(taken.read(14), b'line 1\nline 2\n')
            file.close()
            self.assertEqual((stream.closed, self.ended), (False, []))

    def test_one_that_takes_too_little(self) -> None:
        """What there is no room for is not kept."""
        with mock.patch.object(line_files, 'MOST_WAITING', 3):
            file = EventFile('json', '/dev/full', lambda what, why: self.ended.append(why))
            for number in range(5):
                file.write_line(f'{number}')
            self.assertEqual([*file.waiting], ['0', '1', '2'])
            file.close()

    def test_a_file_that_is_moved_away(self) -> None:
        """Lines went on into it, or into one that nobody could read any more."""
        ended: list[str | None] = []
        file = EventFile('calls', self.path('calls'), lambda name, why: ended.append(why), 'head')
        for number in range(3):
            file.write_line(f'line {number}')
            support.until(lambda: os.path.exists(self.path('calls'))
                          and support.text_of(self.path('calls')).endswith(f'line {number}\n'))
            if number == 0:
                os.rename(self.path('calls'), self.path('moved'))
            elif number == 1:
                os.unlink(self.path('calls'))
        file.close()
        self.assertEqual({os.stat(self.path(name)).st_mode & 0o777 for name in ('moved', 'calls')}, {0o640})
        moved, calls = (support.text_of(self.path(name)) for name in ('moved', 'calls'))
        self.assertEqual((moved, calls, ended), ('head\nline 0\n', 'head\nline 2\n', []))

    def test_a_full_file_is_moved_away(self) -> None:
        self.assertIn(f'A file of {MOST_OCTETS >> 20} MiB is renamed', support.text_of(
            f'{support.TOP}/dist/man/e1gw-watch.1'))
        for kind, head in ('calls', ','.join(FIELDS) + '\n'), ('events', ''):
            with mock.patch.object(line_files, 'MOST_OCTETS', len(head) + 25):
                file = EventFile(kind, self.path(kind), lambda _, why: self.fail(why), head.strip())
                for number in range(10, 40):
                    file.write_line(f'line of {number}')
                file.close()
            names = sorted(name for name in os.listdir(self.folder) if name.startswith(kind))
            self.assertEqual(names, [kind, *(f'{kind}.{n}' for n in range(1, KEPT + 1))])
            for name, line in ((kind, '39'), (f'{kind}.1', '37'), (f'{kind}.{KEPT}', '21')):
                text = support.text_of(self.path(name))
                self.assertEqual((text.startswith(head), line in text), (True, True), name)
