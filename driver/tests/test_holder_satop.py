"""The line of an emulated circuit, whose `e1gw satop` is a script: what becomes of it, and of its numbers."""
from __future__ import annotations

import errno
import os
import signal
import stat
import sys
import time
from functools import partial
from typing import Callable
from unittest import mock

from . import support
from .world import words_of
from e1gw.holder import satop_line
from e1gw.holder.loop import Loop
from e1gw.holder.options import LineWants
from e1gw.holder.satop_line import BROKEN, ENDED, ONES, SatopLine
from e1gw.trunks import Stream

# It says that it has sent three packets, and gives each octet back, its bits the other way round.
SCRIPT = '''
import os, sys
print('satop received=3 sent=3', file=sys.stderr, flush=True)
while octets := os.read(0, 4096):
    os.write(1, bytes(255 - each for each in octets))
'''
FAILS = '''
import sys
print('e1gw: 127.0.0.1:5000: Address already in use', file=sys.stderr, flush=True)
sys.exit(3)
'''
ENDS = '127.0.0.1:5000', '127.0.0.1:5001', '--size', '256'


class HeldSatopTests(support.FolderCase):
    def setUp(self) -> None:
        super().setUp()
        self.loop = Loop()

    def line(self, script: str, reopens: bool = False, crc4: bool = False) -> SatopLine:
        self.program(script)
        its = SatopLine(LineWants('x', mock.Mock(spec=Stream), ENDS, reopens, crc4, self.path('e1gw'), self.folder), {},
                        self.loop)
        self.until(lambda: its.files or its.try_to_open(time.monotonic()) and its.files, None)
        self.addCleanup(its.close)
        return its

    def program(self, script: str) -> None:
        path = self.write('e1gw.new', f'#!{sys.executable}{script}')
        os.chmod(path, stat.S_IRWXU)
        os.replace(path, self.path('e1gw'))

    def until(self, holds: Callable[[], object], line: SatopLine | None) -> None:
        """Turns of the loop until this holds."""
        while not holds():
            self.loop.wait(0.005)
            if line:
                line.step(time.monotonic())

    def goes_round(self, line: SatopLine, count: int = 256) -> bytes:
        """Octets go both ways."""
        os.write(line.program_files[1], bytes(count))
        found = bytearray()

        def comes() -> bool:
            try:
                found.extend(os.read(line.program_files[0], 10_000))
            except BlockingIOError:
                pass
            return len(found) >= count
        self.until(comes, line)
        return bytes(found)

    def test_it_dies_and_is_stopped(self) -> None:
        """Another one has the same socket pair, and its numbers go on behind what was sent."""
        line = self.line(SCRIPT)
        for number in signal.SIGKILL, signal.SIGSTOP:
            self.goes_round(line)
            support.until(lambda: 'sent=3' in support.text_of(self.path('satop')))
            before, first = line.pid, int(support.until(lambda: words_of(line.pid))[-1])
            with mock.patch('time.time', lambda: 0.0):
                os.kill(before, number)
                self.until(lambda: line.pid not in (0, before), line)
            words = support.until(lambda: words_of(line.pid))
            self.assertEqual(words[-2:], ['--sequence', str(first + 3 & 0xffff)])
        self.assertEqual(self.goes_round(line), b'\xff' * 256)
        self.assertEqual((line.why_ended(0), line.fault), ('', ''))

    def test_the_next_holder(self) -> None:
        """It begins with a pair of its own, and goes on behind the numbers; it looks no names up again."""
        line = self.line(SCRIPT)
        first = int(support.until(lambda: words_of(line.pid))[-1])
        support.until(lambda: 'sent=3' in support.text_of(self.path('satop')))
        self.assertEqual(line.stored_files(), {})
        line.close()
        with mock.patch('e1gw.satop.addresses_of', side_effect=OSError), \
                mock.patch('time.time', lambda: 0.0):
            again = self.line(SCRIPT)
        self.assertEqual(support.until(lambda: words_of(again.pid))[-1], str(first + 3 & 0xffff))

    def test_the_process_that_it_becomes(self) -> None:
        """It has the same pair and the same process, and sees its end."""
        line = self.line(SCRIPT)
        again = SatopLine(line.options, line.files, self.loop)
        again.restore_note(line.note())
        assert line._child
        self.loop.unwatch(line._child._file)
        pid, line._child, line.files = line.pid, None, {}
        self.assertEqual(again.pid, pid)
        os.kill(pid, signal.SIGKILL)
        self.until(lambda: again.pid not in (0, pid), again)
        self.goes_round(again)
        again.close()

    def test_multiframes_are_looked_for_again(self) -> None:
        """With CRC-4 both ends are given ones behind another one."""
        line, found = self.line(SCRIPT, crc4=True), bytearray()
        os.kill(line.pid, signal.SIGKILL)

        def comes() -> bool:
            try:
                found.extend(os.read(line.program_files[0], 10_000))
            except BlockingIOError:
                pass
            return len(found) >= 2 * len(ONES)
        self.until(comes, line)
        self.assertEqual(bytes(found), ONES + bytes(len(ONES)))

    def test_it_ends_by_itself(self) -> None:
        """The program sees the end of the line, a fault if it is one; a line that is to be opened again is tried."""
        why = f'{BROKEN}: e1gw satop says: e1gw: 127.0.0.1:5000: Address already in use'
        for script, reason in ('\n', ENDED), (FAILS, why):
            line = self.line(script)
            self.until(partial(line.why_ended, 0), line)
            self.assertEqual((line.why_ended(0), os.read(line.program_files[0], 10)), (reason, b''))
            line.close()
        line = self.line(FAILS, reopens=True)
        self.until(lambda: line.fault == why, line)
        self.program(SCRIPT)
        self.goes_round(line)
        self.assertEqual(line.why_ended(0), '')

    def test_one_that_cannot_be_started(self) -> None:
        """It is tried until it can be."""
        line = self.line(SCRIPT, reopens=True)
        os.rename(self.path('e1gw'), self.path('away'))
        os.kill(line.pid, signal.SIGKILL)
        self.until(lambda: not line.pid, None)
        os.rename(self.path('away'), self.path('e1gw'))
        self.goes_round(line)

    def test_one_whose_end_cannot_be_waited_for(self) -> None:
        """It is ended, and another one is."""
        self.enterContext(mock.patch.multiple('e1gw.holder.decisions', LINE_PAUSE=0.01, MOST_LINE_PAUSE=0.01))
        line = self.line(SCRIPT, reopens=True)
        with mock.patch('os.pidfd_open', side_effect=OSError(errno.EMFILE, os.strerror(errno.EMFILE))) as opens:
            os.kill(line.pid, signal.SIGKILL)
            self.until(lambda: opens.called, line)
        for _ in range(2):
            self.goes_round(line)
            os.kill(line.pid, signal.SIGKILL)
            support.until(lambda: support.state_of(line.pid) in ('', 'Z'))

    def test_an_address_that_comes_later(self) -> None:
        """Of two machines the one that takes over may have it a moment later. It was tried again later and later."""
        has_it = list[int]()
        with mock.patch('e1gw.satop.can_send', lambda ends: bool(has_it)), \
                mock.patch.multiple('e1gw.holder.decisions', QUICK=900.0, LINE_PAUSE=900.0, MOST_LINE_PAUSE=900.0):
            line = self.line(FAILS, reopens=True)
            self.until(lambda: line.fault, line)
            self.program(SCRIPT)
            has_it.append(1)
            self.goes_round(line)

    def test_what_it_was_given_last_goes_out(self) -> None:
        """And nothing stays open. One that plays into a full socket ends, too, and one that hangs."""
        before = len(os.listdir('/proc/self/fd'))
        line = self.line(f"""{SCRIPT}open('{self.path('over')}', 'w')\n""")
        os.write(line.program_files[1], bytes(100_000))
        with mock.patch.object(satop_line, 'GRACE', 900.0):
            line.close()
        self.assertTrue(os.path.exists(self.path('over')))
        for script, grace in (('\nimport os\nos.write(1, bytes(1 << 22))\nos.read(0, 1)\n', 900.0),
                              ('\nimport time\ntime.sleep(900)\n', 0.5)):
            with mock.patch.object(satop_line, 'GRACE', grace):
                self.line(script).close()
        self.assertEqual(len(os.listdir('/proc/self/fd')), before)
