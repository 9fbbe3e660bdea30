"""The parts of scripts/dahdi that need no machine: what became of octets, and multiframes without slot 0."""
from __future__ import annotations

import random
import socket
import unittest
from typing import Iterator
from unittest import mock

from . import loaded
from dahdi_far import Multiframes, with_slot_0, without_slot_0
from dahdi_talk import HEAD, OCTETS, Comparison, Way, compare
from e1gw_tools.far_exchange import Exchange, is_multiframe

SILENCE = b'\xd5' * 70


class ComparisonTests(unittest.TestCase):
    def compared(self, heard: bytes, numbers: list[int] | None = None) -> Comparison:
        """What is said of these octets, in packets that came 60 ms behind their begin, of SENT."""
        with socket.socket(socket.AF_INET, socket.SOCK_DGRAM) as line:
            way = Way(self.sent, line, ('127.0.0.1', 9))
            pieces = [heard[at:at + OCTETS] for at in range(0, len(heard), OCTETS)]
            for number, piece in zip(numbers or range(len(pieces)), pieces):
                way.came.append((0.06 + number * 0.02, HEAD.pack(0x80, 8, number, 0, 1) + piece))
            return compare(way, 0.0)

    def setUp(self) -> None:
        self.sent = random.Random(1).randbytes(10 * OCTETS)

    def test_octets(self) -> None:
        """All right; one wrong; some that are missing, behind which all are wrong; none that is known."""
        its = self.compared(SILENCE + self.sent)
        self.assertEqual((its.octets, its.wrong, its.missing), (len(self.sent), 0, 0))
        self.assertAlmostEqual(its.delay, 0.06)
        heard = bytearray(SILENCE + self.sent)
        heard[500] ^= 1
        self.assertEqual(self.compared(bytes(heard)).wrong, 1)
        del heard[800:831]
        self.assertGreater(self.compared(bytes(heard)).wrong, 700)
        self.assertEqual([count for _, count in self.compared(bytes(heard)).slips], [31])
        heard[300:300] = SILENCE[:16]
        self.assertEqual([count for _, count in self.compared(bytes(heard)).slips], [-16, 31])
        self.assertEqual(self.compared(SILENCE * 8).octets, 0)

    def test_missing_packets(self) -> None:
        self.assertEqual(self.compared(self.sent[:4 * OCTETS], [0, 1, 4, 5]).missing, 2)


class CountTests(unittest.TestCase):
    def test_a_time_that_has_ended(self) -> None:
        """What has passed until then counts; what was not reached has failed."""
        dahdi = loaded('dahdi')

        def boot(*_: object) -> Iterator[str]:
            yield 'passed one: 3 of 3'
            raise dahdi.CannotBuild('not within 3 s')
        with mock.patch.multiple(dahdi, boot=boot, machine_files=mock.Mock()), mock.patch('builtins.print') as told:
            asked = dahdi.parser().parse_args(['--seconds', '3'])
            self.assertEqual(dahdi.tried(asked, ['one', 'two', 'three'], {}), (1, 2))
        self.assertIn(mock.call('dahdi: not within 3 s'), told.mock_calls)


class MultiframeTests(unittest.TestCase):
    def test_found_from_any_frame_on(self) -> None:
        """Each is whole, has slot 0 again, and is the one that the exchange sent."""
        exchange = Exchange()
        sent = [exchange.multiframe() for _ in range(6)]
        octets = b''.join(map(without_slot_0, sent))
        for frame in range(16):
            found = Multiframes().take(octets[31 * frame:])
            self.assertGreaterEqual(len(found), 4)
            self.assertTrue(all(is_multiframe(each, 0) for each in found))
            self.assertEqual(without_slot_0(found[0]), without_slot_0(sent[1]))
        self.assertEqual(with_slot_0(without_slot_0(sent[0])), sent[0])
