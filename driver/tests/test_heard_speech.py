"""Calls that sound wrong by the packets that come: in the other law, or with gaps."""
from __future__ import annotations

import unittest
from typing import Iterable
from unittest import mock

from .picture_made import coded, packets, rtp
from .test_deaf import DeafTrunkCase
from e1gw.counts import PacketStatus
from e1gw.deaf import words_of_rows
from e1gw.heard_speech import EACH_TWICE, FIRST, HeardSpeech
from e1gw.status import CircuitStatus
from e1gw.watcher.page import body_of, parts_of
from e1gw_common.g711 import OTHER
from e1gw_common.lines import LineStatus, State
from e1gw_common.session import datagram_record

SECOND, STEP = 50, 160              # packets and samples of 20 ms


def heard(payloads: Iterable[bytes], codec: str = 'pcma', step: int = STEP, lost: int = 0) -> HeardSpeech:
    """Packets of a call come, but one of each so many."""
    found = HeardSpeech()
    found.codec = codec
    for n, payload in enumerate(payloads):
        if not lost or n % lost:
            datagram = rtp(n, step * n, 7, payload=payload)
            found.take(b'before' + datagram, 6, len(datagram))
    return found


class HeardSpeechTests(unittest.TestCase):
    def test_law(self) -> None:
        """The other one is found within three seconds of speech, and the own one, silence or G.726 says nothing."""
        for law, codec, name in ('A', 'pcma', 'mu-law'), ('mu', 'pcmu', 'A-law'):
            speech = {each: [*packets(coded(each, 3.0, 0.1))] for each in OTHER}
            self.assertEqual(heard(speech[law], codec).why_wrong(), '')
            self.assertEqual(heard(speech[OTHER[law]], codec).why_wrong(), f'reads like {name}')
            self.assertEqual(heard([b'\xd5' * STEP] * 150, codec).why_wrong(), '')
            self.assertEqual(heard([payload[:80] for payload in speech[OTHER[law]]], 'g726-32').why_wrong(), '')

    def test_gaps(self) -> None:
        """Where packets have fewer samples than their timestamps go on by, and not where some are lost."""
        for octets, codec, step, lost, words in (
                (80, 'pcma', STEP, 0, '80 of 160 samples a packet'),
                (80, 'pcma', STEP, 11, '80 of 160 samples a packet'),
                (160, 'pcma', STEP, 3, ''), (160, 'pcma', 163, 0, '160 of 163 samples a packet'),
                (160, 'pcma', 157, 0, ''), (80, 'g726-32', STEP, 0, ''), (60, 'g726-24', STEP, 0, ''),
                (40, 'g726-32', STEP, 0, '80 of 160 samples a packet')):
            found = heard([b'\xd5' * octets] * 150, codec, step, lost)
            self.assertEqual(found.why_wrong(), words, (octets, codec, step, lost))

    def test_another_call(self) -> None:
        """What was heard before does not count in another call. Once a sender is mended nothing more is said of it."""
        found = heard([b'\xd5' * 80] * 150)
        self.assertTrue(found.why_wrong())
        for n in range(FIRST * 2 ** 4 * EACH_TWICE):
            datagram = rtp(n, STEP * n, 7, payload=b'\xd5' * STEP)
            found.take(datagram, 0, len(datagram))
        self.assertEqual(found.why_wrong(), '')
        found = heard([b'\xd5' * 80] * 150)
        found.begin()
        self.assertEqual(found.why_wrong(), '')

    def test_what_is_no_packet(self) -> None:
        found = heard([])
        for octets in [b'', b'\x80', bytes(40)] * 50:
            found.take(octets, 0, len(octets))
        self.assertEqual(found.why_wrong(), '')

    def test_words(self) -> None:
        rows = [CircuitStatus(line=LineStatus(n), packets=PacketStatus(speech=speech), deaf=deaf)
                for n, (deaf, speech) in enumerate([(None, 'x'), ('Late', 'x'), (None, None), ('Late', None),
                                                    (None, 'x'), (None, 'y')], 1)]
        self.assertEqual(words_of_rows(rows), 'sounds wrong: 1, 5 (x), 6 (y); hears nothing: 2, 4 (Late)')
        lines = [LineStatus(n, state=state, recognised=pair) for n, (state, pair) in enumerate([
            (State.FAULT, '01'), (State.FAULT, '--'), (State.IDLE, '10'), (State.FAULT, '01')], 1)]
        self.assertEqual(words_of_rows([CircuitStatus(line=each) for each in lines]),
                         'signals against Q.421: 1, 4 (receives 01)')


class HeardTrunkTests(DeafTrunkCase):
    async def test_where_it_is_shown(self) -> None:
        """The tile of a call is red, once packets of the log were looked at."""
        found = await self.deaf()
        for n, payload in enumerate([*packets(coded('mu', 3.0, 0.1))]):
            found.counts.take_records(b''.join(datagram_record(each, rtp(n, STEP * n, 7, payload=payload))
                                               for each in (3, 4)))
        status = found.known_status()
        self.assertEqual({row.line.circuit: row.packets.speech for row in status.circuits if row.packets.speech},
                         {3: 'reads like mu-law'})
        tile = body_of('c', parts_of(status, mock.Mock(events=(), ended=()))['c3'])
        self.assertIn('data-s="answered, sounds wrong: reads like mu-law"', tile)
        self.assertIn('class="bad"', tile)
