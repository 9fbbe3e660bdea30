"""What the picture hears: levels, the other law, the other order of words, and what tells nothing."""
from __future__ import annotations

import math
import random
import unittest

from .support import FolderCase, program, run

from .picture_made import coded, g726, of_aal2, of_codec, packets, read_session, recorded

from e1gw_common.g711 import OTHER, TONES, VALUES, level, power
from e1gw_picture.facts import BITS
from e1gw_picture.findings import findings
from e1gw_picture.orders import Orders, reordered
from e1gw_common.sound import EACH, HeardSamples, ListeningTimes, sample_speech
from e1gw_common.session import Kind, packet_of, records_in

LAWS = ('A', 'mu')


def listened(octets: bytes, law: str) -> HeardSamples:
    """What is found in packets of 20 ms that are to be of a law."""
    seen = HeardSamples()
    for packet in packets(octets):
        seen.join(sample_speech(packet, law))
    return seen


def tone(law: str, hertz: float, loud: float) -> bytes:
    """160 samples of a tone, relative to the greatest value of the law."""
    nearest = {value: octet for octet, value in enumerate(VALUES[law])}
    values = sorted(nearest)
    top = values[-1] * loud
    wave = [top * math.sin(2 * math.pi * hertz * n / 8000 + 1) for n in range(160)]
    return bytes(nearest[min(values, key=lambda value: abs(value - sample))] for sample in wave)


class LevelTests(unittest.TestCase):
    """Values and levels of ITU-T G.711."""

    def test_worked_values(self) -> None:
        # Table 1: the octets of the greatest value, the two least ones; Table 2: the greatest, and both zeros.
        self.assertEqual([VALUES['A'][octet] for octet in (0xAA, 0x2A, 0xD5, 0x55)], [4032, -4032, 1, -1])
        self.assertEqual([VALUES['mu'][octet] for octet in (0x80, 0x00, 0xFF, 0x7F)], [8031, -8031, 0, 0])
        # The first values of the second segment and of the eighth.
        self.assertEqual([VALUES['A'][octet ^ 0x55] for octet in (0x90, 0xF0)], [33, 2112])
        self.assertEqual([VALUES['mu'][octet] for octet in (0xEF, 0x8F)], [33, 4191])
        self.assertEqual([(len({*VALUES[law]}), sum(VALUES[law])) for law in LAWS], [(256, 0), (255, 0)])

    def test_levels(self) -> None:
        for law, most, load in (('A', 4096, 3.14), ('mu', 8159, 3.17)):
            self.assertEqual(level(power(TONES[law], law), law), 0.0)
            # A tone that just reaches the greatest decision value has the theoretical load of the law.
            self.assertAlmostEqual(level(most * most / 2, law), load, places=2)
        self.assertEqual(level(power(b'', 'A'), 'A'), -math.inf)
        self.assertEqual(level(power(b'\xff', 'mu'), 'mu'), -math.inf)


class LawTests(FolderCase):
    """Which law octets are of."""

    def test_speech_of_both(self) -> None:
        for law in LAWS:
            for loud in (0.9, 0.1, 0.02):
                with self.subTest(law=law, loud=loud):
                    octets = coded(law, 1.5, loud)
                    right, wrong = listened(octets, law), listened(octets, OTHER[law])
                    self.assertEqual((right.other, wrong.own), (0, 0))
                    self.assertEqual((right.own, right.is_other()), (wrong.other, False))
                    self.assertTrue(wrong.is_other())

    def test_what_tells_nothing(self) -> None:
        rng = random.Random(5)
        for law in LAWS:
            for octets in (b'\xd5' * 8000, b'\xff' * 8000, rng.randbytes(8000), TONES[law] * 1000,
                           bytes(rng.choice(b'\xd5\x55') for _ in range(8000)), bytes(range(256)) * 30, b'\xd5'):
                seen = listened(octets, law)
                self.assertEqual((seen.own, seen.other), (0, 0), octets[:8])

    def test_no_tone_reads_like_the_other_law(self) -> None:
        for law in LAWS:
            for hertz in (50, 440, 697, 1004, 1209, 1800, 2000, 2100, 2700, 3000, 3400, 3999):
                for loud in (1.0, 0.2, 0.01):
                    self.assertEqual(sample_speech(tone(law, hertz, loud), law).other, 0, (law, hertz, loud))

    def test_few_looks_claim_nothing(self) -> None:
        for looks, is_other in ((4, 4, 0), False), ((9, 9, 1), True), ((9, 8, 1), False):
            self.assertIs(HeardSamples(looks[0], other=looks[1], own=looks[2]).is_other(), is_other)

    def test_levels_of_the_page_are_those_of_the_session(self) -> None:
        for name in ('other-law', 'other-law-trunk'):
            config, given = recorded(name)
            answers = run('replay', '--config', self.write('trunk.toml', config), given=given)
            sent = b''.join(packet_of(record.body).payload for record in records_in(answers)
                            if record.kind is Kind.DATAGRAM)
            facts = read_session(config, given)
            seen = facts.rows[3].count().heard['slot']
            for law, found in (('A', seen.power), ('mu', seen.under_other)):
                self.assertAlmostEqual(10 * math.log10(found / seen.looks), level(power(sent, law), law), delta=2.5)

    def test_nothing_is_claimed_where_all_is_well(self) -> None:
        for codec, bits in BITS.items():
            session = of_codec(codec, bits, False)
            facts = read_session(session.config(), b''.join(session.given()))
            self.assertEqual(findings(facts), [])
            heard_of = facts.rows[3].count().heard
            self.assertGreater(heard_of['order'].own, 4, codec)
            self.assertGreater(heard_of['slot'].own, 4, codec)


class WordOrderTests(unittest.TestCase):
    """The order of the code words of G.726."""

    def test_worked_rows(self) -> None:
        # Words 1 and 2 of 32 kbit/s; 0 to 3 of 16; 0 to 7 of 24 and of 40.
        self.assertEqual(reordered(bytes.fromhex('12343434'), 4).hex(), '21434343')
        self.assertEqual(reordered(bytes.fromhex('1b1b'), 2).hex(), 'e4e4')
        self.assertEqual(reordered(bytes.fromhex('053977'), 3).hex(), '88c6fa')     # 000 001 010 .. 111
        self.assertEqual(reordered(bytes.fromhex('00443214c7'), 5).hex(), '2088418a39')

    def heard_in(self, payloads: list[bytes], codec: str, path: str | None) -> HeardSamples:
        whole = HeardSamples()
        orders = Orders(path, 'A', lambda circuit, place, seen: whole.join(seen))
        for at in range(0, len(payloads), 10):
            orders.queue(3, at, codec, payloads[at:at + 10])
        orders.decode_queued()
        return whole

    def test_each_rate(self) -> None:
        path = program()
        for codec, bits in BITS.items():
            payloads = g726(codec, coded('A'))
            for other, sent in ((False, payloads), (True, [of_aal2(each, bits) for each in payloads])):
                whole = self.heard_in(sent, codec, path)
                self.assertEqual(whole.is_other(), other, (codec, whole))
                self.assertGreater(whole.other if other else whole.own, 10, (codec, whole))

    def test_silence_and_tones_claim_nothing(self) -> None:
        path = program()
        for codec in BITS:
            for octets in (b'\xd5' * 16_000, TONES['A'] * 2000, random.Random(7).randbytes(16_000)):
                whole = self.heard_in(g726(codec, octets), codec, path)
                self.assertFalse(whole.is_other(), (codec, whole))

    def test_without_a_program(self) -> None:
        payloads = [bytes(80)] * 10
        for path in (None, '/nowhere', '/bin/false', '/bin/echo'):
            self.assertEqual(self.heard_in(payloads, 'g726-32', path), HeardSamples())


class ListeningTimesTests(unittest.TestCase):
    def test_when_it_is_looked(self) -> None:
        """Often at first, ever more seldom then, and never further apart than is asked for."""
        for most, seconds in (math.inf, 90), (256_000, 60):
            turns = ListeningTimes()
            looks = [place for place in range(0, seconds * 256_000, 512) if turns.advance(place, most)]
            apart = [b - a for a, b in zip(looks, looks[1:])]
            self.assertAlmostEqual(apart[0] / EACH, 1, delta=0.01)
            self.assertLessEqual(max(apart), most)
            if most == math.inf:
                self.assertAlmostEqual(apart[-1] / EACH, 32, delta=0.1)
                self.assertEqual(len(looks), 41)
