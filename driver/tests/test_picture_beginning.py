"""A picture of a piece of a ring that begins in a call."""
from __future__ import annotations

import argparse
import os
import random
import re
from typing import Iterator
from unittest import mock

from . import support
from .picture_made import MadeSession, PictureSender, coded, packets, page_of
from e1gw.recording_ring import Ring
from e1gw_common.session_files import FileAbout, FileStart, InputError, open_session
from e1gw_picture.beginning import begin
from e1gw_picture.facts import Facts
from e1gw_picture.main import gathered
from e1gw_picture.why import finding_lines, last_facts
from e1gw_common.session import FRAME, OCTETS_A_SECOND, Kind, trunk_record


BEGIN = 1_800_000_000       # 2027-01-15 08:00:00 UTC


def divided(records: Iterator[bytes], rng: random.Random) -> Iterator[bytes]:
    """The same with each record of the trunk in two, so that no piece has to begin with a frame."""
    for record in records:
        if record[0] == Kind.TRUNK:
            at = rng.randrange(5, len(record))
            yield trunk_record(record[4:at])
            yield trunk_record(record[at:])
        else:
            yield record


def octets_in(records: list[bytes]) -> int:
    """The octets of the trunk in records."""
    return sum(len(record) - 4 for record in records if record[0] == Kind.TRUNK)


class RingCase(support.FolderCase):
    """Tests of a session that is kept in a ring."""

    def keep(self, made: MadeSession, each: float, config: str = '') -> None:
        """Keeps a session in four files of so many seconds, each with the state in which it begins, and with this
        configuration, which older rings have not."""
        self.program, self.ring = support.program(), self.path('ring')
        self.config = self.write('west.toml', made.config())
        self.records = [*divided(made.given(), support.chance_of(self))]
        pieces, place = [list[bytes]() for _ in range(4)], 0
        for record in self.records:
            pieces[min(3, int(place / OCTETS_A_SECOND / each))].append(record)
            place += octets_in([record])
        self.places = [sum(map(octets_in, pieces[:n])) for n in range(4)]
        ring, state, saved = Ring(self.ring, 'west', 60), b'', self.path('saved')
        ring.zstd = None
        for number, (records, place) in enumerate(zip(pieces, self.places)):
            front = ring.next(place)
            load = ['--load', f'{front}.state'] if state else []
            begins = FileStart.MIDDLE if state else FileStart.START
            ring.begin(front, FileAbout(self.config, None, BEGIN + each * number, each * number, place, begins=begins),
                       state, config.encode())
            self.write(f'{front}.e1gw', octets := b''.join(records))
            support.run('replay', '--config', self.config, *load, '--save', saved, given=octets)
            state = support.octets_of(saved)
        ring.close()


class MidCallPictureTests(RingCase):
    """What is drawn of a piece that begins in a call."""

    def setUp(self) -> None:
        super().setUp()
        made = MadeSession(4.0, {3: {'prefill': 320}, 4: {'prefill': 320, 'codec': 'g726-32', 'payload': 96}})
        made.call(3, 0.1, 3.8)
        made.call(4, 3.2, 3.7, 0.1)
        made.speech = coded('A')
        self.keep(made.plus(PictureSender(3, 0.25, 3.8, payloads=packets(coded('A')))), 1.0)

    def files(self, ending: str) -> list[str]:
        return sorted(os.path.join(self.ring, name) for name in os.listdir(self.ring) if name.endswith(ending))

    def facts(self, path: str) -> Facts:
        """What is gathered of a session."""
        options = argparse.Namespace(capture=None, begin=None, last=None)
        begun, note = begin(path, None, self.config, self.program)
        self.assertEqual(note, '')
        facts, word = gathered(options, begun)
        self.assertEqual(word, '')
        return facts

    def test_a_call_that_was_up(self) -> None:
        """Each piece has the states and the counts that the whole session has from there on, up to its end."""
        whole = self.facts(self.write('whole.rec', b''.join(self.records)))
        parts = [self.facts(path) for path in self.files('.e1gw')]
        for part, place in [*zip(parts, self.places)][1:]:
            before = place - place % 512
            row, same = part.rows[3], whole.rows[3]
            self.assertEqual(part.under_way, [3])
            end = part.place + before
            shown = row.states.between(part.start, part.place)
            self.assertEqual(list(same.states.between(place, end)),
                             [(first + before, last + before, state) for first, last, state in shown])
            self.assertFalse([on for spans in part.alarms.values() for _, _, on in spans.between(0, part.place) if on])
            self.assertEqual(row.count().refused, {})
        counts = [each.rows[3].count() for each in parts]
        self.assertEqual([sum(each.sent for each in counts), sum(each.admitted for each in counts)],
                         [whole.rows[3].count().sent, whole.rows[3].count().admitted])
        self.assertGreater(counts[3].admitted, 20)
        self.assertGreater(counts[3].heard['came'].own + counts[3].heard['slot'].own, 0)    # in the law of the trunk
        self.assertEqual(parts[3].rows[4].count().counts, {'calls': 1, 'answers': 1})

    def test_the_last_part_of_a_folder(self) -> None:
        """It begins with the last piece that is far enough from the end."""
        for last, files in ((0.5, 2), (1.5, 3), (2.5, 4), (100, 4)):
            self.assertEqual(len(open_session(self.ring, int(last * OCTETS_A_SECOND)).files), files)
        page, said = page_of('--last', '1s', self.ring)
        self.assertEqual((said, 'discarded as NotOpen' in page), ('', False))
        self.assertIn('Calls were up when the session began (circuits 3)', page)
        whole, _ = page_of('--last', '1s', '--config', self.config, self.write('whole.rec', b''.join(self.records)))
        told = re.findall(r'packets: [^<]*', page)
        self.assertEqual(told, re.findall(r'packets: [^<]*', whole))
        self.assertIn('1 connected before', page)
        for path in self.files('.state'):
            os.unlink(path)
        self.assertEqual(len(open_session(self.ring, OCTETS_A_SECOND).files), 4)
        self.assertEqual(page_of('--last', '1s', self.ring)[1], '')

    def test_no_state(self) -> None:
        path, state = self.files('.e1gw')[-1], self.files('.state')[-1]
        octets = support.octets_of(state)
        os.unlink(state)
        page, said = page_of(path)
        self.assertIn(f'e1gw-picture: {os.path.basename(path)} has no state next to it; the session begins in the '
                      'middle', said)
        notes = re.compile('<p><b>.*?</b></p>')
        today = notes.sub('', page)
        self.assertIn('NotOpen', today)
        other = self.write('other.toml', support.text_of(self.config).replace('320', '321'))
        for broken, config, told in ((octets[:-1], self.config, 'state 4 Sum at 0'),
                                     (b'', self.config, 'state 1 Short at 0'),
                                     (octets, other, 'circuit 4 begins as new')):
            self.write(state, broken)
            page, said = page_of('--config', config, path)
            self.assertIn(f'{state} is not used ({told}', said)
            self.assertIn('the session begins in the middle', said)
            self.assertEqual(len(said.splitlines()), 1)
            if config == self.config:
                self.assertEqual(notes.sub('', page), today)

    def test_a_state_that_is_refused_leaves_the_whole_folder(self) -> None:
        for state in self.files('.state'):
            os.truncate(state, 600)
        page, said = page_of('--last', '1s', self.ring)
        self.assertIn('state 4 Sum at 0', said)
        self.assertNotIn('begins in the middle', said)      # it is read from its first piece on
        self.assertIn('1 connected before', page)


class WhyTests(RingCase):
    def test_why_of_one_circuit(self) -> None:
        """What was wrong in the last seconds: a peer with another codec there, but not what was before, and nothing of
        another circuit; one without faults, with what does no harm."""
        made = MadeSession(4.0, {n: {'prefill': 320} for n in (3, 4)})
        for circuit, end in (3, 3.8), (4, 2.8):
            made.call(circuit, 0.1, end)
        wrong, good = (PictureSender(3, 0.3, 1.0, kind=3), PictureSender(3, 2.2, 3.8, kind=0),
                       PictureSender(4, 0.25, 3.8)), 'No fault found.'
        self.keep(made.plus(*wrong), 1.0, made.config())
        self.write('west.toml', 'law = "A"\n[[circuit]]\nnumber = 3\ncodec = "g726-32"\npayload = 96\n')     # (edited)
        last = sorted(os.path.join(self.ring, name) for name in os.listdir(self.ring) if name.endswith('.e1gw'))[-1]
        os.utime(last, (BEGIN + 4.0, BEGIN + 4.0))
        with mock.patch.dict(os.environ, E1GW=self.program):
            lines, others = ([*finding_lines(last_facts(self.ring, n, seconds=1.8), n)] for n in (3, 4))
        self.assertRegex(lines[0], r'^circuit 3, idle at the end, in the last (1\.\d+|2\.00) s up to \d\d:\d\d:04$')
        self.assertRegex('\n'.join(lines[1:]), r'^circuit 3: (\d+) of \1 packets were discarded as PayloadType: type 0 '
                         r'came, the circuit has 8\n    the sender has the other law')
        self.assertEqual((good in lines, others[-1]), (False, good))
        self.assertRegex('\n'.join(others), r'circuit 4: .* discarded as NotOpen: .*\n    harmless: the sender speaks ')
        self.assertFalse([line for line in others if 'circuit 3' in line])

    def test_a_session_of_one_file(self) -> None:
        """It does not say its configuration: the trunk does."""
        made = MadeSession(2.0, {3: {'prefill': 320}})
        made.call(3, 0.1, 1.8)
        path, config = self.write('trunk.rec', b''.join(made.given())), self.write('trunk.toml', made.config())
        self.assertRaisesRegex(InputError, 'no configuration', last_facts, path, 3)
        with mock.patch.dict(os.environ, E1GW=support.program()):
            lines = '\n'.join(finding_lines(last_facts(path, 3, config), 3))
        self.assertIn('and no datagram came', lines)

    def test_a_call_that_is_sent_back(self) -> None:
        """A sender of the other law, whom the exchange sends back, beside a call that reads like the law of the trunk,
        and that is begun in what is looked at: `law` is right."""
        made, mu = MadeSession(12.0, {n: {'prefill': 320} for n in (3, 4)}, speech=coded('A')), coded('mu')

        def back(now: float, octets: bytearray) -> None:
            at = round(now * 8000) % (len(mu) - 16)
            octets[3::FRAME] = mu[at:at + 16]
        made.call(3, 0.1, 11.8, 0.1)
        made.call(4, 3.1, 11.8, 0.1)
        made.change = back
        self.keep(made.plus(PictureSender(3, 0.3, 11.8, payloads=packets(mu))), 3.0)
        last = sorted(os.path.join(self.ring, name) for name in os.listdir(self.ring) if name.endswith('.e1gw'))[-1]
        os.utime(last, (BEGIN + 12.0, BEGIN + 12.0))
        with mock.patch.dict(os.environ, E1GW=self.program):
            lines = '\n'.join(finding_lines(last_facts(self.ring, 3, seconds=5.9), 3))
        self.assertIn('the datagrams received read like mu-law', lines)
        self.assertNotIn('the time slot', lines)
