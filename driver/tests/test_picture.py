"""The picture of a session: what is gathered, what is found, and what the page says. Of sessions with a trouble each
the figures are those of `e1gw check`, and the documents quote what is found in them."""
from __future__ import annotations

import html.parser
import os
import random
import re
import unittest
from functools import partialmethod
from unittest import mock

from .picture_made import (CAPTURED, TROUBLES, MadeSession, PictureSender, captured, configured, made_of, one_call,
                           page_of, read_session, recorded, rtp)
from .support import TOP, FolderCase, run, text_of

from e1gw_picture.facts import MOST, RANK, Facts, Row, Spans, Wire
from e1gw_picture.findings import findings
from e1gw_picture.page import MOST as MOST_OCTETS
from e1gw_picture.page import draw
from e1gw_common.sound import HeardSamples
from e1gw_picture.svg import Scale, Sheet, apart, clock, duration, runs
from e1gw_common.session_clock import Break
from e1gw_common.session import OCTETS_A_SECOND, Codec, Kind, codec_record, records_in, trunk_record


def facts_of(session: MadeSession) -> Facts:
    return read_session(session.config(), b''.join(session.given()))


class FactsTests(unittest.TestCase):
    """What becomes of each datagram."""

    def test_how_early(self) -> None:
        """The first is the prefill before its turn; the next ones come 10 ms, 80 samples, after their time."""
        row = Row(3, prefill=320)
        for place, stamp in ((0, 0), (7680, 160), (12800, 320)):
            row.add_datagram(place, 0, rtp(0, stamp, 7), 0, stamp, 7)
        self.assertEqual((row.cell.low, row.cell.high), (240, 320))

    def test_lost_and_repeated(self) -> None:
        """By sequence numbers, with a mark of the octets and an answer: how many are lost, repeated, and refused."""
        again = [(n, n, code) for n, code in ((1, 0), (2, 0), (1, 13), (4, 0), (2, 14), (5, 0), (4, 13))]
        rows: tuple[tuple[list[tuple[int, int, int]], int, int, int], ...] = (
            # 0 is missing; 1 comes behind 2
            ([(n, n, 0) for n in (65534, 65535, 2, 1, 3)], 1, 0, 0),
            # 3 is missing, and then its repetition comes
            (again, 1, 3, 0), ([*again, (3, 3, 0)], 0, 3, 0),
            # other octets are no repetition
            ([(5, 1, 0), (5, 2, 13)], 0, 0, 1))
        for came, lost, repeated, refused in rows:
            row = Row(3)
            for sequence, mark, code in came:
                row.add_datagram(0, code, rtp(sequence, 0, 7, payload=bytes([mark & 255])), sequence, 0, 7)
            with self.subTest(came=came):
                self.assertEqual((row.cell.lost, row.cell.counts['repetitions'], row.cell.discarded()),
                                 (lost, repeated, refused))

    def test_a_session_begins_without_a_fault(self) -> None:
        """In the first 20 ms a line is in fault because nothing was received; longer, or later, it is one."""
        for place, spans in ((5119, [(0, 'idle')]), (5120, [(0, 'fault'), (5120, 'idle')])):
            row = Row(3)
            row.state(place, 'idle')
            self.assertEqual(row.states.items, spans)
            row.state(9000, 'fault')
            self.assertEqual(row.states.items, [*spans, (9000, 'fault')])

    def test_a_line_in_fault_all_the_time(self) -> None:
        """It is found, and drawn, if what came then is known: where it went to fault before, and in the state of a
        ring. Behind the fault it is not, nor where nothing was received yet."""
        rows: tuple[tuple[list[str], list[tuple[str, str]], list[str]], ...] = (
            ([], [('idle', '10'), ('fault', '01')], ['the line went to fault once']),
            (['fault', '10', '01'], [], ['the line is in fault all the time: 01 came']),
            (['fault', '10', '--'], [], []), (['fault', '10', '01'], [('idle', '10')], []))
        for told, states, words in rows:
            facts = Facts({3: Row(3)})
            facts.begin_session(0, [], [['3', 'outgoing', *told, 'pcma', '8']] if told else [])
            for n, (state, pair) in enumerate(states):
                facts.rows[3].state(1000 * n, state, pair)
            facts.turn(OCTETS_A_SECOND)
            self.assertEqual([each.seen for each in findings(facts) if each.circuit], words)
            self.assertEqual('Nothing but idle: circuits 3.' in draw(facts, 'x'), not words, words)

    def test_no_circuit_tells_the_law_alone(self) -> None:
        """A sender of the other law whom the exchange sends back, beside a circuit that reads like the trunk's law, and
        without it."""
        for own, found in ((40, ['came other']), (0, ['came other', 'slot other'])):
            facts = Facts({1: Row(1), 2: Row(2)})
            for circuit, way, seen in ((1, 'came', HeardSamples(40, other=40)), (1, 'slot', HeardSamples(40, other=40)),
                                       (2, 'slot', HeardSamples(40, own=own))):
                facts.add_sample(circuit, 0, way, seen)
            self.assertEqual([each.kind for each in findings(facts) if each.kind.endswith(' other')], found)

    def test_columns_are_few_and_lose_nothing(self) -> None:
        facts = Facts()
        for n in range(100_000):
            facts.turn(n * 1000)
            facts.rows[1].cell.sent += 1
            facts.rows[1].cell.admit(n % 7)
            facts.command(1, n * 1000, 'seize', 'not idle' if n % 2 else '')
        cell = facts.rows[1].count()
        self.assertEqual((cell.sent, cell.admitted, cell.low, cell.high), (100_000, 100_000, 0, 6))
        self.assertLessEqual(len(facts.rows[1].cells), MOST)
        self.assertEqual(sum(each.more + 1 for each in facts.rows[1].commands.values()), 100_000)
        self.assertLessEqual(len(facts.rows[1].commands), 2 * MOST)

    def test_spans_are_few_and_a_fault_stays_seen(self) -> None:
        spans = Spans('idle', RANK)
        for n in range(1, 1001):
            spans.set_from(n * 100, 'fault' if n == 500 else 'answered' if n % 2 else 'idle')
        spans.coalesce(1000)
        self.assertLess(len(spans.items), 110)
        self.assertIn('fault', [value for _, value in spans.items])
        places = [place for place, _ in spans.items]
        self.assertEqual(places, sorted(set(places)))


class SessionFactsTests(unittest.TestCase):
    """What is gathered of sessions with a trouble."""

    def test_records_of_any_length(self) -> None:
        """Long ones are given in pieces of a millisecond, so nothing is drawn later."""
        config, given = recorded('hold')
        octets, records = bytearray(), list[bytes]()
        for record in records_in(given):
            if record.kind is Kind.TRUNK and len(octets) < 60_000:
                octets += record.body
            else:
                records += [trunk_record(bytes(octets)), record.encode()]
                octets.clear()
        records.append(trunk_record(bytes(octets)))
        whole, long = (read_session(config, given).rows[3] for given in (given, b''.join(records)))
        self.assertEqual(whole.states.items, long.states.items)
        self.assertEqual(whole.count().refused, long.count().refused)

    def test_clock_is_measured(self) -> None:
        words = next(each.seen for each in findings(made_of('slow-clock')) if each.kind == 'clock slower')
        self.assertAlmostEqual(int(words.split(' ppm')[0].split()[-1]), 500, delta=10)


class PageChecker(html.parser.HTMLParser):
    """Sees that what is opened is closed, and that nothing is fetched."""
    EMPTY = {'meta', 'br', 'rect', 'path', 'circle'}

    def __init__(self) -> None:
        super().__init__()
        self.open: list[str] = []
        self.words: list[str] = []

    def handle_starttag(self, tag: str, attrs: list[tuple[str, str | None]]) -> None:
        assert tag not in ('script', 'link', 'img', 'iframe', 'object'), tag
        assert not any(name in ('src', 'onclick', 'onload') for name, _ in attrs), attrs
        assert all((value or '').startswith('#') for name, value in attrs if name == 'href'), attrs
        if tag != 'meta':
            self.open.append(tag)

    def handle_endtag(self, tag: str) -> None:
        assert self.open and self.open.pop() == tag, tag

    def handle_data(self, data: str) -> None:
        self.words.append(data)


def busy_page(count: int) -> str:
    """The page of a day of so many circuits with calls, datagrams and refused ones all the time."""
    facts, rng = Facts(), random.Random(4)
    rows = [*facts.rows.values()][:count]
    for row in rows:
        row.codec, row.payload, row.prefill = 'g726-32', 96, 320
        row.local, row.peer = '192.0.2.110:24002', '198.51.100.120:34002'
    states = ('idle', 'seized', 'acked', 'answered', 'releasing')
    for column, second in enumerate(range(0, 86_400, 66)):      # (a column is 65.5 s)
        place = second * OCTETS_A_SECOND
        facts.turn(place)
        for row in rows:
            row.state(place, states[(column + row.number) % 5])
            row.cell.sent += 500
            for _ in range(3):
                row.cell.admit(rng.randrange(0, 3000))
            row.cell.refuse(rng.choice((11, 12, 13, 14, 16, 20)), -400, rng.randrange(-400, 3200))
            facts.command(row.number, place, 'seize', rng.choice(('', 'not idle')))
        facts.alarms['here', 'frame'].set_from(place, rng.random() < 0.5)
    return draw(facts, 'a day')


class PicturePageTests(unittest.TestCase):
    """The page."""

    def checked(self, text: str) -> str:
        checker = PageChecker()
        checker.feed(text)
        self.assertEqual(checker.open, [])
        return ' '.join(checker.words)

    def test_under_two_megabytes_however_long(self) -> None:
        """As ten circuits are within a third of that."""
        with mock.patch('e1gw_picture.page.MOST', MOST_OCTETS // 3):
            text = busy_page(10)
        self.assertLess(len(text.encode()), MOST_OCTETS // 3)
        self.checked(text)
        self.assertLess(MOST_OCTETS, 2_000_000)

    def test_says_what_was_counted(self) -> None:
        session = one_call(1.4, kind=13)
        words = self.checked(draw(facts_of(session), 'e1gw'))
        self.assertIn('43 of 43 packets were discarded as PayloadType: type 13 came, the circuit has 8', words)
        self.assertIn('47 sent, 0 received, 43 discarded', words)      # 20 ms each, from 0.149 s to 1.1 s
        self.assertIn('127.0.0.1:24106', words)

    def test_wrong_sources_are_those_of_their_call(self) -> None:
        """Of three calls on a circuit, each with its own source, a stranger sends into the second one."""
        session = MadeSession(4.0, {3: {'prefill': 320}})
        for begin, ssrc in ((0.1, 0xA), (1.3, 0xB), (2.5, 0xC)):
            session.call(3, begin, begin + 1, 0.1)
            session.senders.append(PictureSender(3, begin + 0.2, begin + 0.9, ssrc))
        session.senders.append(PictureSender(3, 1.75, 1.949, 0xBAD))
        found = {each.kind: each.seen for each in findings(facts_of(session))}
        # each 20 ms from 1.750 s on, up to 1.930 s, in steps of a multiframe
        self.assertRegex(found['source'], '^10 of .* packets were discarded as WrongSource: in the call whose first '
                         r'datagram had SSRC 0000000b, 00000bad came 10 times from 1\.75[02] s to 1\.93[02] s$')

    def test_what_a_line_carries_is_marked(self) -> None:
        for name, words, kind in (('silent-peer', 'silence', 'silent'), ('silent-slot', 'slot: silence', 'silent'),
                                  ('other-codec', 'other length', 'unlike')):
            with self.subTest(name):
                text = draw(made_of(name), 'e1gw')
                self.checked(text)
                self.assertIn(f'<title>circuit 3: {words}</title>', text)
                self.assertEqual(len(re.findall(f'<path [^>]*class="{kind}"', text)), 2)

    def test_a_codec_given_again_is_no_other_command(self) -> None:
        config = 'law = "A"\n[[circuit]]\nnumber = 3\nprefill = 320\n'
        records = [codec_record(3, codec, payload) for codec, payload in
                   ((Codec.G711, 8), (Codec.G726_32, 96), (Codec.G726_32, 96))]
        text = draw(read_session(config, b''.join([*MadeSession(1.0).given(), *records])), 'e1gw')
        self.assertEqual(text.count('jitter buffer resynchronised</td>'), 1)
        self.assertIn('codec g726-32 96', text)
        # two again, one change; each is one mark, and one more of each is in the key
        self.assertEqual((text.count('class="c-again"'), text.count('class="c-done"')), (2, 2))

    def test_the_last_time_is_not_cut(self) -> None:
        """It ends a pixel before the drawings of the trunk and of the circuits do."""
        for begin, last in ((None, '60:00 min'), (1_700_000_400.0, '23:20:00')):
            facts = Facts()
            facts.turn(3600 * OCTETS_A_SECOND)
            facts.begin = begin
            text = draw(facts, 'x')
            self.assertEqual(re.findall(r'<svg viewBox="126 0 (\d{4}) ', text), ['1014'] * 2)
            times = re.findall(rf'<text x="([\d.]+)" y="\d+" class="tick" text-anchor="(\w+)">{last}<', text)
            self.assertEqual(times, [('1139.0', 'end')] * 2)

    def key_of(self, page: str) -> list[str]:
        """The words of a page's key."""
        key = page.partition('<div class="key">')[2].partition('</div>')[0]
        return [' '.join(words.split()) for words in re.findall(r'</svg>([^<]+)</span>', key)]

    def test_the_key_has_what_occurs(self) -> None:
        """States, lanes, marks of a capture and commands, in the order of the drawing; nothing of a page without."""
        facts, second = Facts({3: Row(3)}), OCTETS_A_SECOND
        self.assertEqual(self.key_of(draw(facts, 'x', [3])), ['fault'])
        for place, state in ((3000, 'idle'), (second, 'seized'), (second + 9000, 'acked')):
            facts.rows[3].state(place, state)
        facts.command(3, second, 'seize')
        facts.turn(2 * second)
        facts.rows[3].cell.sent = 50
        facts.turn(5 * second)
        self.assertEqual(self.key_of(draw(facts, 'x')), [
            'idle', 'seized', 'acknowledged', 'packets sent (upper line)', 'open, and nothing comes (middle)',
            'command done'])
        facts.rows[3].wire = Wire(places=[3 * second])
        facts.command(3, 4 * second, 'seize', 'not idle')
        self.assertEqual(self.key_of(draw(facts, 'x'))[-3:], [
            'did not arrive (upper)', 'command done', 'command refused'])

    def test_the_sound_has_outages(self) -> None:
        """Four seconds of the trunk and two that are missing are six of the call's sound."""
        facts = Facts({3: Row(3)})
        facts.breaks = [Break(OCTETS_A_SECOND, 2.0, 2.0)]
        facts.turn(4 * OCTETS_A_SECOND)
        self.assertIn('src="x.wav#t=0,6"', draw(facts, 'x', [3], sound='x.wav'))

    def test_words_are_escaped(self) -> None:
        text = draw(Facts(), '<b>&"')
        self.assertNotIn('<b>&"', text)
        self.checked(text)

    def test_nothing_at_all(self) -> None:
        words = self.checked(draw(read_session('law = "A"\n', b''), 'e1gw'))
        self.assertIn('No datagrams came', words)

    def test_no_fault_is_good(self) -> None:
        self.assertIn('<h2>Findings</h2><p class="fine">No fault found.</p>', draw(Facts(), 'x'))

    def test_times_stand_apart(self) -> None:
        """Where slips bring round times together, some have no text: by 5 pixels of a character, at least."""
        second = OCTETS_A_SECOND
        breaks = [Break(place, 0.4, 0.4) for place in range(second, 2 * second, second // 8)]
        sheet = Sheet(40, 'times')
        sheet.grid(Scale(0, 4 * second, 1.8e9, breaks), 16, 40)
        found = re.findall(r'<text x="([0-9.]+)"[^>]*text-anchor="(\w+)">([^<]*)', ''.join(sheet.out))
        wide = [5 * len(words) for *_, words in found]
        left = [float(x) - {'start': 0, 'middle': its / 2, 'end': its}[side] for (x, side, _), its in zip(found, wide)]
        self.assertGreater(len(found), 4)
        self.assertFalse([each for each in zip(left, wide, left[1:]) if each[0] + each[1] > each[2]])

    def test_small_things(self) -> None:
        self.assertEqual(runs([1, 2, 4, 9], 2), [(1, 4), (9, 9)])
        self.assertEqual(apart([1, 2, 11, 12, 30], 10), [1, 11, 30])
        self.assertEqual(clock(59.9996, 3), '00:01:00.000')
        ticks = Scale(0, 60 * OCTETS_A_SECOND, None).ticks()
        self.assertEqual([words for _, words in ticks], [f'{10 * n} s' for n in range(7)])
        day = Scale(0, 86_400 * OCTETS_A_SECOND, None).ticks()
        self.assertEqual([words for _, words in day], [f'{4 * n} h' for n in range(7)])
        self.assertEqual([duration(each * OCTETS_A_SECOND) for each in (90, 600, 86_400, 9000)],
                         ['90.00 s', '10 min 0 s', '24 h 0 min', '2 h 30 min'])


QUOTES = {name: who + words.replace("'", '&#x27;') for name, who, words in re.findall(
    r'!\[\]\(pictures/([a-z-]+)\.svg\)\n\n> ([^:]+): (.*)\n', text_of(os.path.join(TOP, 'docs', 'SYMPTOMS.md')))}


class PictureTroubleTests(FolderCase):
    def is_quoted(self, name: str, page: str) -> None:
        entries = [re.sub('<.*?>', '', entry) for entry in re.findall('<li.*?</li>', page, re.S)]
        self.assertTrue(any(entry.startswith(QUOTES[name]) for entry in entries), (QUOTES[name], entries))

    def has(self, name: str) -> None:
        """A session with this trouble; in one without any nothing is found."""
        (config, given), facts = recorded(name), made_of(name)
        with configured(config) as path:
            for line in run('check', '--config', path, given=given).decode().splitlines():
                number, _, state, _, _, *counts, _, _ = line.split()
                row = facts.rows[int(number)]
                cell = row.count()
                refused = sum(seen[0] for seen in cell.refused.values()) + cell.counts.get('repetitions', 0)
                self.assertEqual([row.states.value, cell.sent, cell.admitted, refused],
                                 [state, *map(int, counts)], line)
        if name == 'sound':
            self.assertEqual(findings(facts), [])
        else:
            self.is_quoted(name, draw(facts, name))

    def has_captured(self, name: str) -> None:
        config, given, capture = captured(name)
        self.is_quoted(name, page_of('--config', self.write('trunk.toml', config), '--capture',
                                     self.write('call.pcap', capture), '-', given=given)[0])

    def test_each_is_in_the_documents(self) -> None:
        """With a picture of its own."""
        names = {*TROUBLES, *CAPTURED} - {'sound'}
        folder = os.path.join(TOP, 'docs', 'pictures')
        drawn = {text_of(os.path.join(folder, name)) for name in os.listdir(folder) if name.endswith('.svg')}
        self.assertEqual(({*QUOTES}, len(drawn)), (names, len(names)))


for each in TROUBLES:
    setattr(PictureTroubleTests, f'test_{each}', partialmethod(PictureTroubleTests.has, each))
for each in CAPTURED:
    setattr(PictureTroubleTests, f'test_{each}', partialmethod(PictureTroubleTests.has_captured, each))
