"""Packets that the network lost, by the numbers of all that came; and figures of packets, alike wherever they are
shown."""
from __future__ import annotations

import itertools
import re
import socket
import time
import unittest
import urllib.request
from collections import Counter
from typing import Any, Iterable, Iterator, Mapping, NamedTuple
from unittest import mock

from . import support
from .picture_made import configured, read_session, rtp
from .properties import PropertyCase
from .shown import ShownTables
from .support import octets_in
from .test_tell_lines import BEGIN, row
from .test_trunk import FOUR, aligned, call
from .test_watch import TrunkWatchCase
from .world import World, config_of
from e1gw_common.call_lines import CallLine, read_calls
from e1gw.call_sums import sums_of
from e1gw.ctl_all import TrunkLine
from e1gw_common.frames import FrameSearch
from e1gw_common.lost import AHEAD, IN_A_ROW, WINDOW, ReceivedNumbers
from e1gw_common.plain import typed
from e1gw.status import TrunkStatus
from e1gw_picture.page import draw
from e1gw_common.session import (CIRCUITS, FRAME, MULTIFRAME, OCTETS_A_SECOND, Command, Kind, Record, datagram_record,
                                 records_in)
from e1gw_testing.ports import free_port, free_ports

COUNT, FIRST = 120, 65_500          # packets of a call, and the first number
Plan = Iterable[tuple[int, int, int, int]]      # turns of 20 ms, each with number, source and payload type of a packet


def lost_of(*numbers: int) -> ReceivedNumbers:
    """Packets of one source come with these numbers."""
    found = ReceivedNumbers()
    take(found, 7, *numbers)
    return found


def take(found: ReceivedNumbers, source: int, *numbers: int) -> None:
    for number in numbers:
        datagram = rtp(number, 0, source)
        found.take(b'before' + datagram, 6, len(datagram))


class ReceivedNumberTests(PropertyCase):
    def test_numbers(self) -> None:
        far = AHEAD + 100
        rows: list[tuple[list[int], int]] = [
            ([], 0), ([5], 0), ([5, 6, 8], 1), ([5, 8, 6], 1), ([5, 8, 6, 7], 0), ([5, 5, 6, 6], 0),
            ([65534, 1], 2), ([5, 7, 6, 6], 0), ([5, 4, 7], 1), ([5, 4 + AHEAD], AHEAD - 2),
            ([5, 5 + AHEAD], 0),
            # one that is far ahead or behind is none of these, unless others follow it
            ([5, far, 7], 1), ([5, far, far + 1, 7], 1), ([5, 7, 65000, 8], 1),
            ([5, 7, *range(far, far + IN_A_ROW), far + IN_A_ROW + 1], 2),
            # what comes very late is lost, since nobody knows any more what came then
            ([5, 7, *range(8, 6 + WINDOW), 6], 0), ([5, 7, *range(8, 7 + WINDOW), 6], 1)]
        for numbers, lost in rows:
            self.assertEqual(lost_of(*(each & 0xFFFF for each in numbers)).count_lost, lost, numbers)

    def test_sources(self) -> None:
        """Another source is no part of the stream, unless it goes on with its numbers, or comes alone."""
        found = lost_of(5, 6)
        for number in range(7, 50):
            take(found, 9, 1000 + 5 * number)
            take(found, 7, *[number] * (number % 10 != 0))
        self.assertEqual(found.count_lost, 4)
        take(found, 9, 50)
        take(found, 7, 51)
        self.assertEqual(found.count_lost, 4)
        take(found, 9, *range(2000, 2000 + IN_A_ROW - 1), 2000 + IN_A_ROW, 3000 + IN_A_ROW)
        self.assertEqual(found.count_lost, 4 + 1 + 999)

    def test_another_call(self) -> None:
        """A call begins new numbers, and packets lost before it stay counted. Octets without an RTP header have no
        number; a header alone has one."""
        found = lost_of(5, 7)
        found.begin()
        take(found, 7, 60)
        found.take(rtp(62, 0, 7), 0, 12)
        for octets in b'', rtp(90, 0, 7)[:11], b'\x40' + rtp(90, 0, 7)[1:]:
            found.take(octets, 0, len(octets))
        self.assertEqual(found.count_lost, 2)

    def test_any_order(self) -> None:
        """Whatever is lost and overtakes others: all between the first and the highest number that did not come."""
        def check(first: int, packets: list[tuple[int, bool]]) -> None:
            order = sorted((n + late, n) for n, (late, is_lost) in enumerate(packets) if not is_lost)
            numbers = [n for _, n in order]
            came = [n for n in numbers if n >= numbers[0]]
            lost = len({*range(numbers[0], max(came))} - {*came}) if came else 0
            assert lost_of(*(first + n & 0xFFFF for n in numbers)).count_lost == lost
        self.holds(check, self.st.integers(0, 65535), self.st.lists(
            self.st.tuples(self.st.integers(0, 20), self.st.booleans()), max_size=80))


class CountedToTheEndTests(TrunkWatchCase):
    async def test_what_came_up_to_the_end(self) -> None:
        """The log is read up to the end of a call before the line of the call is written."""
        found = self.watched()
        found.blocks = mock.Mock()
        setattr(found.client, 'report_event', found.report_event)
        found._state.begin(0)
        found._state.take('\n'.join([*BEGIN, row(3, 'answered', '00 01'), 'now', '']).encode())
        news = [b''.join(datagram_record(3, rtp(number, 0, 7)) for number in (5, 6, 9))]
        setattr(found.trunk.reader, 'read', lambda: found.counts.take_records(news.pop() if news else b''))
        found._state.take(f'{row(3, "releasing")}\n'.encode())
        self.assertEqual(CallLine(*found.client.calls.lines[0].split(',')).lost, '2')


# ---- one session with each kind of fault ----

Figures = dict[str, int]            # received, lost, discarded and so on, and each cause


def status_figures(row: Mapping[str, Any]) -> Figures:
    """Those of a circuit's row in a status."""
    counts = dict(row['datagrams'])
    del counts['sent']
    return {'received': counts.pop('admitted'), 'lost': row['lost'], **with_sum(counts)}


def metric_figures(text: str, circuit: int) -> Figures:
    """Those of a circuit in the metrics."""
    front, value = rf'(?m)^e1gw_rtp_%s\{{.*circuit="{circuit}"%s\}} (\d+)$', r',%s="(\w+)"'
    causes = {why: int(n) for why, n in re.findall(front % ('discarded_total', value % 'cause'), text)}
    received = dict(re.findall(front % ('packets_total', value % 'direction'), text))['received']
    (lost,) = re.findall(front % ('lost', ''), text)
    return {'received': int(received), 'lost': int(lost), **with_sum(causes)}


def drawn_rows(page: str) -> dict[int, list[str]]:
    """The rows of the counts in a picture, by circuit."""
    table = page.partition('<table class="counts">')[2].partition('</table>')[0]
    rows = (re.findall('<td[^>]*>(.*?)</td>', row) for row in table.split('<tr>'))
    return {int(row[0]): row for row in rows if row}


def drawn_figures(row: list[str]) -> Figures:
    """Those of a circuit in a picture; repetitions count separately there."""
    causes, (sent, received, discarded, _, repeated, lost) = cause_of(row[9]), row[6:12]
    found = {'sent': int(sent), 'received': int(received), 'lost': int(lost), **with_sum(causes)}
    assert found['discarded'] == int(discarded), row
    for _ in range(int(repeated)):
        for name in 'Repeat', 'discarded':
            count(found, name)
    return found


def drawn_sums(page: str) -> list[int]:
    """Calls, answers, packets sent, received and discarded in the first line of a picture."""
    return [*map(int, re.findall(r'\d+(?= (?:calls|answered|sent|received|discarded))', page.partition('<h2>')[0]))]


def plan(without: Iterable[int], **at: int) -> Iterator[tuple[int, int, int, int]]:
    """All packets but some; those with the number `at` come so many turns later."""
    later = {int(name[1:]): turns for name, turns in at.items()}
    yield from ((n + later.get(n, 0), n, 7, 8) for n in range(COUNT) if n not in without)


def stranger() -> Plan:
    """A second source, with numbers of its own, some of which are missing."""
    yield from plan({12, 80})
    yield from ((n, 1000 + 7 * n, 9, 8) for n in range(5, COUNT, 2))


# Each circuit has a fault, and why packets are discarded then.
FAULTS: dict[int, tuple[Plan, set[str]]] = {
    1: ([*plan({10, 11, 50, 118})], set()), 2: ([*plan({5}, n20=10, n21=10, n60=12)], {'Late'}),
    3: (sorted([*plan({33}), *(each for each in plan({33}) if each[1] % 10 == 0)]), {'Repeat'}),
    4: ([*plan({70}, n15=1, n40=1, n116=1, n118=1)], set()),
    5: ([(turn, n, ssrc, 13 if n % 3 == 0 else kind) for turn, n, ssrc, kind in plan({31, 32})], {'PayloadType'}),
    6: ([(turn, n, ssrc, 13) for turn, n, ssrc, _ in plan({21, 22, 23})], {'PayloadType'}),
    7: ([*stranger()], {'WrongSource'}),
    8: ([(turn, n, 7 + 2 * (n % 2), kind) for turn, n, _, kind in plan({44})], {'WrongSource'})}


def lost_in(packets: Plan) -> int:
    """The numbers between the first and the last one of a call that nobody sent."""
    came = {n for _, n, _, _ in packets if n < COUNT}
    return len({*range(min(came), max(came))} - came)


def replayed(config: str, session: bytes) -> list[Record]:
    """What `e1gw replay` answers to a session."""
    with configured(config) as path:
        return [*records_in(support.run('replay', '--config', path, given=session))]


def judged(replies: Iterable[Record]) -> dict[int, Figures]:
    """What a replay says of the packets of each circuit, and what the plan says of those that were lost."""
    found = {n: {'lost': lost_in(FAULTS[n][0]) if n in FAULTS else 0} for n in CIRCUITS}
    for record in replies:
        if record.kind is Kind.DATAGRAM:
            count(found[record.circuit], 'sent')
        elif record.kind is Kind.ANSWER and record.body[0] == Kind.DATAGRAM:
            its, refusal = found[record.circuit], record.refusal
            for name in ('discarded', refusal.label) if refusal else ('received',):
                count(its, name)
    return found


# ---- calls and jitter, by the session ----

class LineFigures(NamedTuple):
    """Of a circuit: how often it was seized and answered, how often that was not acknowledged where that is shown, and
    the jitter of its packets."""

    seizures: int
    answers: int
    unacknowledged: int | None
    jitter_ms: float


class Jitter:
    """That of packets that were accepted (RFC 3550, A.8)."""

    def __init__(self) -> None:
        self._sixteenths = 0
        self._transit: int | None = None

    def take(self, place: int, datagram: bytes) -> None:
        """A packet that came behind so many octets of the trunk."""
        transit = place // FRAME - int.from_bytes(datagram[4:8])
        if self._transit is not None:
            self._sixteenths += abs(transit - self._transit) - (self._sixteenths + 8) // 16
        self._transit = transit

    @property
    def ms(self) -> float:
        return self._sixteenths // 16 / 8


def signals_in(came: bytes) -> dict[int, Counter[tuple[int, int]]]:
    """How often each signal of a circuit followed another one: bits of slot 16, each for ten multiframes
    (ITU-T Q.421)."""
    slots = bytes(octet for _, pairs in FrameSearch().take(came) for octet in pairs[16::FRAME])
    first = next(at for at in range(16) if {*slots[at:at + 320:16]} == {0x0B})
    found = dict[int, Counter[tuple[int, int]]]()
    for n in CIRCUITS:
        bits = [octet >> (2 if n > 15 else 6) & 3 for octet in slots[first + (n - 1) % 15 + 1::16]]
        long = [pair for pair, run in itertools.groupby(bits) if len([*run]) >= 10]
        found[n] = Counter(itertools.pairwise(long))
    return found


def lines_in(session: bytes, replies: Iterable[Record]) -> dict[int, LineFigures]:
    """What a session and a replay of it say of each circuit: a seizure is a command that is done."""
    answers = iter([each for each in replies if each.kind is Kind.ANSWER])
    came, seizures, jitters = bytearray(), Counter[int](), {n: Jitter() for n in CIRCUITS}
    for record in records_in(session):
        if record.kind is Kind.TRUNK:
            came += record.body
        elif not next(answers).refusal:
            seizures[record.circuit] += record.kind is Kind.COMMAND and record.body[0] == Command.SEIZE
            if record.kind is Kind.DATAGRAM:
                jitters[record.circuit].take(len(came), record.body)
    signals = signals_in(bytes(came))       # idle, acknowledged, answered
    return {n: LineFigures(seizures[n], signals[n][0b11, 0b01], seizures[n] - signals[n][0b10, 0b11], jitters[n].ms)
            for n in CIRCUITS}


def table_lines(text: str) -> dict[int, LineFigures]:
    """The same in a table of the status."""
    rows = (row for line in text.splitlines() if ' outgoing ' in line and (row := line.split()))
    return {int(row[0]): LineFigures(int(row[6]), int(row[7]), None, float(row[14])) for row in rows}


def metric_lines(text: str) -> dict[int, LineFigures]:
    """The same in metrics."""
    def family(name: str) -> dict[int, float]:
        return {int(n): float(value) for n, value in re.findall(
            rf'(?m)^e1gw_{name}\{{.*circuit="(\d+)".*\}} ([\d.e-]+)$', text)}
    seizures, answers, unacknowledged = (family(f'circuit_{name}_total') for name in (
        'seizures', 'answers', 'unacknowledged'))
    jitters = family('rtp_jitter_seconds')
    return {n: LineFigures(int(seizures[n]), int(answers[n]), int(unacknowledged[n]), 1000 * jitters[n])
            for n in CIRCUITS}


def count(figures: Figures, name: str) -> None:
    figures[name] = figures.get(name, 0) + 1


def cause_of(text: str) -> Figures:
    """What was discarded, in words: `9 Late`, `9 Late, 3 Repeat`, or nothing."""
    return {why: int(number) for number, why in re.findall(r'(\d+) ([A-Z]\w+)', text)}


def with_sum(causes: Figures) -> Figures:
    return {**causes, 'discarded': sum(causes.values())}


def of_line(call: CallLine) -> Figures:
    """The figures of a call's line, whose first cause is all that it has of them."""
    its = {'received': int(call.received), 'lost': int(call.lost), 'discarded': int(call.discarded)}
    return its | ({'Late': int(call.late)} if int(call.late) else {}) | ({'sent': int(call.sent)} if call.ended else {})


def got(port: int, path: str) -> str:
    """A page of a trunk, as a browser gets it."""
    request = urllib.request.Request(f'http://127.0.0.1:{port}{path}', headers={'Accept': 'text/html'})
    with urllib.request.urlopen(request, timeout=support.SECONDS) as answer:
        return str(answer.read().decode())


class TrunkFigureTests(unittest.TestCase):
    def test_octets_and_losses(self) -> None:
        """The octets of the trunk, and how often alignment was lost, are as many wherever they are shown, and as were
        given."""
        http = free_port()
        with World(config_of(FOUR), '--session', '@/session', '--http', f'127.0.0.1:{http}') as world:
            aligned(world)
            for _ in range(2):
                world.exchange_octets(b'\xff' * 5 * MULTIFRAME)
                aligned(world)
            status, metrics, given = world.status(), got(http, '/metrics'), bytes(world.sent)
            texts = world.ask('status'), '\n'.join(row[0] for row in ShownTables(got(http, '/')).rows['state'])
            world.quit()
            session, config = support.octets_of(world.path('session')), support.text_of(world.config)
        self.assertEqual(octets_in(session), given)
        self.assertEqual((status['octets'], status['losses']), (len(given), {'frame': 2, 'multiframe': 2}))
        for name, number in (('trunk_octets_total', len(given)), ('alignment_losses_total{.*alignment="frame"', 2),
                             ('alignment_losses_total{.*alignment="multiframe"', 2)):
            self.assertRegex(metrics, rf'(?m)^e1gw_{name}.* {number}$')
        for text in texts:
            self.assertIn(f'\n{len(given) / OCTETS_A_SECOND:.1f} s of the trunk at ', text)
            self.assertIn('\nalignment lost: frame 2, multiframe 2; ', text)
        facts = read_session(config, session)
        self.assertEqual((facts.place, {what: len(places) for what, places in facts.losses.items()}),
                         (len(given), status['losses']))


class ShownFigureTests(unittest.TestCase):
    """The packets of a call that are told: as many wherever they are, and as many as replays of the session say."""

    def setUp(self) -> None:
        peers = {n: socket.socket(socket.AF_INET, socket.SOCK_DGRAM) for n in FAULTS}
        for line in peers.values():
            line.bind(('127.0.0.1', 0))
            self.addCleanup(line.close)
        self.peers, self.ports, self.http = peers, dict(zip(FAULTS, free_ports(len(FAULTS)))), free_port()
        self.config = support.config_text({n: {
            'role': 'outgoing', 'prefill': 320, 'local_port': self.ports[n], 'peer_port': line.getsockname()[1]}
            for n, line in peers.items()})
        self.world = World(self.config, '--session', '@/session', '--calls', '@/calls', '--gap', '10000', '--http',
                           f'127.0.0.1:{self.http}')
        self.addCleanup(self.world.__exit__)

    def send_all(self) -> None:
        """The packets of all circuits, in 20 ms of the trunk each those that are due then, in their order."""
        due = [(turn, circuit, n, ssrc, kind) for circuit, (packets, _) in FAULTS.items()
               for turn, n, ssrc, kind in packets]
        for now in range(max(due)[0] + 1):
            for turn, circuit, n, ssrc, kind in due:
                if turn == now:
                    self.peers[circuit].sendto(rtp(FIRST + n, 160 * n, ssrc, kind),
                                               ('127.0.0.1', self.ports[circuit]))
            self.world.step(10)

    def packets_received(self) -> dict[int, int]:
        """How many packets of each circuit came."""
        return {row['circuit']: sum(row['datagrams'].values()) - row['datagrams']['sent']
                for row in self.world.recent_status()['circuits'] if row['circuit'] in FAULTS}

    def got(self, path: str) -> str:
        return got(self.http, path)

    def call_more(self) -> None:
        """Circuit 9 has a call that ends and another one, and nobody answers circuit 10."""
        for _ in range(2):
            call(self.world, 9)
            self.world.ask('clear 9')
            self.world.step(30)
        self.world.answers = False
        self.world.ask('seize 10')
        self.world.until(lambda: self.world.state(10) == 'idle')
        self.world.answers = True

    def shown_lines(self) -> dict[str, dict[int, LineFigures]]:
        """What is shown of each circuit's calls and jitter."""
        status, cells = self.world.status(), ShownTables(self.got('/')).rows
        its = {row['circuit']: LineFigures(row['seizures'], row['answers'], row['unacknowledged'], row['jitter_ms'])
               for row in status['circuits']}
        return {'status': its, 'table': table_lines(self.world.ask('status')),
                'metrics': metric_lines(self.got('/metrics')),
                'page': {n: its[n]._replace(jitter_ms=float(cells[f'c{n}'][0][6])) for n in FAULTS}}

    def compare_lines(self, shown: Mapping[str, Mapping[int, LineFigures]], found: Mapping[int, LineFigures]) -> None:
        """Calls and jitter that were shown are those of the session."""
        self.assertEqual([found[n][:3] for n in (1, 9, 10, 11)], [(1, 1, 0), (2, 2, 0), (1, 0, 1), (0, 0, 0)])
        self.assertGreater(found[4].jitter_ms, 2)
        for what, each in shown.items():
            for n, its in each.items():
                wanted = found[n][:3] if its.unacknowledged is not None else (*found[n][:2], None)
                self.assertEqual(its[:3], wanted, (what, n))
                self.assertAlmostEqual(its.jitter_ms, found[n].jitter_ms, msg=f'{what} {n}',
                                       delta=0.051 if what in ('table', 'page') else 0.006)
        calls = [*read_calls(self.world.path('calls'))]
        sums = sums_of(calls, time.time())
        self.assertEqual((sums.calls, sums.answered, sums.most, sum(each.by == 'not acknowledged' for each in calls)),
                         (*(sum(its[at] or 0 for its in found.values()) for at in (0, 1)), len(FAULTS), 1))

    def shown(self) -> dict[str, dict[int, Figures]]:
        """What is shown of each circuit while calls last."""
        status, cells, metrics = self.world.status(), ShownTables(self.got('/')).rows, self.got('/metrics')
        lines = [line for line in self.world.ask('status').splitlines() if ' outgoing ' in line]
        found = {'status': {row['circuit']: status_figures(row) for row in status['circuits']},
                 'table': {int(row[0]): {'received': int(row[12]), 'lost': int(row[13]), **with_sum(cause_of(line))}
                           for line in lines if (row := line.split())},
                 'calls': {int(each['circuit']): of_line(CallLine(**each)) for each in status['calls']},
                 'page': {n: {'lost': int(cells[f'c{n}'][0][5]), **cause_of(cells[f'c{n}'][0][7])} for n in FAULTS},
                 'metrics': {n: metric_figures(metrics, n) for n in FAULTS}}
        its = TrunkLine.from_status('west', typed(TrunkStatus, status))
        self.assertEqual((its.calls, its.lost, its.late), (str(len(FAULTS)), *(
            str(sum(each.get(name, 0) for each in found['status'].values())) for name in ('lost', 'Late'))))
        for n, (_, causes) in FAULTS.items():
            self.assertEqual({*status['circuits'][n - 1]['datagrams']} - {'sent', 'admitted'}, causes, n)
        return found

    def ended(self) -> dict[str, dict[int, Figures]]:
        """What is shown of each call that has ended."""
        rows = ShownTables(self.got('/')).rows['calls']
        return {'last calls': {int(row[1]): {'received': int(row[6]), 'lost': int(row[7]), 'Late': int(row[8]),
                                             **cause_of(row[9])} for row in rows}}

    def test_alike_everywhere(self) -> None:
        world = aligned(self.world)
        self.call_more()
        for circuit in FAULTS:
            call(world, circuit)
        self.send_all()
        sent = {n: len([*packets]) for n, (packets, _) in FAULTS.items()}
        world.until(lambda: self.packets_received() == sent)
        found, lines = self.shown(), self.shown_lines()
        for circuit in FAULTS:
            world.ask(f'clear {circuit}')
        world.until(lambda: {'idle'} == {
            row['state'] for row in world.recent_status()['circuits'] if row['circuit'] in FAULTS})
        found |= self.ended()
        world.quit()
        found['csv'] = {int(each.circuit): of_line(each) for each in read_calls(world.path('calls'))}
        session = support.octets_of(world.path('session'))
        replies = replayed(self.config, session)
        self.compare_lines(lines, lines_in(session, replies))
        page, expected = draw(read_session(self.config, session), ''), judged(replies)
        found['picture'] = {n: drawn_figures(row) for n, row in drawn_rows(page).items() if n in FAULTS}
        again = sum(int(row[10]) for row in drawn_rows(page).values())
        self.assertEqual(drawn_sums(page), [11, 10, *(sum(its.get(name, 0) for its in expected.values()) - less
                                                      for name, less in (('sent', 0), ('received', 0),
                                                                         ('discarded', again)))])
        for what, each in found.items():
            for n in FAULTS:
                figures = {name: value for name, value in each[n].items() if value or name in expected[n]}
                self.assertEqual(figures, {name: expected[n].get(name, 0) for name in figures}, (what, n))
