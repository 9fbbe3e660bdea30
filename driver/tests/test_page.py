"""The page of a trunk: who may see it, that names are shown as text, what each visitor is sent, and when no more; and
what needs sockets: a picture, and visitors of all kinds."""
from __future__ import annotations

import asyncio
import contextlib
import http.client
import json
import socket
import unittest
import urllib.request
from dataclasses import replace
from typing import Any
from unittest import mock

from . import support
from .limits import LONG
from .shown import ShownTables
from .support import SECONDS
from .test_trunk import FOUR, aligned, call
from .world import World, config_of
from e1gw_common.call_lines import CallLine, csv_line
from e1gw.clock import ClockStatus
from e1gw.ctl_all import TrunkHere, TrunkLine
from e1gw.events import (AlarmChanged, BlockNews, CardAlarm, CardAlarmChanged, Connected, Crc4Change, Crc4Changed,
                         Disconnected, Event, Fed, Flows, LineChanged, NotFed, ReadEvents, RemoteAlarmChanged, Slip,
                         SlotsChange, SlotsChanged, Stalled, TrunkLost, TrunkOpened, WrongRate)
from e1gw.files_status import FilesStatus
from e1gw_common.lines import Alignment, Line, LineStatus, Role, State
from e1gw.metrics import NOT_OPEN, head_of
from e1gw.satop import SatopStatus
from e1gw.status import CircuitStatus, MachineRole, PairStatus, ToldStatus, TransportStatus, TrunkStatus
from e1gw.watcher import http_pages
from e1gw.watcher.options import kept_of
from e1gw.watcher.page import (POLICY, Look, Parts, ShownRow, circuit_row, ended_row, length, message_of, page_of,
                               parts_of, trunk_row, trunks_page)
from e1gw.watcher.http_pages import EventReaders
from e1gw_common.web import NOTHING, PageRequest
from e1gw_testing.ports import free_port
from e1gw.udp_tables import sockets_of
from e1gw_testing.waits import turns

EVIL = '"><script>alert(1)</script><img src=x onerror=alert(1)>\'&</td></table>'
WELL = TrunkStatus(name='west', version='1', uptime=1.0, time=1.0)
BODIES = 'state', 'alarms', 'c1', 'c30', 'calls', 'events'


class PageRequestTests(unittest.TestCase):
    def test_who_gets_the_page(self) -> None:
        """Browsers name text/html (their words of 2026); others keep the text: RFC 9110, 12.5.1."""
        rows = (('text/html,application/xhtml+xml,application/xml;q=0.9,*/*;q=0.8', True), ('*/*', False),
                ('application/openmetrics-text;version=1.0.0;q=0.5,*/*;q=0.1', False), ('application/json', False),
                ('text/plain, TEXT/HTML ;q=0.5', True), ('text/html;q=0, */*', False), ('text/html; q=0.000', False),
                ('text/htmlx', False), ('', False))
        for accepted, is_of_browser in rows:
            head = f'GET /?a HTTP/1.1\r\nX-Accept: text/html\r\naccept:{accepted}\r\nHost: a:1\r\n\r\n'.encode()
            self.assertEqual(PageRequest.parse(head), PageRequest(b'GET', '/', 'a', is_of_browser), accepted)

    def test_hosts(self) -> None:
        for host, found in (('a-1.example:9101', 'a-1.example'), ('[::1]:9', '[::1]'), ('192.0.2.1', '192.0.2.1'),
                            ('a"><b>:1', 'localhost'), ('a b', 'localhost'), ('', 'localhost')):
            self.assertEqual(PageRequest.parse(f'GET / HTTP/1.1\r\nHost: {host}\r\n\r\n'.encode()).host, found)


def line_changed(state: State) -> LineChanged:
    return LineChanged(1, Role.OUTGOING, State.IDLE, state, 0)


class PageTextTests(unittest.TestCase):
    def test_texts_stay_texts(self) -> None:
        """Whatever a name, a fault or an event says."""
        rows = [ShownRow([EVIL, EVIL]), ShownRow([EVIL])]
        shown = ShownTables(page_of(EVIL, dict.fromkeys(BODIES, rows), ['/trunks']).decode())
        self.assertEqual(shown.rows, {each: [[EVIL, EVIL], [EVIL]] for each in BODIES})
        self.assertEqual((shown.tags['script'], shown.tags['img'], shown.attributes['onerror']), (1, 0, 0))
        self.assertEqual(message_of({'c1': [ShownRow(['\n\r\n'])]}).count(b'\n'), 2)

    def test_red_rows(self) -> None:
        """By a value, not by words: a trunk may be named so."""
        rows = [ShownRow(['1', 'hears nothing: wrong rate']), ShownRow(['2', 'x'], Look.BAD)]
        parts: Parts = {'events': rows, 'c1': []}
        self.assertEqual(ShownTables(page_of('', parts, []).decode()).red, ['events'])
        self.assertEqual(json.loads(message_of(parts)[6:])['events'],
                         [[['1', 'hears nothing: wrong rate'], ''], [['2', 'x'], 'bad']])

    def test_poor_calls(self) -> None:
        """Those of which more than a hundredth is missing or was discarded."""
        for received, lost, discarded, look in (('99', '1', '0', ''), ('98', '1', '1', 'poor'), ('0', '0', '0', ''),
                                                ('', '', '', ''), ('9850', '100', '0', 'poor'), ('0', '5', '', 'poor')):
            call = CallLine(*[''] * len(CallLine._fields))._replace(
                circuit='7', received=received, lost=lost, discarded=discarded, ended='2026-11-29T10:01:05Z')
            row = CircuitStatus(line=LineStatus(7, Role.OUTGOING, State.ACKED, for_=1.0))
            rows = ended_row(csv_line(call), None), circuit_row(replace(WELL, calls=(call,)), row)
            self.assertEqual([each.look for each in rows], [look, look], call)
            above = parts_of(replace(WELL, calls=(call,)), mock.Mock(events=(), ended=()))['state'][3:]
            self.assertEqual([each.look for each in above], [look] * bool(look), call)
        self.assertEqual(rows[1].cells[5:], ['5', '', ''])

    def test_words_of_poor_calls(self) -> None:
        """By how many packets, and why; not those of which more is known."""
        calls = [CallLine(*[''] * len(CallLine._fields))._replace(
            circuit=str(n), received='95', lost=lost, discarded=discarded, cause='Late')
            for n, lost, discarded in ((1, '5', '0'), (2, '0', '5'), (3, '5', ''), (4, '0', '0'), (7, '5', '0'))]
        status = replace(WELL, calls=(*calls,), circuits=(CircuitStatus(line=LineStatus(7), deaf='Late'),))
        words = 'calls miss packets: 1, 3 (5 % lost), 2 (5 % Late)'
        self.assertEqual([*head_of(status)][-1].text, words)
        self.assertTrue(TrunkLine.from_status('a', status).state.endswith(f'; {words}'))

    def test_red_lines(self) -> None:
        """Those above the circuits, of what is wrong with the trunk now."""
        rows: tuple[tuple[dict[str, Any], list[int]], ...] = (
            ({}, []), ({'fault': 'no card'}, [0, 1]),
            ({'fault': 'standby', 'pair': PairStatus(MachineRole.STANDBY, True)}, []),
            ({'fault': 'standby', 'pair': PairStatus(MachineRole.STANDBY, False)}, [3]),
            ({'told': ToldStatus(remote_alarm={Alignment.FRAME: True})}, [1]),
            ({'told': ToldStatus(alarm={Alignment.FRAME: True})}, [1]),
            ({'transport': TransportStatus(satop=SatopStatus('', {}))}, []),
            ({'transport': TransportStatus(satop=SatopStatus('x', {}))}, [3]),
            ({'stale': True}, [3]), ({'ended': {'json': 'x'}}, [3]), ({'senders': 'any'}, []))
        for more, red in rows:
            lines = head_of(replace(WELL, **more))
            self.assertEqual([at for at, line in enumerate(lines) if line.is_bad], red, more)

    def test_what_may_be_the_cause(self) -> None:
        """Whose packets are received is told where none come to a call; a rate of steady flow is not told beside one
        that is wrong."""
        for deaf, senders, is_told in ((None, 'peer', False), ('no packets', 'peer', True), ('no packets', '', False),
                                       ('Late', 'peer', False), (None, 'any', True)):
            rows = CircuitStatus(line=LineStatus(7), deaf=deaf),
            words = [line.text for line in head_of(replace(WELL, senders=senders, circuits=rows))]
            self.assertEqual(f'(--senders {senders})' in words[-1], is_told, (deaf, senders))
        for is_wrong in False, True:
            text = head_of(replace(WELL, clock=ClockStatus(ppm=5.0, rate=0.99, rate_wrong=is_wrong)))[2].text
            self.assertEqual('rate +5 ppm' in text, not is_wrong)

    def test_how_long(self) -> None:
        self.assertEqual([length(seconds) for seconds in (-1, 65.9, 3605)], ['0:00', '1:05', '1:00:05'])
        times = {'seized': '', 'answered': '2026-11-29T10:00:00Z', 'ended': '2026-11-29T10:01:05Z', 'received': '',
                 'lost': '', 'discarded': ''}
        self.assertEqual(ended_row(','.join(times.get(name, name) for name in CallLine._fields), None).cells[:5],
                         ['11-29 10:01:05', 'circuit', 'direction', '1:05', 'by'])

    def test_trunks(self) -> None:
        """A link leads to the host by which the reader has come, where the other trunk listens there too."""
        row = CircuitStatus(line=LineStatus(1), deaf=EVIL)
        for host, link in (('127.0.0.1', '//\0:9102/'), ('0.0.0.0', '//\0:9102/'), ('192.0.2.7', '//192.0.2.7:9102/'),
                           ('2001:db8::1', '//[2001:db8::1]:9102/'), ('"><b>', '//&quot;&gt;&lt;b&gt;:9102/')):
            status = TrunkStatus(files=FilesStatus(http=(host, 9102)), circuits=(row,))
            text = trunks_page([TrunkHere(True, TrunkLine(EVIL, state=EVIL), status)], '127.0.0.1').decode()
            shown = ShownTables(text)
            self.assertIn(f'<a href="{link}">', text)
            self.assertEqual([shown.tags[each] for each in ('script', 'img', 'b', 'i')], [0, 0, 0, 1])
        for more in None, TrunkStatus(circuits=(row,)):        # (of one without pages nothing is told)
            text = trunks_page([TrunkHere(True, TrunkLine('a', state='secret'), more)], '').decode()
            self.assertEqual(('href' in text, 'secret' in text), (False, more is None))

    def test_red_trunks(self) -> None:
        """One that does not answer, or is at fault: not one that is not in service, or shows no page. A call of which
        packets are missing shows at its square."""
        call = CallLine(*[''] * len(CallLine._fields))._replace(circuit='7', lost='5')
        row = CircuitStatus(line=LineStatus(7, Role.OUTGOING, State.ACKED))
        well = replace(WELL, files=FilesStatus(http=('', 9102)), circuits=(row,), calls=(call,))
        for is_here, status, is_red in ((True, None, True), (False, None, False), (True, well, False),
                                        (True, replace(well, told=ToldStatus(trunk_up=False)), True),
                                        (True, replace(well, files=FilesStatus(), fault='x'), False)):
            text = trunk_row(TrunkHere(is_here, TrunkLine('a', state='b'), status), '')
            self.assertEqual('<td class="bad">b</td>' in text, is_red, text)
        self.assertIn('<i class="poor" data-s="acked"', trunk_row(TrunkHere(True, TrunkLine('a'), well), ''))

    def test_circuits_that_are_blocked(self) -> None:
        """A tile and a square say so, though the line of an outgoing one is idle. If the trunk is not open nothing is
        known of a line."""
        for fault, state, blocked, words in (
                (None, State.IDLE, BlockNews.BLOCKED, 'blocked'), (None, State.BLOCKED, BlockNews.BLOCKED, 'blocked'),
                (None, State.ANSWERED, None, 'answered'), (None, State.FAULT, BlockNews.BLOCKED, 'fault, blocked'),
                (None, State.ACKED, BlockNews.BLOCKING, 'acked, blocking'), ('x', State.IDLE, None, NOT_OPEN)):
            row = CircuitStatus(line=LineStatus(7, Role.OUTGOING, state), blocked=blocked)
            status = TrunkStatus(fault=fault, files=FilesStatus(http=('', 9102)), circuits=(row,))
            self.assertEqual(circuit_row(status, row).cells[:3], ['7', words, 'outgoing'])
            self.assertIn(f'data-s="{words}" title="7 {words}">',
                          trunk_row(TrunkHere(True, TrunkLine('a'), status), ''))

    def test_alarms_and_since_when(self) -> None:
        """By the events of e1gw-trunk(1): what begins an alarm, and what ends it."""
        frame, multiframe = Alignment.FRAME, Alignment.MULTIFRAME
        found, seized = Crc4Changed(Crc4Change.FOUND, False), line_changed(State.SEIZED)
        rows: tuple[tuple[Event, Event | None], ...] = (
            (AlarmChanged(frame, True, 0), AlarmChanged(frame, False, 0)),
            (RemoteAlarmChanged(multiframe, True, 0), RemoteAlarmChanged(multiframe, False, 0)),
            (CardAlarmChanged(CardAlarm.RED, True), CardAlarmChanged(CardAlarm.RED, False)),
            (Stalled(2.0), Flows(3.0)), (WrongRate(True, 20.0), WrongRate(False, 100.0)),
            (TrunkLost('x'), TrunkOpened('y', {})),
            (Disconnected('program', 'x'), Connected('program')), (NotFed('x', 'y'), Fed('x', 1)),
            (SlotsChanged(SlotsChange.LOST), SlotsChanged(SlotsChange.MOVED, 3)),
            (Crc4Changed(Crc4Change.NONE, True), found), (Crc4Changed(Crc4Change.LOST, True), found),
            (Slip(0.1), None), (Crc4Changed(Crc4Change.GIVEN_UP, True), None), (line_changed(State.FAULT), None))
        for begin, end in rows:
            events = ReadEvents()
            events.take(AlarmChanged(multiframe, True, 0), 1.0)
            events.take(begin, 2.0)
            events.take(begin, 3.0)
            alarms = events.active_alarms()
            self.assertEqual([each.time for each in alarms.values()], [1.0, 2.0][:2 if end else 1], begin)
            events.take(end or seized, 4.0)
            self.assertEqual([each.time for each in alarms.values()], [1.0], begin)
            self.assertEqual(len(events.last), 4 if end else 3)

    def test_where_a_call_is_found(self) -> None:
        """By the rules of e1gw-call: its own folder and file, or those that are named."""
        for session, calls, kept in (('/var/lib/e1gw/a', '/var/lib/e1gw/a/calls.csv', ''), ('/b c', '/b c/calls.csv',
                                     " '/b c'"), ('/var/lib/e1gw/a', '/d', ' /var/lib/e1gw/a --calls /d'),
                                     (None, '/d', None), ('/b', None, None)):
            asked = mock.Mock(keep=session and 1, session=session, calls=calls)
            self.assertEqual(kept_of(asked), kept)


class PageServerTests(unittest.IsolatedAsyncioTestCase):
    """Requests, and what is answered."""

    async def asyncSetUp(self) -> None:
        texts = mock.Mock(parts={'c1': [ShownRow(['1', 'idle'])]}, table='rows', metrics='samples', json='{}',
                          status=TrunkStatus(name='west'))
        pages_of = http_pages.TrunkServer(mock.AsyncMock(return_value=texts), '127.0.0.1', [])
        server = await asyncio.start_server(pages_of.on_connect, '127.0.0.1', 0)
        self.addCleanup(server.close)
        self.place = server.sockets[0].getsockname()

    async def answered(self, method: str, path: str, *lines: str) -> tuple[str, str, str, str]:
        """The status, the kind, what it may load, and the body, whose length is told."""
        reader, writer = await asyncio.open_connection(*self.place)
        self.addCleanup(writer.close)
        writer.write('\r\n'.join([f'{method} {path} HTTP/1.1', *lines, '', '']).encode())
        head, _, body = (await reader.read()).decode().partition('\r\n\r\n')
        first, *others = head.split('\r\n')
        fields = dict(each.split(': ', 1) for each in others)
        if method != 'HEAD':
            self.assertEqual(int(fields['Content-Length']), len(body))
        return (first.removeprefix('HTTP/1.0 '), fields['Content-Type'].removesuffix('; charset=utf-8'),
                fields['Content-Security-Policy'], body)

    async def test_texts(self) -> None:
        for path, kind, body in (('/', 'text/plain', 'rows'), ('/metrics', 'text/plain; version=0.0.4', 'samples'),
                                 ('/status', 'application/json', '{}\n')):
            self.assertEqual(await self.answered('GET', path), ('200 OK', kind, NOTHING, body))
            self.assertEqual(await self.answered('HEAD', path), ('200 OK', kind, NOTHING, ''))
        status, _, _, body = await self.answered('GET', '/none')
        self.assertEqual((status, body.strip()), ('404 Not Found', 'there are /, /metrics, /status, /trunks, /events'))
        self.assertEqual((await self.answered('POST', '/'))[0], '405 Method Not Allowed')

    async def test_pages(self) -> None:
        """For a browser; the other trunks are those that it is told of, at the host by which it has come."""
        status, kind, policy, body = await self.answered('GET', '/', 'Accept: text/html')
        self.assertEqual((status, kind, policy, '<title>trunk west' in body, '"c1"' in body),
                         ('200 OK', 'text/html', POLICY, True, True))
        with mock.patch.object(http_pages, 'asked_trunks', lambda patience: ['north', patience]), \
                mock.patch.object(http_pages, 'trunks_page',
                                  lambda trunks, host: f'{trunks} {host} \0</html>\n'.encode()):
            self.assertEqual((await self.answered('GET', '/trunks', 'Host: west.example:9'))[1:], (
                'text/html', http_pages.DRAWING, f"['north', {http_pages.PATIENCE}] 127.0.0.1 west.example</html>\n"))


class EventReaderTests(unittest.IsolatedAsyncioTestCase):
    """Who reads events. The page changes at each look, and one has no time in between."""

    async def asyncSetUp(self) -> None:
        self.looks, self.closed = 0, list[str]()
        self.enterContext(mock.patch.multiple(http_pages, TOLD=0.0, MOST_READERS=2))
        self.readers = EventReaders(self.fresh)
        self.server = await asyncio.start_server(self.serve_reader, '127.0.0.1', 0)
        self.addCleanup(self.server.close)

    async def fresh(self) -> Any:
        self.looks += 1
        return mock.Mock(parts={'c1': [ShownRow(['1', 'x' * 3000 + str(self.looks)])], 'c2': [ShownRow(['2', 'y'])]})

    async def serve_reader(self, reader: asyncio.StreamReader, writer: asyncio.StreamWriter) -> None:
        name = (await reader.readline()).decode().strip()
        with contextlib.suppress(asyncio.CancelledError):       # (at the end of the test)
            await self.readers.read(reader, writer)
            self.closed.append(name)

    async def connect(self, name: str) -> asyncio.StreamReader:
        line = socket.create_connection(self.server.sockets[0].getsockname())
        line.setsockopt(socket.SOL_SOCKET, socket.SO_RCVBUF, 4096)
        reader, writer = await asyncio.open_connection(sock=line, limit=4096)
        self.addCleanup(writer.close)
        writer.write(f'{name}\n'.encode())
        self.assertEqual(await reader.readline(), b'HTTP/1.0 200 OK\r\n')
        await reader.readuntil(b'\r\n\r\n')
        return reader

    async def read_parts(self, reader: asyncio.StreamReader) -> dict[str, Any]:
        text = (await reader.readuntil(b'\n\n')).removeprefix(b'data: ')
        found: dict[str, Any] = json.loads(text)
        return found

    async def test_who_does_not_read(self) -> None:
        """His connection is closed, and little is held for him. The other reader gets each change once, and nothing
        else."""
        await self.connect('slow')
        quick = await self.connect('quick')
        self.assertEqual([*await self.read_parts(quick)], ['c1', 'c2'])
        while not self.closed and 3000 * self.looks < 20 * http_pages.MOST_HELD:
            self.assertEqual([*await self.read_parts(quick)], ['c1'])
        self.assertEqual(self.closed, ['slow'])
        self.assertEqual([*await self.read_parts(quick)], ['c1'])

    async def test_one_too_many(self) -> None:
        """The oldest goes, though nobody was told anything behind the whole page, as whoever comes is."""
        with mock.patch.object(http_pages, 'TOLD', LONG):
            for name in ('first', 'second', 'third'):
                reader = await self.connect(name)
            self.assertEqual([*await self.read_parts(reader)], ['c1', 'c2'])
            await support.eventually(lambda: self.closed)
        self.assertEqual(self.closed, ['first'])


class WebPartTests(unittest.IsolatedAsyncioTestCase):
    async def test_all_that_was_told_is_in_a_page(self) -> None:
        """A page stays the same until something is told. Then all that was told is taken first."""
        takes, time, now = mock.Mock(), mock.Mock(), [10.0]
        time.monotonic = lambda: now[0]
        its = http_pages.TrunkPages(lambda: TrunkStatus(renewed=takes.call_count), takes, [], mock.Mock())
        rest = mock.AsyncMock(side_effect=lambda seconds: now.append(now.pop() + seconds))
        with mock.patch.multiple(http_pages, time=time, EVERY=0.25), \
                mock.patch('e1gw.watcher.http_pages.asyncio.sleep', rest):
            for is_told, count in (False, 1), (False, 1), (True, 4):
                if is_told:
                    its.mark_stale()
                self.assertEqual((await its.fresh()).status.renewed, count)

    def test_a_socket_that_nobody_reads(self) -> None:
        """Octets wait there, and what has no room is dropped."""
        with socket.socket(socket.AF_INET, socket.SOCK_DGRAM) as line:
            line.bind(('127.0.0.1', 0))
            for _ in range(2 * line.getsockopt(socket.SOL_SOCKET, socket.SO_RCVBUF) // 1000):
                line.sendto(bytes(1000), line.getsockname())
            found = sockets_of([Line(7, port=line.getsockname()[1]), Line(8)])
        self.assertEqual([*found], [7])
        self.assertGreater(min(found[7].waiting, found[7].dropped), 0)

    async def test_a_slow_picture(self) -> None:
        """It takes longer than somebody waits for it. One process draws, however many ask; they learn for how long it
        has done so, and later get the page."""
        drawn, begun, seconds = asyncio.Event(), list[Any](), 0

        async def start_process(_: str, words: list[str]) -> mock.Mock:
            begun.append(words)
            return mock.Mock()

        async def run_process(*_: object) -> tuple[int, str, bytes]:
            await drawn.wait()
            return 0, '', b'<html></html>\n'
        with mock.patch.multiple(http_pages, WAITED=0.01, put_behind=mock.Mock(), run_process=run_process,
                                 start_process=start_process, time=mock.Mock(monotonic=lambda: 100.0 + seconds)):
            page = http_pages.SlowPage(lambda: http_pages.picture_of(['--last', '60s', 'ring']))
            for seconds in 0, 7, 30:
                self.assertIn(f'<progress value="{seconds}" max='.encode(), await page.fresh())
            drawn.set()
            for _ in turns('the page is made'):
                if b'<progress' not in (found := await page.fresh()):
                    break
                await asyncio.sleep(0)
        self.assertEqual((found, len(begun)), (b'<html></html>\n', 1))
        self.assertEqual(begun[0][-3:], ['--last', '60s', 'ring'])


class WebTests(unittest.TestCase):
    def setUp(self) -> None:
        self.port = free_port()
        self.world = World(config_of(FOUR), '--http', f'127.0.0.1:{self.port}', '--name', 'west', '--picture', '60',
                           '--session', '@/ring', '--keep', '96h')
        self.addCleanup(self.world.__exit__)

    def get(self, path: str, kind: str = 'text/plain; version=0.0.4; charset=utf-8') -> str:
        with urllib.request.urlopen(f'http://127.0.0.1:{self.port}{path}', timeout=SECONDS) as page:
            self.assertEqual(page.headers['Content-Type'], kind)
            text: str = page.read().decode()
            return text

    def test_a_picture_of_the_last_seconds(self) -> None:
        """Drawn of what is kept; the calls go on meanwhile."""
        aligned(self.world)
        call(self.world, 1)

        def drawn() -> str | None:
            with contextlib.suppress(OSError, http.client.HTTPException, AssertionError):   # (it is not drawn yet)
                page = self.get('/picture', 'text/html; charset=utf-8')
                return page if '1 answered' in page else None
            return None
        page = support.until(drawn, 1.0)                # what is kept may be late
        self.assertEqual(('</html>' in page, '<h1>e1gw: ring</h1>' in page), (True, True))
        call(self.world, 2)

    def test_visitors_that_are_slow_or_mad(self) -> None:
        """A request without a target kept its descriptor for ever (by Python 3.11.2): at last there was none for the
        next program."""
        lines = []
        for request in (b'', b'GET', b'GET /metrics HTTP/1.0\r\n\r\n', b'\r\n\r\n', b'GET\r\n\r\n',
                        b'\xff\r\n\r\n', b'\xff' * 20_000, b'GET ' + b'/' * 20_000 + b'\r\n\r\n',
                        b'DELETE / HTTP/1.0\r\n\r\n'):
            lines.append(line := socket.create_connection(('127.0.0.1', self.port)))
            line.sendall(request)
            with contextlib.suppress(ConnectionResetError):
                while len(lines) > 2 and line.recv(65_536):
                    pass
        aligned(self.world)
        for _ in range(200):
            lines.append(socket.create_connection(('127.0.0.1', self.port)))
            lines[-1].sendall(b'GET /metrics HTTP/1.0\r\nX: ')
        self.assertIn('e1gw_trunk_up', self.get('/metrics'))
        for line in lines:
            line.close()
        self.assertIn('answered', self.get('/', 'text/plain; charset=utf-8'))
        self.assertNotIn('exception', self.world.quit()[1])
