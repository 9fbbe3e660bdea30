"""A tie: its pairs of circuits and its messages, its options, its trunk, and what it says of itself."""
from __future__ import annotations

import asyncio
import io
import json
import os
import re
import socket
import tempfile
import unittest
from typing import Any
from unittest import mock

from . import support
from .properties import PropertyCase
from .ties import ClockedCase, StandInDriver, said_by_tie
from e1gw_common.lines import Role, State
from e1gw_common.session import CIRCUITS
from e1gw_testing.ports import free_port
from e1gw_tie.circuit import CircuitEnd, LinkState, TieCircuit
from e1gw_tie.events import CallOver, Ended, SiteCame, SiteGone, Warned
from e1gw_tie.main import main, parser, sign_of_life, work
from e1gw_tie.messages import BadMessage, Greeting, Message, SiteState, encode_message, message_of
from e1gw_tie.pairs import pairs_of
from e1gw_tie.status import serve_status, texts_of
from e1gw_tie.tie import Tie, TieOptions
from e1gw_tie.trunk import LOOK, told_by
from e1gw_common.tls import is_exposed, is_loopback


class TiePairsTests(unittest.TestCase):
    def test_text(self) -> None:
        """Lines of two circuits, or of two ranges; the rest of a line behind # is a comment."""
        self.assertEqual(pairs_of('1 2 # here there\n\n3-5 7-9\n'), {1: 2, 3: 7, 4: 8, 5: 9})

    def test_no_pairs(self) -> None:
        """The line that has the fault is named."""
        for text, why in (('1 2\n\n3 # 4', 'line 3: a line needs a circuit here and one there'), ('1 2 3', '^line 1: '),
                          ('1 2\n1-2 3-5', 'line 2: 1-2 and 3-5 have different lengths'), ('1 2\n1 3', '^line 2: '),
                          ('1 2\n3 2', 'line 2: circuit 3 here or 2 there is repeated'), ('5-4 1-2', '^line 1: '),
                          ('', 'there are no circuits'), ('0 1', ''), ('1 31', ''), ('a b', ''), ('1 2²', '')):
            with self.subTest(text), self.assertRaisesRegex(ValueError, f'{why}$' if why[:1] != '^' else why):
                pairs_of(text)


class TieMessageTests(PropertyCase):
    def test_no_message(self) -> None:
        """What no tie of this version sends ends the connection."""
        for line in (b'', b'\xff\n', b'[]', b'{}', b'{"tie": 2, "run": "a", "pairs": null}', b'{"dark": 1}',
                     b'{"tie": 1, "run": 7}', b'{"tie": 1, "run": "a", "pairs": []}',
                     b'{"tie": 1, "run": "a", "pairs": {"1": 2, "2": 2}}', b'{"circuit": 1}',
                     b'{"circuit": true, "end": {}}', b'{"circuit": 31, "end": {}}', b'{"all": [], "dark": true}',
                     b'{"all": {"1": {"role": "both"}}, "dark": true}', b'[' * 100_000,
                     b'{"all": {}, "dark": true, "until_answer": 8}',
                     b'{"tie": 1, "run": "' + b'a' * 101 + b'", "pairs": null}'):
            with self.subTest(line=line[:60]), self.assertRaises(BadMessage):
                message_of(line)

    def test_messages(self) -> None:
        """What is sent is understood as it was meant."""
        st, name = self.st, self.st.sampled_from(('', 'a.1', 'é' * 100))
        circuit = st.integers(1, 30)
        end = st.builds(CircuitEnd, st.sampled_from(list(Role)), st.sampled_from(list(State)), st.none() | name,
                        st.booleans(), name)
        pairs = st.none() | st.lists(circuit, max_size=4, unique=True).map(lambda its: dict(zip(CIRCUITS, its)))
        sent = st.one_of(st.none(), st.builds(Greeting, name, pairs),
                         st.builds(SiteState, st.booleans(), st.dictionaries(circuit, end, max_size=3),
                                   st.none() | name, st.just(True)),
                         st.builds(SiteState, st.booleans(), st.just({})),
                         st.builds(SiteState, st.none(), st.dictionaries(circuit, end, min_size=1, max_size=1)))

        def there_and_back(message: Message) -> None:
            self.assertEqual(message_of(encode_message(message)), message)
        self.holds(there_and_back, sent)


class TieEndTests(unittest.TestCase):
    def test_which_circuits_are_joined(self) -> None:
        """Those of the map here that the other site does not join are told."""
        for own, far, joined, left in (({1: 2, 3: 4}, {2: 1}, {1: 2}, (3,)), ({1: 2}, None, {1: 2}, ()),
                                       ({1: 2, 3: 4}, {2: 1, 4: 5}, {1: 2}, (3,)),
                                       (None, {29: 30}, {30: 29}, (*range(1, 30),)), (None, None, None, ())):
            told = list[Any]()
            tie = Tie(TieOptions('', own, 0.0, False), 'run', told.append)
            tie.site = mock.Mock()
            tie.on_connect(Greeting('other', far))
            self.assertEqual(tie.there, joined or {n: n for n in CIRCUITS})
            tie.on_disconnect('it is dark')
            self.assertEqual((told, tie.far), ([SiteCame(len(joined or CIRCUITS), left), SiteGone('it is dark')], None))

    def test_who_has_named_a_call(self) -> None:
        """That the other end has named the call is told back, by whatever message it came."""
        for out_of_service, is_all in (False, True), (None, False):
            tie = Tie(TieOptions('', {1: 2}, 0.0, False), 'run', lambda report: None)
            tie.site, tie.far = mock.Mock(), {}
            tie.circuits = {1: TieCircuit(Role.INCOMING, State.ACKED, 'a.1')}
            far = CircuitEnd(Role.OUTGOING, State.SEIZED, 'a.1')
            tie.on_message(SiteState(out_of_service, {2: far}, all=is_all))
            self.assertEqual([each.args[0].ends[1].passed for each in tie.site.send.call_args_list], ['a.1'])

    def test_same_role(self) -> None:
        """Two incoming ends cannot be joined: that is told, and a call on one of them has no other end."""
        told = list[Any]()
        tie = Tie(TieOptions('', {1: 2}, 0.0, False), 'run', told.append)
        tie.circuits = {1: TieCircuit(Role.INCOMING, State.ACKED, 'a.1')}
        tie.link, tie.out_of_service, tie.trunk.is_up = LinkState.GOOD, False, True
        tie.trunk.begin = lambda command: command.close()
        tie.on_message(SiteState(False, {2: CircuitEnd(Role.INCOMING, State.IDLE, '')}, all=True))
        self.assertEqual(told, [Warned('both ends have the same role', (1,)), CallOver(1, 'a.1', 'given up')])

    def test_dark(self) -> None:
        """What an event says of a trunk is acted on before its status says it; the end of an alarm is not believed."""
        rows: tuple[tuple[dict[str, Any], bool], ...] = (
            ({'event': 'alarm', 'on': True}, True), ({'event': 'remote alarm', 'on': True}, True),
            ({'event': 'stalled'}, True), ({'event': 'trunk lost'}, True),
            ({'event': 'alarm', 'on': False}, False), ({'event': 'flows'}, False))
        for event, is_dark in rows:
            tie = Tie(TieOptions('', None, 0.0, False), 'run', lambda report: None)
            tie.out_of_service, tie.site = False, mock.Mock()
            told = told_by(json.dumps(event))
            assert told
            tie.on_event(told)
            self.assertEqual(tie.site.send.call_args_list, [mock.call(SiteState(True, {}))] * is_dark, event)


class TieFailureTests(unittest.IsolatedAsyncioTestCase):
    async def test_its_status(self) -> None:
        for fault, status in (None, 0), (OSError(5, 'odd'), 1):
            tie = mock.Mock(run=mock.AsyncMock(side_effect=fault), restore_codecs=mock.AsyncMock())
            with mock.patch('sys.stderr', new_callable=io.StringIO) as said:
                self.assertEqual(await work(tie, mock.Mock(run=asyncio.Event().wait), None, None), status)
            self.assertEqual(said.getvalue(), 'e1gw-tie: odd\n' if fault else '')
            self.assertEqual((tie.restore_codecs.await_count, tie.put_report.mock_calls),
                             (1, [mock.call(Ended(status))]))


class TieOptionTests(unittest.TestCase):
    def test_refused(self) -> None:
        """With a line that names the fault, and the cure; before anything is begun."""
        for words, why in (('', 'required'), ('--control a', 'one of the arg'), ('--control a --listen x', 'x is'),
                           ('--control a --listen 127.0.0.1:1 --hold -1', '0 to 3600'),
                           ('--control a --listen 127.0.0.1:1 --connect 127.0.0.1:1', 'not allowed with'),
                           ('--control a --listen 127.0.0.1:1 --insecure --tls a b c', 'not allowed with'),
                           ('--control a --listen 127.0.0.1:1 --peer east', '--peer needs --tls'),
                           ('--control a --listen 127.0.0.1:1 --map /none', '/none: No such file'),
                           ('--control a --listen 0.0.0.0:1', 'not a loopback address, .* give --tls, or --insecure')):
            with self.subTest(words), self.assertRaises(SystemExit) as end, \
                    mock.patch('sys.argv', ['e1gw-tie', *words.split()]), mock.patch(
                        'sys.stderr', new_callable=io.StringIO) as said, mock.patch(
                            'e1gw_tie.main.hold_descriptors') as held:
                main()
            self.assertEqual((end.exception.code, held.call_count), (2, 1))
            self.assertRegex(said.getvalue().splitlines()[-1], f'^e1gw-tie: .*{why}')

    def test_defaults_of_the_units(self) -> None:
        """Calls are held for as long as a trunk's service that is killed is away, and a tie that hangs, and as both
        begin at a load."""
        def seconds(unit: str, key: str) -> float:
            text = support.text_of(os.path.join(support.TOP, 'dist', 'system', f'e1gw-{unit}@.service'))
            return float(re.findall(rf'^{key}=([\d.]+)$', text, re.M)[0])
        begins, hold = 1.5, parser().parse_args(['--control', 'a', '--listen', '127.0.0.1:1']).hold
        self.assertLessEqual(seconds('trunk', 'RestartSec') + begins, hold)
        self.assertLessEqual(seconds('tie', 'WatchdogSec') + seconds('tie', 'RestartSec') + begins, hold)

    def test_signs_of_life(self) -> None:
        """systemd, which begins a tie anew that hangs, learns that this one does not."""
        rests = mock.AsyncMock(side_effect=(None, EOFError))
        with mock.patch('e1gw_tie.main.Notifier') as systemd, mock.patch('asyncio.sleep', rests), \
                self.assertRaises(EOFError):
            asyncio.run(sign_of_life())
        self.assertEqual([each.args[0] for each in systemd().notify.call_args_list], ['READY=1', *['WATCHDOG=1'] * 2])

    def test_loopback(self) -> None:
        for host, here in (('127.0.0.1', True), ('127.5.5.5', True), ('[::1]', True), ('localhost', True),
                           ('0.0.0.0', False), ('192.0.2.1', False), ('[::]', False), ('localhost.example', False)):
            options = parser().parse_args(['--control', 'a', '--listen', f'{host}:1'])
            where = options.listen[0]
            self.assertEqual((is_loopback(where), is_exposed(where, options)), (here, not here), host)

    def test_insecure(self) -> None:
        """Beyond loopback without TLS it says what that means; and where nobody can ask for its status all else is
        done."""
        with socket.create_server(('127.0.0.1', 0)) as taken:
            status, error, events = said_by_tie('--listen', f'0.0.0.0:{free_port()}', '--insecure', '--http',
                                                f'127.0.0.1:{taken.getsockname()[1]}')
        self.assertEqual((status, error, events[0]['event']), (0, '', 'start'))
        self.assertIn('neither secret nor authenticated', events[0]['connection'])
        warnings = [each['about'] for each in events if each['event'] == 'warning']
        self.assertRegex(warnings[0], '^nobody can ask for its status: ')


class TieTrunkTests(ClockedCase):
    """A tie and its trunk, a played one, at its control socket."""

    async def asyncSetUp(self) -> None:
        await super().asyncSetUp()
        folder = tempfile.TemporaryDirectory()
        self.addCleanup(folder.cleanup)
        self.trunk = StandInDriver(os.path.join(folder.name, 'ctl'), dict.fromkeys(CIRCUITS, Role.INCOMING))
        self.addAsyncCleanup(self.trunk.stop)
        await self.trunk.start()
        self.events = list[dict[str, Any]]()
        self.tie = Tie(TieOptions(self.trunk.path, None, 3.0, False), 'run',
                       lambda report: self.events.append(report.plain()))
        self.site = self.tie.site = mock.Mock()
        ends = dict.fromkeys(CIRCUITS, CircuitEnd(Role.OUTGOING, State.IDLE, ''))
        self.tie.on_message(SiteState(False, ends, all=True))
        self.begin(self.tie.run())
        await self.until(lambda: self.tie.link is LinkState.GOOD)

    def events_of(self, event: str) -> list[dict[str, Any]]:
        return [each for each in self.events if each['event'] == event]

    async def test_event_behind_a_status(self) -> None:
        """One that is read together with an older status is taken behind it."""
        self.trunk.behind.append(lambda: self.trunk.move(3, State.ACKED))
        await self.until(lambda: self.tie.circuits[3].state is State.ACKED)
        await asyncio.sleep(3 * LOOK)
        sent = [each.args[0].ends.get(3) for each in self.site.send.call_args_list if not each.args[0].all]
        self.assertEqual([each.state for each in sent if each], [State.ACKED])
        self.assertEqual(self.tie.circuits[3].call, 'a.1')
        self.assertIn('on-loss block 3 alive 2', self.trunk.asked)
        self.assertEqual(self.events_of('link'), [{'event': 'link', 'state': 'good', 'site': True, 'dark': False,
                                              'far_dark': False}])

    async def test_trunk_that_knows_nothing_yet(self) -> None:
        """As in the first moments of another e1gw-trunk, which goes on with the calls: it is waited for."""
        self.trunk.move(3, State.ACKED)
        await self.until(lambda: self.tie.circuits[3].call == 'a.1')
        await self.trunk.stop()
        self.trunk.knows, count = False, len(self.trunk.asked)
        await self.trunk.start()
        await self.until(lambda: self.trunk.asked[count:].count('status json') > 2)
        self.assertEqual((len(self.events_of('trunk')), len(self.events_of('trunk gone')), self.tie.out_of_service),
                         (1, 1, True))
        self.trunk.knows = True
        await self.until(lambda: self.tie.trunk.is_up)
        self.assertEqual((self.tie.circuits[3].state, self.tie.circuits[3].call), (State.ACKED, 'a.1'))

    async def test_trunk_does_not_answer(self) -> None:
        """It is given up after PATIENCE, and found again."""
        self.trunk.silent = True
        await self.until(lambda: self.events_of('trunk gone'))
        self.assertRegex(self.events_of('trunk gone')[0]['why'], '/ctl: the trunk does not answer$')
        self.trunk.silent = False
        await self.until(lambda: len(self.events_of('trunk')) == 2)

    async def test_trunk_that_clears_no_calls(self) -> None:
        """It is told, and the tie goes on."""
        obeys = self.trunk.obey
        setattr(self.trunk, 'obey', lambda words: 'on-loss: no' if words[0] == 'on-loss' else obeys(words))
        await self.trunk.stop()
        await self.trunk.start()
        await self.until(lambda: len(self.events_of('trunk')) == 2)
        self.assertEqual([(each['about'], each.get('answer')) for each in self.events_of('warning')],
                         [('the trunk clears no calls if this program dies', 'on-loss: no')])


class TieStatusTests(unittest.IsolatedAsyncioTestCase):
    """What a tie says of itself: with a call on circuit 3, one given up on circuit 1, circuit 7 blocked by the
    operator, and a release on 9 that is not followed."""

    def setUp(self) -> None:
        self.tie = Tie(TieOptions('/ctl', {n: n + 1 for n in (1, 3, 7, 9, 11)}, 0.0, False), 'run', print)
        far = CircuitEnd(Role.OUTGOING, State.ANSWERED, 'a.1')
        self.tie.circuits = {
            n: TieCircuit(Role.INCOMING if n < 9 else Role.OUTGOING, state, 'a.1', n == 1, kept=n == 7, stuck=n == 9,
                          far=far if n == 3 else None)
            for n, state in ((1, State.CLEAREDBACK), (3, State.ACKED), (7, State.BLOCKED), (9, State.RELEASING),
                             (11, State.IDLE), (30, State.ACKED))}      # (of which the last is not joined)
        self.tie.far, self.tie.link, self.tie.trunk.is_up, self.tie.out_of_service = {}, LinkState.GOOD, True, False
        self.tie.done['clear-back', 'done'], self.tie.given_up = 4, 5

    def test_texts(self) -> None:
        now = texts_of(self.tie)
        found = json.loads(now.json)
        self.assertEqual([found[key] for key in ('link', 'trunk', 'site', 'dark', 'far_dark', 'calls', 'given_up')],
                         ['good', True, True, False, True, 2, 5])
        self.assertEqual([{key: value for key, value in row.items() if value} for row in found['circuits']], [
            {'circuit': 1, 'there': 2, 'role': 'incoming', 'state': 'clearedback', 'over': True},
            {'circuit': 3, 'there': 4, 'role': 'incoming', 'state': 'acked', 'far_state': 'answered'},
            {'circuit': 7, 'there': 8, 'role': 'incoming', 'state': 'blocked', 'kept': True},
            {'circuit': 9, 'there': 10, 'role': 'outgoing', 'state': 'releasing', 'stuck': True},
            {'circuit': 11, 'there': 12, 'role': 'outgoing', 'state': 'idle'}])
        self.assertEqual(now.table.splitlines()[1:3], [
            'this trunk: in service; the other site: connected, its trunk out of service',
            'circuits joined 5, calls 2, calls given up 5'])
        self.assertRegex(now.table, r'^tie of /ctl, up \d+ s: link good\n')
        self.assertEqual([line.split() for line in now.table.splitlines()[4:]], [
            ['1', '2', 'incoming', 'clearedback', 'not', 'known', 'given', 'up'],
            ['3', '4', 'incoming', 'acked', 'answered'],
            ['7', '8', 'incoming', 'blocked', 'not', 'known', 'blocked', 'by', 'the', 'operator'],
            ['9', '10', 'outgoing', 'releasing', 'not', 'known', 'release', 'not', 'followed'],
            ['11', '12', 'outgoing', 'idle', 'not', 'known']])
        lines = {line for line in now.metrics.splitlines() if line[0] != '#'}
        self.assertEqual(lines, {*(f'e1gw_tie_{each}' for each in (
            'link{state="good"} 1', 'link{state="lost"} 0', 'link{state="given up"} 0', 'connected{to="trunk"} 1',
            'connected{to="site"} 1', 'out_of_service{end="this"} 0', 'out_of_service{end="other"} 1',
            'circuits{state="clearedback"} 1', 'circuits{state="acked"} 1', 'circuits{state="blocked"} 1',
            'circuits{state="releasing"} 1', 'circuits{state="idle"} 1', 'calls 2', 'calls_given_up_total 5',
            'commands_total{command="clear-back",answer="done"} 4'))})

    def test_without_the_other_site(self) -> None:
        """What is not known of it is not told; nor of a trunk that is not connected."""
        self.tie.far, self.tie.trunk.is_up = None, False
        now = texts_of(self.tie)
        self.assertNotIn('end="other"', now.metrics)
        self.assertIn('this trunk: not connected; the other site: not connected\n', now.table)
        self.assertEqual({row['far_state'] for row in json.loads(now.json)['circuits']}, {None})

    async def test_asked(self) -> None:
        """At the socket, with an empty line behind each answer, and over HTTP."""
        with tempfile.TemporaryDirectory() as folder:
            path, port = os.path.join(folder, 'status'), free_port()
            await serve_status(self.tie, path, ('127.0.0.1', port))
            reader, writer = await asyncio.open_unix_connection(path)
            for words, front in ((b'status', b'tie of '), (b'status json', b'{"time": '),
                                 (b'metrics', b'# HELP e1gw_tie_'),
                                 (b'clear 1', b'clear 1: refused: there are status, status json and metrics\n\n')):
                writer.write(words + b'\n')
                self.assertTrue((await reader.readuntil(b'\n\n')).startswith(front), words)
            writer.close()
        for page, front in ((b'/', b'tie of '), (b'/metrics', b'# HELP e1gw_tie_link'), (b'/status', b'{"time": ')):
            reader, writer = await asyncio.open_connection('127.0.0.1', port)
            writer.write(b'GET ' + page + b' HTTP/1.0\r\n\r\n')
            head, _, body = (await reader.read()).partition(b'\r\n\r\n')
            self.assertEqual((head.split()[1], body.startswith(front)), (b'200', True), page)
            writer.close()
