"""The feed of one machine, and the standby that it feeds, in one process."""
from __future__ import annotations

import asyncio
import errno
import json
import math
import os
import shutil
import socket
import ssl
import subprocess
import threading
import time
import unittest
from contextlib import closing, nullcontext, suppress
from itertools import accumulate
from types import SimpleNamespace
from typing import Callable, Sequence
from unittest import mock

from . import support
from .logs import WrittenLog
from e1gw.events import Event, Fed, NotFed
from e1gw.holder.log import process_that_locks
from e1gw.holder_state import TrunkPlaces
from e1gw.watcher import standby
from e1gw.watcher.blocks import BlockedCircuits, KeptBlocks
from e1gw.watcher.feed import BACK, CARRIES, LENGTH, MARK, MOST_PIECE, PIECE, STATE, TAKES, FeedServer
from e1gw.log_folder import STATE_ROOM, LogFiles, LogPair
from e1gw.watcher.missed import pass_octets
from e1gw.watcher.reader import LogReader
from e1gw.watcher.standby import NO_CERTIFICATE, NO_TRUNK, FedLog, TrunkStandby
from e1gw.satop_numbers import PacketNumber, number_of_now
from e1gw_common.session import MULTIFRAME, OCTETS_A_SECOND, trunk_record
from e1gw_common.tls import context_of
from e1gw_testing.waits import turns

RECORD = MULTIFRAME / OCTETS_A_SECOND       # seconds of a record
HOST = '127.0.0.1'


class FeedTests(support.LoopCase):
    """A program that logs as the test has it, with two circuits."""

    async def asyncSetUp(self) -> None:
        await super().asyncSetUp()
        self.enterContext(mock.patch.multiple(standby, AGAIN=0.001, MOST_AGAIN=0.004))
        os.mkdir(self.path('standby'))
        self.log = WrittenLog(self.path('log'))
        self.addCleanup(self.log.close)
        for _ in range(3):
            self.log.multiframe()
        self.log.turns()
        self.log.multiframe()
        reader = LogReader(self.path('log'), 0.1, None, lambda: None, bytes)
        self.blocks = KeptBlocks(self.path('blocked'))
        reader.told = lambda: self.log.octets
        self.addCleanup(reader.log.close)
        self.config = self.write('here.toml', support.config_text({1: {}, 2: {'local_port': 5000}}))
        state = self.state = SimpleNamespace(program=77)
        self.feed = FeedServer(HOST, mock.Mock(state=state, reader=reader, **{
            'places.return_value': TrunkPlaces(self.folder), 'blocks.return_value': self.blocks,
            'numbers.return_value': (5, 1000), 'config_path': lambda: self.config,
            'carried_by': lambda: state.program}))
        server = await asyncio.start_server(self.feed.on_connect, HOST, 0)
        self.addCleanup(server.close)
        self.place = server.sockets[0].getsockname()
        self.told, self.handed, self.blocked = list[Event](), list[bool](), list[list[int]]()

    def stands_by(self, config: str = '', law: str = 'A', tls: Sequence[str] = ()) -> TrunkStandby:
        """Somebody who is fed from now on."""
        path = self.write('there.toml', config or support.config_text({1: {}, 2: {}}, law))
        trunk = mock.Mock(**{'config_path.return_value': path,
                             'places.return_value': TrunkPlaces(self.path('standby'))})
        its = TrunkStandby(self.place, HOST, tls, trunk, self.told.append)
        runs = asyncio.create_task(its.run())
        self.addCleanup(runs.cancel)

        def on_handover(takes: bool) -> None:
            """It is fed no more, as of a machine that carries the trunk."""
            self.handed.append(takes)
            runs.cancel()
        its.on_handover, its.blocks = on_handover, self.blocked.append
        return its

    async def fed(self, its: TrunkStandby) -> None:
        """Until it has all that was logged, and this machine knows it."""
        await self.until(lambda: its.fed and its.fed.octets == self.log.octets)
        self.assertTrue(await self.feed.is_up_to_date())

    async def test_what_is_fed(self) -> None:
        """The newest state and all behind it, other states too; what the operator blocks; and where all of it is."""
        its = self.stands_by()
        await self.fed(its)
        assert its.fed
        self.assertEqual((its.fed.pid, its.fed.circuits, its.fed.place, self.told, self.blocked),
                         (77, [], self.log.place, [Fed(f'{HOST}:{self.place[1]}', 77)], [[]]))
        self.assertEqual((its.fed.next_packet_number(), its.fed.folder),
                         (5 + its.fed.octets // 1000, self.path('standby/fed')))
        last = its.last()
        self.assertEqual(last and (last.state, len(last.records)), (b'state', MULTIFRAME + 4))
        self.blocks.now = BlockedCircuits().add((2, 30))
        self.log.multiframe()
        self.log.turns()
        self.log.multiframe()
        await self.fed(its)
        last = its.last()
        self.assertEqual(last and (last.place, len(last.records)), (self.log.place - MULTIFRAME - 4, MULTIFRAME + 4))
        self.assertEqual(self.blocked, [[], [2, 30]])
        for age in its.age(), self.feed.age():
            self.assertTrue(age is not None and 0 <= age < support.SECONDS)

    async def test_the_program_ends(self) -> None:
        """What is known stays; the feed of the next one takes its place."""
        its = self.stands_by()
        await self.fed(its)
        before = its.last()
        self.state.program = 0
        await self.until(lambda: its.why == NO_TRUNK)
        self.assertEqual([str(each.why) for each in self.told if isinstance(each, NotFed)],
                         ['the feed has ended', NO_TRUNK])
        self.assertEqual((its.last(), self.feed.age(), self.handed), (before, None, []))
        self.state.program = 78
        await self.until(lambda: its.fed and its.fed.pid == 78)
        await self.fed(its)
        self.assertEqual((its.why, os.listdir(self.path('standby'))), ('', ['fed']))

    async def test_it_is_handed_over(self) -> None:
        """Once it has all it is to carry the trunk; this machine learns when it does."""
        its, carries = self.stands_by(), False
        its.carries = lambda: carries
        await self.fed(its)
        self.log.multiframe()
        self.feed.hands_over = True
        self.state.program = 0
        await self.until(lambda: self.handed)
        assert its.fed
        self.assertEqual((self.handed, its.fed.octets, self.feed.is_carried), ([True], self.log.octets, False))
        carries = True
        await self.until(lambda: self.feed.is_carried)
        await self.feed.finish(support.SECONDS)
        self.assertEqual(self.handed, [True])

    async def test_the_watcher_ends(self) -> None:
        """A feed that ends with it is no fault."""
        faults = mock.Mock()
        asyncio.get_running_loop().set_exception_handler(faults)
        await self.fed(self.stands_by())
        feeds = {each for each in asyncio.all_tasks() if 'FeedServer._serve' in repr(each)}
        self.assertTrue([each.cancel() for each in feeds])
        await asyncio.wait(feeds)
        await asyncio.sleep(0)
        faults.assert_not_called()

    async def test_who_is_not_fed(self) -> None:
        """A stranger, and one with another law. One with other circuits is told which."""
        its = self.stands_by(law='mu')
        await self.until(lambda: its.why)
        self.assertEqual(its.why, 'its law is A, and here it is mu')
        with self.assertLogs('e1gw.watcher.standby') as said:
            its = self.stands_by(support.config_text({1: {'ptime': 30}, 3: {}}))
            await self.until(lambda: its.fed)
        self.assertIn('the calls of circuits 1, 2, 3 will not go on here', said.records[0].getMessage())
        setattr(self.feed, '_peer', '127.0.0.9')
        with self.assertLogs('e1gw.watcher.feed') as told:
            its = self.stands_by()
            await self.until(lambda: its.why)
        self.assertEqual((its.why, its.fed), (NO_TRUNK, None))
        said_of_it = [each.getMessage() for each in told.records]
        self.assertIn(f'feed: {HOST} is not --fed-from, and is fed nothing', said_of_it)

    async def test_who_does_not_read(self) -> None:
        """He is dropped once he is too far behind. Who comes again is given another state."""
        reader, writer = await asyncio.open_connection(*self.place)
        await reader.readline()
        with self.assertLogs('e1gw.watcher.feed', 'WARNING') as told:
            for _ in turns('it is dropped'):
                if told.records:
                    break
                for _ in range(500):
                    self.log.multiframe()
                await asyncio.sleep(0)
        self.assertEqual(told.records[0].getMessage(), f'feed of {HOST}: it is too far behind')
        writer.close()
        await self.fed(self.stands_by())

    async def test_bad_feeds(self) -> None:
        """Each ends by itself, and it is told why."""
        for _ in range(40):
            self.log.multiframe()
        reader, writer = await asyncio.open_connection(*self.place)
        head = await reader.readline()
        begun = len(head) + json.loads(head)['state']
        good = head + await reader.readexactly(begun - len(head) + 20_000)
        writer.close()
        state, none = good[:begun], 'what comes there is no feed of e1gw-watch'
        piece = 'a piece of the feed is too long, or has no time'
        rows = [(b'', NO_TRUNK), (state + PIECE.pack(math.nan, 0), piece), (b'SSH-2.0-OpenSSH_9.2p1\r\n', none),
                (state + PIECE.pack(1.0, MOST_PIECE + 1), piece), (b'{"e1gw_feed": 8, "law": "A"}\n', none),
                (state + PIECE.pack(0.0, STATE) + LENGTH.pack(STATE_ROOM + 1), 'a state of the feed is too long'),
                (good.replace(b'"law": "A"', b'"law": "mu"'), 'its law is mu, and here it is A'),
                (good.replace(b'"e1gw_feed": 8', b'"e1gw_feed": 7'), 'a feed of version 7, and this is 8'),
                (good.replace(b'"program": ', b'"program": 0.5e'), none), (b'[' * 60_000 + b'\n', none),
                (b'x' * 200_000, ''), (good[:begun - 1], 'the feed has ended'),
                *((good[:length], '') for length in (*range(1, 12), *range(begun, len(good), len(good) // 9)))]
        left, found = iter(rows), list[str]()
        its: TrunkStandby

        def serve_standby(_: asyncio.StreamReader, writer: asyncio.StreamWriter) -> None:
            found.append(its.why)
            writer.write(next(left, (b'', ''))[0])
            writer.close()
        server = await asyncio.start_server(serve_standby, HOST, 0)
        self.addCleanup(server.close)
        self.place = server.sockets[0].getsockname()
        its = self.stands_by()
        await self.until(lambda: len(found) > len(rows))
        for (octets, words), why in zip(rows, found[1:]):
            self.assertEqual(why, words or why, octets[:99])
            self.assertTrue(why)

    def certificate(self, name: str) -> list[str]:
        """A certificate that is its own authority, its key, and that authority."""
        key, own = self.path(f'{name}.key'), self.path(f'{name}.pem')
        words = f'req -x509 -newkey ec -pkeyopt ec_paramgen_curve:P-256 -nodes -subj /CN=e1gw -keyout {key} -out {own}'
        subprocess.run(['openssl', *words.split(), '-addext', f'subjectAltName=IP:{HOST}'], check=True,
                       capture_output=True)
        return [own, key, own]

    async def test_strangers(self) -> None:
        """Over TLS, who has not the address and the certificate is given nothing, and is not believed."""
        ours, theirs = self.certificate('ours'), self.certificate('theirs')
        setattr(self.feed, '_context', context_of(ours, True))
        await self.fed(self.stands_by(tls=ours))
        with self.assertLogs('e1gw.watcher.feed') as told:
            for files, words in (theirs, 'certificate verify failed'), ([*theirs[:2], ours[2]], NO_CERTIFICATE):
                its = self.stands_by(tls=files)
                await self.until(lambda: its.why)
                self.assertIn(words, its.why)
            self.assertIn('certificate verify failed', str([each.getMessage() for each in told.records]))
            with suppress(OSError):
                reader, _ = await asyncio.open_connection(*self.place, ssl=ssl._create_unverified_context())
                self.assertEqual(await reader.read(1), b'')         # (it shows none)
            reader, _ = await asyncio.open_connection(*self.place, local_addr=('127.0.0.9', 0))
            self.assertEqual(await asyncio.wait_for(reader.read(), support.SECONDS), b'')
        self.assertIn('feed: 127.0.0.9 is not --fed-from, and is fed nothing', [
            each.getMessage() for each in told.records])


class PacketNumberTests(support.FolderCase):
    """Which packet is next, by the files of the folder of a trunk."""

    def number(self, first: object, said: str, age: float) -> PacketNumber | None:
        path = self.write('satop', said)
        self.write('satop.ends', json.dumps({'first': first, 'words': ['x', '--size', '256']}))
        os.utime(path, (1000.0, 1000.0))
        with mock.patch('time.time', lambda: 1000.0 + age):
            return number_of_now(path)

    def test_what_was_said(self) -> None:
        """That, and what was sent since, by its time. Without a process there are no packets."""
        self.assertIsNone(number_of_now(self.path('satop')))
        self.assertIsNone(self.number('x', '', 0.0))
        for first, said, age, number in ((7, '', 0.0, 7), (7, 'satop received=9 sent=3\nsatop sent=5\n', 0.0, 12),
                                         (65_530, 'satop sent=10\n', 2.0, 2004), (7, '', -5.0, 7)):
            self.assertEqual(self.number(first, said, age), PacketNumber(number, 256))

    def test_the_first_one(self) -> None:
        """That with the trunk's octet 0, and at the other machine the next one behind other octets."""
        for number, octets in (100, 25_600), (3, 256_000), (0, 1):
            fed = FedLog(self.folder, 0, octets, (PacketNumber(number, 256).zero(octets), 256))
            self.assertEqual(fed.next_packet_number(), number)
            fed.octets += 2560
            self.assertEqual(fed.next_packet_number(), number + 10)
            fed.close()
        self.assertIsNone(FedLog(self.folder, 0, 0).next_packet_number())


class ReadAgainTests(unittest.TestCase):
    def test_more_than_a_pipe_has_room_for(self) -> None:
        """All is given, then its end, and all that is told is read."""
        near, far = socket.socketpair()
        gives, given = os.pipe()
        self.addCleanup(os.close, given)
        taken = list[bytes]()

        def tells() -> None:
            with far, open(gives, 'rb') as octets:
                taken.append(octets.read())
                far.sendall(b'told')
        (thread := threading.Thread(target=tells)).start()
        with near:
            self.assertEqual(pass_octets(near, given, bytes(range(256)) * 1000), b'told')
        thread.join()
        self.assertEqual(taken, [bytes(range(256)) * 1000])


class FedLogTests(support.FolderCase):
    """When octets came at the other machine, by its clock and what comes of them here."""

    def test_closed(self) -> None:
        """Nothing is open then, and its folder is gone; one that another has is left."""
        places = TrunkPlaces(self.folder)
        first, second = FedLog(self.folder, 0, 0), FedLog(self.folder, 0, 0)
        for each in first, second:
            each.begin(b'')
            each.move_to(places.fed)
        self.assertEqual((os.listdir(self.folder), len(self.held())), (['fed'], 10))
        first.close()
        self.assertEqual((os.listdir(self.folder), len(self.held())), (['fed'], 5))
        second.close()
        self.assertEqual((os.listdir(self.folder), self.held()), ([], []))

    def test_one_is_there_at_each_step(self) -> None:
        """A holder that takes the trunk while another log comes in place of one finds a log, and so it does if the
        watcher dies then; where folders cannot be exchanged, at the end."""
        fed = TrunkPlaces(self.folder).fed
        for fault in None, errno.EINVAL:
            logs = [FedLog(self.folder, 0, 0) for _ in range(2)]
            steps = list[tuple[str, bytes]]()

            def stop_behind(name: str, call: Callable[..., object]) -> Callable[..., None]:
                def step(*words: str, **more: bool) -> None:
                    if name == 'exchange' and fault:
                        raise OSError(fault, os.strerror(fault))
                    call(*words, **more)
                    with closing(LogFiles(fed)) as files:
                        steps.append((name, (files.last() or LogPair(0, 0, b'', b'')).state))
                return step
            for state, each in zip((b'first', b'second'), logs):
                each.begin(state)
            logs[0].move_to(fed)
            removes = mock.Mock(rmtree=stop_behind('remove', shutil.rmtree))
            renames = os.rename if fault else stop_behind('rename', os.rename)
            exchanges = stop_behind('exchange', standby.exchange_folders)
            with mock.patch.multiple(standby, shutil=removes, exchange_folders=exchanges), \
                    mock.patch.object(os, 'rename', renames):
                logs[1].move_to(fed)
            self.assertEqual(steps, [('exchange', b'second')] * (not fault) + [('remove', b'second')])
            self.assertEqual(os.listdir(self.folder), ['fed'])
            for each in logs:
                each.close()

    def test_who_may_write(self) -> None:
        """This process, until it says that it writes no more; and not once somebody has taken it."""
        fed, path = FedLog(self.folder, 0, 0), TrunkPlaces(self.folder).fed
        self.addCleanup(fed.close)
        fed.move_to(path)
        lockers = [process_that_locks(path)]
        for does in fed.unlock, fed.lock, fed.unlock:
            does()
            lockers.append(process_that_locks(path))
        self.assertEqual(lockers, [os.getpid(), 0, os.getpid(), 0])
        os.rename(path, self.path('log'))
        with self.assertRaises(FileNotFoundError):
            fed.lock()

    def test_ones(self) -> None:
        """They stand for the time since octets came, each for its time once."""
        with mock.patch.object(standby, 'time', mock.Mock(**{'monotonic.return_value': 1001.0})):
            fed = FedLog(self.folder, 0, 0)
            fed.came = 1000.0
            self.assertEqual((fed.missing_octets(), fed.missing_octets()), (256_000, 0))

    def test_when_they_came_last(self) -> None:
        """The last ones wait for the word that all was sent, which may wait here. Ones for less than the time without
        octets put the trunk behind by 5 ms a move. Behind a gap, whose octets are lost, it is not known so well."""
        chance, record = support.chance_of(self), trunk_record(bytes(MULTIFRAME))
        time = mock.Mock()
        with mock.patch.object(standby, 'time', time):
            time.monotonic.return_value = 1000.0
            fed, given, comes = FedLog(self.folder, 0, 0), 0, 0
            self.addCleanup(fed.close)
            fed.begin(b'')
            for word in accumulate([0.012 + 0.008 * chance.random() for _ in range(200)], initial=1000.0):
                comes = int((word - 1000) / RECORD)
                fed.take(record * (comes - given))
                time.monotonic.return_value = word + 0.001 + 0.02 * chance.random()
                fed.mark_complete(word - 77)
                given, last = comes, word
            time.monotonic.return_value = last + 0.03       # (the program has ended meanwhile)
            fed.take(record)
            fed.mark_complete(last + 0.02 - 77)
            self.assertAlmostEqual(fed.came, 1000 + (comes + 1) * RECORD, delta=0.004)
            for fresh in last + 5, last + 5.01:
                time.monotonic.return_value = fresh + 0.01
                fed.mark_complete(fresh - 77)
                fed.take(record)
            self.assertAlmostEqual(fed.came, last + 5, delta=0.011)


class StandbyTests(support.LoopCase):
    """A standby that nobody feeds, and one that is to carry the trunk, and whose program does."""

    def standby(self) -> TrunkStandby:
        trunk = mock.Mock(**{'places.return_value': TrunkPlaces(self.folder), 'version': lambda: nullcontext(None)})
        return TrunkStandby((HOST, 1), '', (), trunk, mock.Mock())

    async def test_a_log_that_is_full(self) -> None:
        """A state behind all records takes their place, if the program takes these."""
        self.assertIsNone(self.standby().last())
        fed, status = FedLog(self.folder, 0, 0), 0
        self.addCleanup(fed.close)
        fed.begin(b'before')

        async def run(words: list[str], log: LogPair) -> tuple[int, str, bytes]:
            self.assertEqual((words[:2], log.state), (['replay', '--save'], b'before' if not status else b'behind'))
            os.replace(self.write('new', b'behind'), words[2])
            return status, 'odd\n', b''
        await fed._checkpoint(mock.Mock(run=run))
        self.assertEqual((fed.last() or LogPair(0, 0, b'', b'')).state, b'behind')
        status = 1
        with self.assertRaisesRegex(OSError, 'the records of the other machine are not taken: odd$'):
            await fed._checkpoint(mock.Mock(run=run))

    async def test_what_is_too_old(self) -> None:
        """It is forgotten; what is not gets ones for its age, and stays in its place."""
        its = self.standby()
        self.assertEqual(await its.fill(), 'nothing is known')
        for age, words, left in (3000.0, 'what is known is 3000 s old', []), (0.5, 'behind octet ', ['fed']):
            fed = FedLog(self.folder, 0, 0)
            fed.begin(b'state')
            its.publish(fed)
            fed.came = fed.fresh = time.monotonic() - age
            with mock.patch.object(standby, 'MOST_AGE', 2000.0):
                told = await its.fill()
            self.assertEqual((told[:len(words)], os.listdir(self.folder), its.fed),
                             (words, left, fed if left else None))
        self.assertEqual(told, f'behind octet {fed.octets}, {fed.octets} of them ones')
        self.assertGreaterEqual(fed.octets, 128_000)
        its.publish(None)
        self.assertEqual((os.listdir(self.folder), self.held()), ([], []))

    async def last_words(self, *words: int) -> tuple[float, list[bool]]:
        """What it says last, and whether it gives the trunk back, if the other machine has said this and leaves."""
        handed, reader, writer = list[bool](), asyncio.StreamReader(), mock.Mock()
        writer.is_closing.return_value = False
        its = self.standby()
        its.on_handover, its.carries = handed.append, lambda: True
        reader.feed_data(b''.join(PIECE.pack(0.0, word) for word in words))
        reader.feed_eof()
        await its._announce_takeover(reader, writer)
        return float(MARK.unpack(writer.write.call_args.args[0])[0]), handed

    async def test_what_the_other_machine_says(self) -> None:
        """One that stood still would carry it beside the machine that had taken it back. One that dies takes nothing
        back."""
        self.assertEqual([await self.last_words(BACK), await self.last_words()], [(TAKES, [False]), (CARRIES, [])])

    async def words_to_standby(self, carried: bool, leaves: bool) -> list[bytes]:
        """What a machine says to the standby to which it hands the trunk over, if that carries it, or leaves, or is
        silent."""
        its, left = FeedServer('', mock.Mock()), asyncio.Future[None]()
        its._writer, its.is_carried = mock.Mock(), carried
        if leaves:
            left.set_result(None)
        with mock.patch('asyncio.wait', mock.AsyncMock()) as waits:
            await its._wait_for_takeover(left)
        self.assertLess(sum(call.kwargs['timeout'] for call in waits.call_args_list), 1.0)
        return [call.args[0] for call in its._writer.write.call_args_list]

    async def test_what_is_taken_back(self) -> None:
        """It says so within a second, if the standby does not say that it carries the trunk."""
        for carried, leaves in (False, False), (False, True), (True, False):
            with self.subTest(carried=carried, leaves=leaves):
                self.assertEqual(await self.words_to_standby(carried, leaves),
                                 [] if carried else [PIECE.pack(0.0, BACK)])
