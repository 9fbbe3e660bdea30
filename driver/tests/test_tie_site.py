"""The connection of two sites: who is let in, who is not, when it is given up, and that it comes again."""
from __future__ import annotations

import asyncio
import os
import shutil
import socket
import ssl
import subprocess
import tempfile
import unittest
from contextlib import suppress
from typing import Any

from .support import eventually
from .test_tie_circuit import ACKED, ANSWERED
from .ties import ANSWER, G726, IDLE, PCMA, SEIZED, ClockedCase, StandInDriver, said_by_tie
from e1gw_common.report import Report
from e1gw_common.lines import Role, State
from e1gw_common.session import CIRCUITS
from e1gw_testing.ports import free_port
from e1gw_tie.main import ANYBODY
from e1gw_tie.messages import Greeting, Message, SiteState, encode_message, message_of
from e1gw_tie.site import GONE, STRANGERS, Reasons, Site, has_name, one_too_many
from e1gw_tie.tie import Tie, TieOptions
from e1gw_common.tls import context_of


class SiteRuleTests(unittest.TestCase):
    def test_reasons(self) -> None:
        """Why nobody is let in is told once a minute for each reason, and for ten of them at most."""
        reasons, names = Reasons(), [f'{n}' for n in range(12)] * 2
        self.assertEqual([reasons.is_told(name, 7.0) for name in names], [True] * 10 + [False] * 14)
        self.assertEqual([reasons.is_told('3', at) for at in (66.9, 67.0, 68.0)], [False, True, False])

    def test_one_too_many(self) -> None:
        """The oldest of the address that has most; of those that have as many, the oldest of all. That of the site
        stays."""
        rest = [f'{n}' for n in range(STRANGERS - 8)]
        self.assertIsNone(one_too_many(dict(enumerate([*rest, *'aaaaaaa'])), ''))
        for addresses, known, last in (
                ('abcdefgh', '', 0), ('abbcdefg', '', 1), ('abccabab', '', 0), ('abcdeffe', '', 4), ('aaabbbbc', '', 3),
                ('abcdefgh', 'a', 1), ('aaabbbbc', 'b', 0), ('aaabbbbc', 'a', 3)):
            self.assertEqual(one_too_many(dict(enumerate([*addresses, *rest])), known), last, addresses)
        self.assertEqual(one_too_many(dict(enumerate('a' * STRANGERS)), 'a'), 0)

    def test_names(self) -> None:
        """A certificate is that of a host, by its name or its address."""
        names = ('DNS', 'West.example'), ('IP Address', '0:0:0:0:0:0:0:1')
        self.assertTrue(has_name(names, 'west.example') and has_name(names, '::1'))
        self.assertFalse(has_name(names, 'east.example') or has_name(names, '127.0.0.1') or has_name((), 'west'))


class SiteEnd:
    """One end of the connection, and what its tie would be told: of the other site, and of others."""

    def __init__(self, run: str, port: int, listens: bool, context: ssl.SSLContext | None, peer: str | None) -> None:
        self.own_greeting, self.told, self.others = Greeting(run, None), list[str](), list[str]()
        tie: Any = self
        self.site = Site(('127.0.0.1', port), listens, context, peer, tie)

    def put_report(self, report: Report) -> None:
        self.others.append(str(getattr(report, 'why')))

    def on_connect(self, greeting: Greeting) -> None:
        self.told.append(f'{greeting.run} came')

    def on_disconnect(self, why: str) -> None:
        self.told.append('gone' if why != 'no keepalive' else why)

    def on_message(self, message: Message) -> None:
        if isinstance(message, SiteState):
            self.told.append(f'dark: {message.out_of_service}')


class SiteCase(ClockedCase):
    async def asyncSetUp(self) -> None:
        await super().asyncSetUp()
        self.port = free_port()

    def end(self, name: str, **more: Any) -> tuple[SiteEnd, asyncio.Task[None]]:
        """West, to whom east connects."""
        made = SiteEnd(name, self.port, name == 'west', more.get('context'), more.get('peer'))
        self.addCleanup(made.site.close)
        return made, self.begin(made.site.run())

    async def listens(self) -> SiteEnd:
        """West, once somebody can connect."""
        west, _ = self.end('west')
        await eventually(self.is_open, 0.01)
        return west

    def is_open(self) -> bool:
        with suppress(OSError), socket.create_connection(('127.0.0.1', self.port), 1):
            return True
        return False

    async def connected(self, *octets: bytes, **more: Any) -> tuple[asyncio.StreamReader, asyncio.StreamWriter]:
        """Somebody who connects, and sends this."""
        reader, writer = await asyncio.open_connection('127.0.0.1', self.port, **more)
        self.addCleanup(writer.close)
        writer.write(b''.join(octets))
        return reader, writer


class SiteTests(SiteCase):
    async def test_messages(self) -> None:
        """What one says the other one hears, as long as both are there; a connection that is closed comes again."""
        west, (east, _) = await self.listens(), self.end('east')
        await self.until(lambda: west.told and east.told)
        for at_one, at_other in (west, east), (east, west):
            at_one.site.send(SiteState(True, {}))
            await self.until(lambda: at_other.told[-1] == 'dark: True')
        await asyncio.sleep(3 * GONE)
        self.assertEqual((west.told, east.told), (['east came', 'dark: True'], ['west came', 'dark: True']))
        east.site.close()
        await self.until(lambda: west.told[3:])
        self.assertEqual(west.told[2:], ['gone', 'east came'])

    async def test_strangers(self) -> None:
        """What others send to the port ends nothing and takes nothing."""
        west, (east, _) = await self.listens(), self.end('east')
        await self.until(lambda: west.told and east.told)
        for octets in (b'', b'\0' * 70_000, b'GET / HTTP/1.0\r\n\r\n', encode_message(SiteState(True, {})),
                       encode_message(Greeting('another', None))):
            reader, writer = await self.connected(octets)
            with suppress(ConnectionError, TimeoutError):
                await asyncio.wait_for(reader.read(), 1)
            writer.close()
        west.site.send(SiteState(False, {}))
        await self.until(lambda: east.told[1:])
        self.assertEqual((west.told, east.told), (['east came'], ['west came', 'dark: False']))

    async def test_silent_site(self) -> None:
        """A site that sends no keepalive is given up. Until then another connection of the same run takes its place,
        and no other run does."""
        west = await self.listens()

        async def greet(run: str) -> asyncio.StreamReader:
            reader, _ = await self.connected(encode_message(Greeting(run, None)))
            self.assertIsInstance(message_of(await reader.readline()), Greeting)
            return reader
        first = await greet('a')
        await self.until(lambda: west.told)
        self.assertEqual(await (await greet('b')).read(), b'')
        await greet('a')
        await first.read()
        await self.until(lambda: west.told[3:])
        self.assertEqual((west.told, west.others[-1]), (['a came', 'gone', 'a came', 'no keepalive'],
                                                        'another one is connected'))

    async def test_silent_strangers(self) -> None:
        """Of those who do not greet 64 stay, for five seconds each, and none keeps the other site out."""
        west = await self.listens()
        clock = asyncio.get_running_loop().time
        began = clock()
        lines = list[tuple[asyncio.StreamReader, asyncio.StreamWriter]]()
        for _ in range(16):             # (five come at once: more might find no place in the queue of those who come)
            lines += await asyncio.gather(*(self.connected() for _ in range(5)))
        reads = [asyncio.create_task(reader.read()) for reader, _ in lines]
        await self.until(lambda: sum(each.done() for each in reads) >= 16)
        self.assertLess(clock() - began, 4.5)
        self.assertEqual(sum(each.done() for each in reads), 16)
        self.end('east')
        await self.until(lambda: west.told)
        await self.until(lambda: all(each.done() for each in reads))
        self.assertLess(clock() - began, 7.5)

    async def test_a_slow_handshake(self) -> None:
        """The site is back while strangers from a hundred addresses come, before it has greeted."""
        west, (_, its) = await self.listens(), self.end('east')
        await self.until(lambda: west.told)
        its.cancel()
        await self.until(lambda: west.told[-1] == 'gone')
        _, back = await self.connected()
        for n in range(1, 101):
            await self.connected(local_addr=(f'127.0.1.{n}', 0))
        back.write(encode_message(Greeting('east', None)))
        await self.until(lambda: west.told[-1] == 'east came')

    async def test_strangers_who_come_again(self) -> None:
        """Those of another address, who are there at once when they are closed, keep the other site out neither at its
        first connection nor later. They send what begins a record of TLS, and no more of it."""
        west, came = await self.listens(), asyncio.Semaphore(0)

        async def stranger() -> None:
            while True:
                with suppress(OSError):
                    reader, writer = await self.connected(b'\x16\x03\x01\x02\x00\x01', local_addr=('127.0.0.9', 0))
                    came.release()
                    await reader.read(100_000)
                    writer.close()
        for _ in range(20):
            self.begin(stranger())
        for _ in range(20):
            await came.acquire()
        for number in (0, 1):
            _, its = self.end('east')
            await self.until(lambda: west.told == ['east came', 'gone'] * number + ['east came'])
            its.cancel()
            await self.until(lambda: west.told[-1] == 'gone')
        self.assertLessEqual(len(west.others), 10)


@unittest.skipUnless(shutil.which('openssl'), 'openssl makes the certificates')
class CertifiedSiteTests(SiteCase):
    """The same connection by TLS, and who is let in."""

    certificates: str           # the folder that has them
    test_messages = SiteTests.test_messages
    test_strangers_who_come_again = SiteTests.test_strangers_who_come_again

    @classmethod
    def setUpClass(cls) -> None:
        held = tempfile.TemporaryDirectory()
        cls.addClassCleanup(held.cleanup)
        cls.certificates, key = held.name, ('-newkey', 'ec', '-pkeyopt', 'ec_paramgen_curve:P-256', '-nodes')
        for authority in ('ours', 'theirs'):
            cls.openssl('req', '-x509', *key, '-days', '2', '-subj', f'/CN={authority}', '-keyout', f'{authority}.key',
                        '-out', f'{authority}.pem')
        for name, authority in (('west', 'ours'), ('east', 'ours'), ('stranger', 'theirs')):
            cls.openssl('req', *key, '-subj', f'/CN={name}', '-addext', f'subjectAltName=DNS:{name}', '-keyout',
                        f'{name}.key', '-out', f'{name}.csr')
            cls.openssl('x509', '-req', '-in', f'{name}.csr', '-CA', f'{authority}.pem', '-CAkey', f'{authority}.key',
                        '-days', '2', '-copy_extensions', 'copy', '-out', f'{name}.pem')

    @classmethod
    def openssl(cls, *words: str) -> None:
        subprocess.run(['openssl', *words], cwd=cls.certificates, check=True, capture_output=True)

    def files(self, name: str) -> list[str]:
        return [os.path.join(self.certificates, each) for each in (f'{name}.pem', f'{name}.key', 'ours.pem')]

    def context(self, name: str) -> ssl.SSLContext | None:
        return context_of(self.files(name), name == 'west')

    def end(self, name: str, **more: Any) -> tuple[SiteEnd, asyncio.Task[None]]:
        return super().end(name, **{'context': self.context(name), 'peer': 'east' if name == 'west' else 'west'} | more)

    async def test_who_is_refused(self) -> None:
        """A certificate of another authority; one of the authority, but not that of the site that should connect, or
        that should listen; and a site without one."""
        west = await self.listens()
        rows: list[dict[str, Any]] = [
            {'context': self.context('stranger')}, {'context': context_of(self.files('west'), False)},
            {'peer': 'north'}, {'context': None}]
        for more in rows:
            east, its = self.end('east', **more)
            await self.until(lambda: 'gone' in east.told or east.others)
            await asyncio.sleep(0.5)
            self.assertEqual(west.told, [], more)
            its.cancel()

    def test_any_certificate_is_told(self) -> None:
        """Who listens without a name for the other site reads what that means, and who names one does not."""
        for more, told in ((), [ANYBODY]), (('--peer', 'east'), []):
            _, _, events = said_by_tie('--listen', f'127.0.0.1:{free_port()}', '--tls', *self.files('west'), *more)
            self.assertEqual([each['about'] for each in events if each['event'] == 'warning'], told)


class WholeTieTests(ClockedCase):
    async def test_call(self) -> None:
        """Seized, answered, cleared: each is passed on between two sites, with G.711 until the answer."""
        folder, port = tempfile.TemporaryDirectory(), free_port()
        self.addCleanup(folder.cleanup)
        west, east = (StandInDriver(os.path.join(folder.name, name), dict.fromkeys(CIRCUITS, role))
                      for name, role in (('w', Role.INCOMING), ('e', Role.OUTGOING)))
        for driver in west, east:
            driver.acknowledges = True
            await driver.start()
            self.addAsyncCleanup(driver.stop)
            tie = Tie(TieOptions(driver.path, None, 3.0, False, 'pcma'), driver.path, lambda report: None)
            tie.site = Site(('127.0.0.1', port), driver is west, None, None, tie)
            self.addCleanup(tie.site.close)
            self.begin(tie.run())
            self.begin(tie.site.run())
        for driver, pair, state, coding in ((west, IDLE, State.IDLE, PCMA), (west, SEIZED, ACKED, PCMA),
                                            (east, ANSWER, ANSWERED, G726), (west, IDLE, State.IDLE, PCMA)):
            driver.send(3, pair)
            for each in west, east:
                await self.until(lambda: each.stands(3) == (state, coding))
        self.assertEqual([each for each in east.asked if each.endswith(' 3')], ['seize 3', 'clear 3'])
