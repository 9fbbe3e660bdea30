"""The examples: what is typed at the exchange, and the SIP front end, with calls between an agent, which is this test,
and the exchange of a trunk."""
from __future__ import annotations

import asyncio
import math
import os
import re
import socket
import sys
import unittest
from contextlib import ExitStack, suppress
from importlib.machinery import SourceFileLoader
from subprocess import PIPE, Popen
from types import ModuleType
from typing import Any
from unittest import mock

from . import support, world
from .support import SECONDS
from .test_trunk import aligned
from e1gw_tools.far_exchange import ACKNOWLEDGED, IDLE, SEIZED
from e1gw_testing.datagrams import PACKET, packets, speech
from e1gw_testing.ports import free_ports

EXCHANGE = [sys.executable, '-B', os.path.join(support.TOP, 'bin', 'e1gw-exchange')]
FRONT_END = os.path.join(support.TOP, 'examples', 'sip', 'front_end')
WAYS = ['<sip:192.0.2.1;lr>', '<sip:192.0.2.2:5070;lr>, <sip:192.0.2.3;lr>']       # of proxies, the last one first
OFFER = ('v=0\r\no=- 1 1 IN IP4 127.0.0.1\r\ns=-\r\nc=IN IP4 127.0.0.1\r\nt=0 0\r\n'
         'm=audio {port} RTP/AVP {payload} 101\r\n')


def is_listened_at(path: str) -> bool:
    with socket.socket(socket.AF_UNIX) as line:
        return line.connect_ex(path) == 0


class TypedCommandTests(support.FolderCase):
    def test_lines_that_come_at_once(self) -> None:
        """Two lines and the half of a third one, then its rest: each circuit is seized. The multiframes that it sends
        have the pairs ab of circuits n and n + 15 in slot 16 of frame n (ITU-T G.704). With --again the next trunk
        finds it at the same socket, with all circuits idle."""
        idle = dict.fromkeys(range(1, 16), IDLE)
        exchange = Popen([*EXCHANGE, '--again', self.path('card')], stdin=PIPE, stdout=PIPE)
        self.addCleanup(exchange.communicate)
        self.addCleanup(exchange.kill)
        assert exchange.stdin and exchange.stdout
        with connected(self.path('card')) as line:
            self.assertEqual(pairs(line), idle)
            os.write(exchange.stdin.fileno(), b'seize 3\nseize 7\nhello\nsei')
            self.until_seized(line, {3, 7})
            os.write(exchange.stdin.fileno(), b'ze 9\nclear 3\n')
            self.until_seized(line, {7, 9})
            self.assertEqual(exchange.stdout.readline(), b'there are seize N and clear N\n')
        with connected(self.path('card')) as line:
            self.assertEqual(pairs(line), idle)

    def test_a_socket_that_is_there(self) -> None:
        """A file stays, and one that is listened at. One that a killed exchange has left is replaced."""
        file, path = self.write('file', ''), self.path('card')
        with support.listening(path):
            for each in file, path:
                self.assertEqual(support.ran(*EXCHANGE, each),
                                 (1, '', f'e1gw-exchange: {each}: Address already in use\n'))
        exchange = Popen([*EXCHANGE, path])
        self.addCleanup(exchange.wait)
        self.addCleanup(exchange.kill)
        support.until(lambda: is_listened_at(path))
        self.assertEqual(exchange.wait(SECONDS), 0)

    def until_seized(self, line: socket.socket, circuits: set[int]) -> None:
        support.until(lambda: {n for n, pair in pairs(line).items() if pair == SEIZED} == circuits, 0.0)


def connected(path: str) -> socket.socket:
    """A line to the exchange, once it is there."""
    line = socket.socket(socket.AF_UNIX)
    line.settimeout(SECONDS)
    support.until(lambda: line.connect_ex(path) == 0)
    return line


def pairs(line: socket.socket) -> dict[int, int]:
    """Those of circuits 1 to 15 in the next multiframe, which is answered by idle octets."""
    octets = support.read_from(line, 512)
    line.sendall(b'\xD5' * 512)
    return {n: octets[32 * n + 16] >> 6 for n in range(1, 16)}


def loaded_front_end() -> Any:
    """The front end as a module."""
    loader = SourceFileLoader('front_end', FRONT_END)
    module = sys.modules['front_end'] = ModuleType('front_end')
    loader.exec_module(module)
    return module


class PlayedTrunk:
    """A control socket that does what it is asked, and a socket that keeps what is sent."""

    def __init__(self) -> None:
        self.asked, self.said, self.refused = list[str](), list[str](), set[str]()

    async def ask(self, command: str) -> list[str]:
        self.asked.append(command)
        return [f'{command}: {"refused: not idle" if command in self.refused else "done"}']

    def sendto(self, octets: bytes, _to: tuple[str, int]) -> None:
        if octets[:1].isalpha():
            self.said.append(octets.decode().split('\r\n')[0])

    def get_extra_info(self, _name: str) -> tuple[str, int]:
        return '127.0.0.1', 4000


class PlayedFrontEndTests(unittest.IsolatedAsyncioTestCase):
    """A front end of two circuits, by a clock that the test moves."""

    def setUp(self) -> None:
        self.now, self.trunk, module = 100.0, PlayedTrunk(), loaded_front_end()
        config = {'law': 'A', 'circuit': [{'number': n, 'local_port': n, 'peer_port': n + 1} for n in (1, 2)]}
        self.end = module.FrontEnd(config, ('127.0.0.1', 5060), self.trunk, lambda: self.now)
        self.end.line = self.trunk
        self.end.near = self.end.far = {1: self.trunk, 2: self.trunk}

    async def sends(self, method: str, call: str = 'a', tag: str = '') -> None:
        """A message comes, and all that follows of it is done."""
        body = OFFER.format(port=4002, payload=8) * (method == 'INVITE')
        self.end.received(f'{method} sip:1@127.0.0.1 SIP/2.0\r\nFrom: <sip:a@127.0.0.1>;tag=a\r\n'
                          f'To: <sip:1@127.0.0.1>{tag}\r\nCall-ID: {call}\r\nCSeq: 1 {method}\r\n\r\n{body}'.encode(),
                          ('127.0.0.1', 5070))
        await self.done()

    async def done(self) -> None:
        while self.end.tasks:
            await asyncio.gather(*self.end.tasks)

    async def is_up(self, call: str = 'a', circuit: int = 1) -> None:
        """A call is made and answered."""
        await self.sends('INVITE', call)
        for state in ('seized', 'acked', 'answered'):
            self.end.on_state(circuit, state)
        self.assertEqual(self.trunk.said[-1], 'SIP/2.0 200 OK')

    async def test_the_codec_of_the_answer(self) -> None:
        """It is set before each seizure, since it ends with the call; a circuit that does not take it gets no call."""
        await self.is_up()
        await self.sends('BYE')
        self.end.on_state(1, 'idle')
        await self.sends('INVITE', 'b')
        self.assertEqual(self.trunk.asked, [*['codec 1 pcma 8 auto', 'seize 1', 'clear 1'], 'codec 1 pcma 8 auto',
                                            'seize 1'])
        self.end.on_state(1, 'idle')
        await self.done()
        self.trunk.asked.clear()
        self.trunk.refused = {'codec 1 pcma 8 auto'}
        await self.sends('INVITE', 'c')
        self.assertEqual(self.trunk.asked, ['codec 1 pcma 8 auto', 'codec 2 pcma 8 auto', 'seize 2'])

    async def test_a_call_without_rtp_ends(self) -> None:
        """After 30 s from the answer, or from the last packet; its peer gets a BYE, and the circuit another call."""
        await self.is_up()
        self.now += 29.9
        self.end.to_circuit(1, b'\x80', ('127.0.0.1', 4002))
        self.now += 29.9
        self.end.end_silent()
        await self.done()
        self.assertEqual(self.trunk.asked[-1], 'seize 1')
        self.now += 0.1
        self.end.end_silent()
        await self.done()
        self.assertEqual((self.trunk.asked[-1], self.trunk.said[-1]), ('clear 1', 'BYE sip:127.0.0.1 SIP/2.0'))
        self.end.on_state(1, 'releasing')
        self.end.on_state(1, 'idle')
        self.end.end_silent()
        self.assertEqual(self.trunk.said[-1], 'BYE sip:127.0.0.1 SIP/2.0')
        await self.is_up('b')
        self.assertEqual(self.trunk.said.count('BYE sip:127.0.0.1 SIP/2.0'), 1)

    async def test_calls_whose_bye_never_comes(self) -> None:
        """Both circuits are in such a call: a third one is refused, and has one once they are silent for 30 s. A call
        that is not answered yet may be silent."""
        await self.is_up()
        await self.sends('INVITE', 'b')
        self.end.on_state(2, 'acked')
        await self.sends('INVITE', 'c')
        self.assertEqual(self.trunk.said[-1], 'SIP/2.0 503 Service Unavailable')
        self.now += 30.0
        self.end.end_silent()
        await self.done()
        self.assertEqual([line for line in self.trunk.asked if line.startswith('clear')], ['clear 1'])
        self.end.on_state(1, 'idle')
        await self.is_up('d')
        await self.sends('BYE')             # (which comes after all, of a call that has ended)
        self.assertEqual(self.trunk.said[-1], 'SIP/2.0 481 Call Does Not Exist')
        self.assertEqual(self.end.circuits[1].invite.head('Call-ID'), 'd')

    async def test_an_invite_within_a_call(self) -> None:
        """It is refused, and the call goes on; of one that has ended it begins no other one."""
        await self.is_up()
        await self.sends('INVITE', 'a', ';tag=1')
        self.assertEqual(self.trunk.said[-1], 'SIP/2.0 488 Not Acceptable Here')
        await self.sends('BYE')
        await self.sends('INVITE', 'a', ';tag=1')
        self.assertEqual(self.trunk.said[-1], 'SIP/2.0 481 Call Does Not Exist')
        self.assertEqual(self.trunk.asked, ['codec 1 pcma 8 auto', 'seize 1', 'clear 1'])

    async def test_it_looks_each_second(self) -> None:
        self.end.end_silent = mock.Mock(side_effect=EOFError)
        with mock.patch.object(sys.modules['front_end'], 'EACH', 0.0), self.assertRaises(EOFError):
            await self.end.watch_silence()


class SipFrontEndTests(support.FolderCase):
    """A front end of two circuits, and an agent."""

    def setUp(self) -> None:
        super().setUp()
        held = ExitStack()
        self.addCleanup(held.close)
        sip, *ports = free_ports(5)
        text = support.config_text({n: {'ptime': 10, 'prefill': 160, 'local_port': local, 'peer_port': peer}
                                    for n, local, peer in ((1, *ports[:2]), (2, *ports[2:]))})
        self.world = held.enter_context(world.World(text))
        aligned(self.world)
        front_end = held.enter_context(Popen(
            [sys.executable, '-B', FRONT_END, self.world.path('ctl'), self.world.config, '--sip', f'127.0.0.1:{sip}'],
            stdout=PIPE))
        held.callback(front_end.kill)
        assert front_end.stdout
        self.assertEqual(front_end.stdout.readline(), f'calls are taken at 127.0.0.1:{sip}\n'.encode())
        self.agent, self.speech = (held.enter_context(socket.socket(socket.AF_INET, socket.SOCK_DGRAM)) for _ in '12')
        for line in (self.agent, self.speech):
            line.bind(('127.0.0.1', 0))
        self.agent.connect(('127.0.0.1', sip))

    def sends(self, method: str, call: str, payload: int = 8) -> None:
        body = OFFER.format(port=self.speech.getsockname()[1], payload=payload) if method == 'INVITE' else ''
        number = 1 if method in ('INVITE', 'CANCEL') else 2
        ways = ''.join(f'Record-Route: {way}\r\n' for way in WAYS if method == 'INVITE')
        self.agent.send((f'{method} sip:1@127.0.0.1 SIP/2.0\r\n'
                         f'Via: SIP/2.0/UDP 127.0.0.1;branch=z9hG4bK{call}{method}\r\n'
                         f'From: <sip:a@127.0.0.1>;tag=a\r\nTo: <sip:1@127.0.0.1>\r\nCall-ID: {call}\r\n'
                         f'CSeq: {number} {method}\r\nContact: <sip:a@127.0.0.1>\r\n{ways}'
                         f'Content-Length: {len(body)}\r\n\r\n{body}').encode())

    def hears(self, *firsts: str) -> str:
        """Waits, while the trunk goes on, for messages that begin so, one after another; the last one."""
        self.agent.setblocking(False)
        for first in firsts:
            self.world.until(self.heard)
            self.assertEqual(self.text.split('\r\n')[0], first)
        return self.text

    def heard(self) -> bool:
        """Whether a message has come."""
        with suppress(BlockingIOError):
            self.text = self.agent.recv(65536).decode()
            return True
        return False

    def is_up(self, call: str) -> tuple[str, int]:
        """A call is made and answered; where the front end takes its speech."""
        self.sends('INVITE', call)
        answer = self.hears('SIP/2.0 100 Trying', 'SIP/2.0 183 Session Progress', 'SIP/2.0 200 OK')
        self.assertIn('\r\nCSeq: 1 INVITE\r\n', answer)
        self.assertRegex(answer, r'\r\nTo: <sip:1@127.0.0.1>;tag=\w+\r\n')
        self.assertEqual(re.findall(r'(?m)^Record-Route: (.*)\r$', answer), WAYS)
        return '127.0.0.1', int(re.findall(r'm=audio (\d+) RTP/AVP 8\r\n', answer)[0])

    def test_speech_in_both_directions(self) -> None:
        there = self.is_up('first')
        self.speech.sendto(speech(0x31), there)
        self.world.until(lambda: bytes(self.world.exchange.heard[1]).count(0x31) == PACKET)
        self.world.exchange.speech[1] = bytearray(b'\x42' * 4 * PACKET)
        self.world.until(lambda: any(b'\x42' * PACKET in packet for packet, _ in packets(self.speech)))
        self.sends('BYE', 'first')
        self.hears('SIP/2.0 200 OK')
        self.world.until(lambda: self.world.state(1) == 'idle')
        self.sends('OPTIONS', 'first')          # (no BYE comes before its answer)
        self.assertIn('\r\nCSeq: 2 OPTIONS\r\n', self.hears('SIP/2.0 200 OK'))

    def test_a_circuit_that_the_operator_has_blocked(self) -> None:
        """It gets no call: the next one does."""
        self.assertEqual(self.world.ask('block 1'), 'block 1: done')
        self.is_up('first')
        self.assertEqual([self.world.state(n) for n in (1, 2)], ['idle', 'answered'])

    def test_the_exchange_clears(self) -> None:
        self.is_up('first')
        self.world.answers = False
        self.world.exchange.pairs[1] = ACKNOWLEDGED         # clear-back, in an answered call (Q.421)
        bye = self.hears('BYE sip:a@127.0.0.1 SIP/2.0')
        self.assertIn('Call-ID: first\r\n', bye)
        self.assertEqual(re.findall(r'(?m)^Route: (.*)\r$', bye), WAYS)

    @mock.patch.object(world, 'ANSWERS_AFTER', math.inf)
    def test_calls_that_are_not_answered(self) -> None:
        self.sends('INVITE', 'other', payload=0)
        self.hears('SIP/2.0 100 Trying', 'SIP/2.0 488 Not Acceptable Here')
        for call in ('first', 'second'):
            self.sends('INVITE', call)
            self.hears('SIP/2.0 100 Trying', 'SIP/2.0 183 Session Progress')
        self.sends('INVITE', 'third')
        self.hears('SIP/2.0 100 Trying', 'SIP/2.0 503 Service Unavailable')
        self.sends('CANCEL', 'first')
        self.hears('SIP/2.0 200 OK', 'SIP/2.0 487 Request Terminated')
