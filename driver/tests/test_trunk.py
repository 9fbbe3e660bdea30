"""e1gw-trunk in service: what an operator has of it, calls that are cleared and a share among clients; trunks of each
kind and with filters, and descriptors that are closed."""
from __future__ import annotations

import contextlib
import json
import os
import pty
import signal
import socket
import subprocess
import unittest
from functools import partial
from typing import Any, Callable, TypeVar

from . import support
from .support import octets_in
from .world import World, children, config_of, trunk_command
from e1gw_tools.far_exchange import SEIZED
from e1gw_common.session import FRAME, MULTIFRAME, trunk_record
from e1gw_common.addresses import host_and_port
from e1gw_testing.waits import turns

FOUR = range(1, 5)
OCTETS = bytes(range(256)) * 2

W = TypeVar('W', bound=World)


def aligned(world: W) -> W:
    """Steps until the lines are idle."""
    world.until(lambda: world.exchange.aligned and not world.exchange.remote_alarms)
    world.step(15)
    world.wait_for_service()
    return world


def catches(pid: int, number: int, field: str = 'SigCgt') -> bool:
    """Whether a process catches a signal; of the field SigBlk whether that waits (proc(5))."""
    signals = support.text_of(f'/proc/{pid}/status').partition(f'{field}:')[2].split()[0]
    return bool(int(signals, 16) >> number - 1 & 1)


def is_seized(world: World, circuit: int) -> bool:
    """Whether a circuit takes the command to seize it, of a trunk that is seen to flow."""
    world.step(20)
    return world.ask(f'seize {circuit}') == f'seize {circuit}: done'


def call(world: World, circuit: int) -> None:
    """A call that is answered."""
    world.until(partial(is_seized, world, circuit))
    world.step(60)
    assert world.state(circuit) == 'answered'


class TrunkTests(unittest.TestCase):
    def test_status_and_events(self) -> None:
        world = World(config_of(FOUR))
        self.addCleanup(world.__exit__)
        events = world.follow()
        self.addCleanup(events.close)
        aligned(world)
        call(world, 1)
        port = int(support.text_of(world.config).split('local_port = ')[1].split()[0])
        causes = {'Short': b'', 'Version': bytes(12), 'PayloadType': b'\x80\x09' + bytes(10),
                  'TooMany': b'\x80\x08' + bytes(1700)}
        for host in '127.0.0.9', '127.0.0.1':       # (nothing is received of another one than peer_host)
            with socket.socket(socket.AF_INET, socket.SOCK_DGRAM) as line:
                line.bind((host, 0))
                for datagram in causes.values():
                    line.sendto(datagram, ('127.0.0.1', port))

        def counts() -> dict[str, int]:
            found = world.status()['circuits'][0]['datagrams']
            return {cause: found.get(cause, 0) for cause in causes}
        world.until(lambda: all(counts().values()))
        self.assertEqual(counts(), dict.fromkeys(causes, 1))
        world.quit()
        told = [json.loads(line) for line in events]
        self.assertTrue(all(event.pop('time') > 1e9 and event.pop('place') >= 0 for event in told))
        states = [(event['was'], event['state']) for event in told if event.get('circuit') == 1
                  and event['event'] == 'state']
        self.assertEqual(states, [('fault', 'idle'), ('idle', 'seized'), ('seized', 'acked'), ('acked', 'answered')])
        self.assertIn({'event': 'command', 'circuit': 1, 'command': 'seize', 'answer': 'done'}, told)

    def test_closed_descriptors(self) -> None:
        """Calls come up all the same."""
        for words in ('<&-', '>&-', '2>&-', '<&- >&- 2>&-'):
            front = ('sh', '-c', f'exec "$@" {words}', 'sh')
            with self.subTest(words), World(config_of(FOUR), front=front, stderr=None) as world:
                call(aligned(world), 1)
                self.assertEqual({*world.status()['ended'].values()}, {None})
                self.assertEqual(world.quit()[0], 0)

    def test_hosts_and_ports(self) -> None:
        self.assertEqual(host_and_port('127.0.0.1:1'), ('127.0.0.1', 1))
        self.assertEqual(host_and_port('[::1]:65535'), ('::1', 65535))
        for text in ('', ':', 'a', 'a:', ':1', 'a:0', 'a:65536', 'a:99999', 'a:-1', 'a:٣', '.x:1', 'a..b:1', '[]:1'):
            with self.subTest(text), self.assertRaises(ValueError):
                host_and_port(text)

    def test_octets_before_the_first_multiframe(self) -> None:
        """The exchange waits for that, and hears it."""
        exchange = support.Exchange()
        exchange.receive(b'\xff' * 600)
        self.assertFalse(exchange.aligned)
        exchange.receive(support.Exchange().multiframe())
        self.assertEqual((exchange.aligned, exchange.remote_alarms, len(exchange.heard[1])), (True, False, 16))


class OperatorTests(unittest.TestCase):
    def world(self, *options: str, incoming: tuple[int, ...] = (), **more: Any) -> World:
        """Fifteen idle circuits."""
        world = World(config_of(range(1, 16), incoming=incoming), *options, **more)
        self.addCleanup(world.__exit__)
        return aligned(world)

    def events(self, world: World) -> Any:
        found = world.follow()
        self.addCleanup(found.close)
        return found

    def next(self, events: Any, **values: Any) -> dict[str, Any]:
        """The next event with these values."""
        found: dict[str, Any] = next(each for line in events if {**(each := json.loads(line)), **values} == each)
        return found

    def test_answers(self) -> None:
        """A change, then the answer to the command that made it, and a status that has it. Several clients at once get
        their own. Nobody seizes while the other end has no alignment, or the trunk no octets."""
        world = self.world(within={'watcher.flow.QUIET': 0.5})
        events = self.events(world)
        support.until(lambda: bool(world.recent_status()['clock']['stalled']))
        self.assertEqual(world.ask('seize 1'), 'seize 1: refused: the trunk is stalled')
        self.assertIn(' UTC, stalled; the other end: not heard', world.ask('status'))
        for _ in turns('circuit 1 is seized'):          # (the trunk stalls again on a loaded machine)
            if (said := world.ask('seize 1')) == 'seize 1: done':
                break
            self.assertEqual(said, 'seize 1: refused: the trunk is stalled')
            world.step()
        self.assertEqual(world.status_at_once()['circuits'][0]['state'], 'seized')
        (call,) = world.recent_status()['calls']
        self.assertRegex(call['call'], '^[0-9a-f]{8}-1-1$')
        self.next(events, event='flows')
        self.next(events, event='state', circuit=1, call=call['call'])
        self.next(events, event='command', circuit=1, answer='done')
        lines = [support.connected(world.path('ctl')) for _ in range(15)]
        for circuit, line in enumerate(lines, 1):
            line.sendall(f'clear {circuit}\n'.encode())
        for circuit, line in enumerate(lines, 1):
            said = 'done' if circuit == 1 else 'refused: not in a call'
            self.assertEqual(line.recv(200).decode(), f'clear {circuit}: {said}\n\n')
            line.close()
        octets = bytearray(world.exchange.multiframe())
        octets[32::64] = b'\xff' * 8                    # bit A (ITU-T G.704, 2.3)
        world.exchange_octets(bytes(octets))
        for _ in turns('the trunk flows'):
            if (said := world.ask('seize 2')) != 'seize 2: refused: the trunk is stalled':
                break
            world.exchange_octets(bytes(octets))
        self.assertEqual(said, 'seize 2: refused: the other end has no alignment')

    def test_calls_that_are_cleared(self) -> None:
        """When the last client that has asked for it is gone, or says nothing any more, and in the dark."""
        world = self.world('--dark', '0', '--on-loss', 'block', '0', incoming=(2, 4))
        events = self.events(world)
        world.exchange.pairs[2] = SEIZED
        call(world, 1)
        self.assertEqual(world.ask('answer 2'), 'answer 2: done')
        with support.connected(world.path('ctl')) as line:
            line.sendall(b'on-loss\n')
            self.assertEqual(line.recv(100), b'on-loss: done\n\n')
        self.assertEqual(self.next(events, event='cleared')['circuits'], [1, 2])
        world.until(lambda: [world.state(n) for n in (1, 2, 4)] == ['idle', 'clearedback', 'blocked'])
        call(world, 1)
        with support.connected(world.path('ctl')) as line:
            line.sendall(b'on-loss clear 0 alive 1\n')
            self.assertEqual(line.recv(100), b'on-loss: done\n\n')
            self.assertEqual(self.next(events, event='cleared')['circuits'], [1])
        world.until(lambda: world.state(1) == 'idle')
        call(world, 1)
        for _ in range(20):
            world.exchange_octets(b'\xff' * MULTIFRAME)
        self.assertEqual(self.next(events, event='cleared')['circuits'], [1])

    def test_many_clients(self) -> None:
        """Lines that come at once are answered, and a long one ends its connection. Those who say nothing lock nobody
        out; those who follow events stay, also where the socket is removed: another one is there soon."""
        with World(config_of(FOUR)) as world, contextlib.ExitStack() as lines:
            def connect(said: bytes = b'', answer: bytes = b'') -> tuple[socket.socket, bytes]:
                """A client, once this has answered it; and all of that."""
                line = lines.enter_context(support.connected(world.path('ctl')))
                line.sendall(said)
                return line, heard(line, answer)
            line, said = connect(b'help\n' * 20 + b'seize 31\n', b'circuits are 1 to 30')
            self.assertEqual(said.count(b'these lines\n\n'), 20)
            with self.assertRaises(OSError):
                while True:
                    line.sendall(bytes(65536))
            follower, _ = connect(b'events\n', b'following\n\n')
            silent = [connect()[0] for _ in range(100)]
            self.assertIn('circuits are', world.ask('seize 31'))
            self.assertTrue(silent[0].makefile('rb').read().startswith(b'closed: '))
            heard(follower, b'"command"')
            os.unlink(world.path('ctl'))
            support.until(lambda: os.path.exists(world.path('ctl')))
            world.ask('clear 3')
            heard(follower, b'"clear"')


def heard(line: socket.socket, words: bytes) -> bytes:
    """What has come up to these words."""
    told = b''
    while words not in told:
        told += (piece := line.recv(65536))
        assert piece, told
    return told


class TrunkKindServiceTests(support.FolderCase):
    def test_each_kind(self) -> None:
        """Octets go both ways, whatever they are, and on behind a program that is killed; FIFOs and TCP end the trunk.
        (Other tests have Unix sockets and files.)"""
        config, listener = self.write('trunk.toml', 'law = "A"\n'), socket.create_server(('127.0.0.1', 0))
        self.addCleanup(listener.close)
        terminal, theirs = pty.openpty()
        name, fifos = os.ttyname(theirs), [self.path(name) for name in ('in', 'out')]
        for path in fifos:
            os.mkfifo(path)
        wanted = octets_in(support.run('replay', '--config', config, given=trunk_record(OCTETS * 2)))
        kinds: list[tuple[list[str], Callable[[], tuple[int, int]]]] = [
            (['--in', name, '--out', name], lambda: (terminal, terminal)),
            (['--tcp', f'127.0.0.1:{listener.getsockname()[1]}'], lambda: (listener.accept()[0].detach(),) * 2),
            (['--in', fifos[0], '--out', fifos[1]], lambda: (os.open(fifos[0], os.O_WRONLY), os.open(fifos[1], 0)))]
        for words, opens in kinds:
            with self.subTest(words), subprocess.Popen(trunk_command('--config', config, *words),
                                                       stdin=subprocess.DEVNULL, stderr=subprocess.PIPE) as process:
                self.addCleanup(process.kill)
                assert process.stderr
                into, out = opens()
                back = b''
                for says in b'carries', b'goes on':
                    while says not in process.stderr.readline():        # (a terminal is raw from then on)
                        pass
                    os.write(into, OCTETS)
                    back += self.read(out)
                    for program in children(process.pid, 'trunk') if says == b'carries' else ():
                        os.kill(program, signal.SIGKILL)
                self.assertEqual(back, wanted)
                if into == terminal:
                    process.terminate()
                    process.wait(support.SECONDS)
                for file in {into, out}:
                    os.close(file)
                process.stderr.read()
            self.assertEqual(process.returncode, 0)
        os.close(theirs)

    def read(self, file: int) -> bytes:
        """What is sent for octets that have come."""
        back = b''
        while len(back) < len(OCTETS):
            back += os.read(file, 1000)
        return back


class FilteredWorld(World):
    """A trunk with CRC-4 and four circuits, whose exchange is three bits late with --align."""

    def __init__(self, *options: str, **more: Any) -> None:
        self.is_late, self.last = '--align' in options, 0xFF
        super().__init__(config_of(FOUR), '--crc4', *options, **more)

    def exchange_octets(self, octets: bytes) -> bytes:
        return super().exchange_octets(self.on_the_line(octets))

    def on_the_line(self, octets: bytes) -> bytes:
        """As they come."""
        front, self.last = bytes([self.last & 7]), octets[-1]
        return (int.from_bytes(front + octets, 'big') >> 3).to_bytes(len(octets), 'big') if self.is_late else octets


class FilterTests(unittest.TestCase):
    """(Check bits and errors are proved, and tests/program has their figures.)"""

    def goes_on(self, world: FilteredWorld) -> None:
        """A call is up, and the exchange hears frames and CRC multiframes where they were (G.704, tables 5A and 5B)."""
        begun = len(world.heard)
        world.step(60)
        heard = world.heard[begun:]
        firsts = [octet >> 7 for octet in heard[FRAME::2 * FRAME]]          # of frames 1, 3, ..
        self.assertEqual([firsts[at:at + 6] for at in range(0, len(firsts), 8)], [[0, 0, 1, 0, 1, 1]] * 60)
        self.assertEqual({octet & 0x7F for octet in heard[::2 * FRAME]}, {0x1B})
        self.assertEqual(world.state(1), 'answered')

    def test_the_program_dies_inside_a_multiframe(self) -> None:
        """The exchange keeps the alignment of frames and multiframes."""
        for options in (), ('--align',):
            world = FilteredWorld(*options, within={'holder.decisions.WITHIN': 0.0})
            self.addCleanup(world.__exit__)
            call(aligned(world), 1)
            for count in 0, 77, 500:
                with self.subTest(count, options=options):
                    octets = world.on_the_line(world.exchange.multiframe())
                    world.line.sendall(octets[:count])
                    back = support.read_from(world.line, count)
                    world.kill('trunk')
                    world.line.sendall(octets[count:])
                    world.exchange.receive(back + support.read_from(world.line, MULTIFRAME - count))
                    self.goes_on(world)
