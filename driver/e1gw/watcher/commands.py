"""The control of a trunk: lines of text in, lines of text out, over a Unix stream socket.

A line is answered by one or more lines and an empty one:

  seize N, clear N, answer N, clear-back N     `seize 3: done`, or `seize 3: refused: ` and why; `seize 3: unknown: `
                             and why if it may have been done; of other commands also `busy: `
  block N, block N now       the operator takes N, or all of N-M, out of service: at the end of its call, or now
  unblock N                  takes that back
  block N auto, unblock N auto    the same by a program: of an idle incoming circuit, not kept, and no operator's
  codec N CODEC TYPE         pcma, pcmu, g726-16, g726-24, g726-32, g726-40 and an RTP payload type, until its call,
                             or the next one, ends; behind them `auto`, if a program gives it
  status, status json        the table, or all of it as one line of JSON
  status N                   the row of circuit N
  events                     `following`; from then on a line of JSON for each change
  role                       of a trunk that two machines have: `active, fed`, `standby, not fed` ..
  promote, demote            this machine is to carry it, or the other one
  move                       the other one is to: the feed says so at its end
  reload                     takes the program and the configuration of now; `reload force` also if that ends
                             more than three calls; with `reload when-idle` circuits in a call wait for its end
  quit                       ends the trunk
  help                       these lines
"""
from __future__ import annotations

import asyncio
import contextlib
import time
from dataclasses import dataclass, field
from typing import TYPE_CHECKING, Iterable

from e1gw_common.answers import refused
from e1gw_common.report import json_line
from e1gw_common.session import Codec, Command, circuit_of, circuits_of, codec_record
from e1gw_common.tasks import Tasks
from ..events import WatchEnded
from ..metrics import circuit_table

if TYPE_CHECKING:
    from .watch import TrunkWatch

MOST_LINE = 4096            # octets of a line
MOST_CLIENTS = 64
MOST_HELD = 256 << 10       # octets that wait for a client; one that takes less is closed
FULL = f'another client has come, and {MOST_CLIENTS} are the most'

NO_CIRCUIT = refused('circuits are 1 to 30')

COMMANDS = {command.word: command for command in Command}
CODECS = {'pcma': Codec.G711, 'pcmu': Codec.G711} | {codec.word('A'): codec for codec in Codec}


@dataclass(eq=False)
class ControlPeer:
    """One who is connected to the control socket."""

    writer: asyncio.StreamWriter
    holds: bool = False         # calls are cleared when he is gone
    follows: bool = False       # events
    last: float = field(default_factory=time.monotonic)     # when he has said something

    def send_line(self, line: str) -> None:
        """Sends a line; nothing to one who is gone."""
        if not self.writer.transport.is_closing():
            self.writer.write(f'{line}\n'.encode())
            if self.writer.transport.get_write_buffer_size() > MOST_HELD:
                self.writer.transport.abort()

    def turn_away(self) -> None:
        """Closes the connection for another client, and tells why, if that goes at once."""
        self.send_line(json_line(WatchEnded('control', FULL)) if self.follows else f'closed: {FULL}')
        if self.writer.transport.get_write_buffer_size():
            self.writer.transport.abort()
        else:
            self.writer.transport.close()


def choose_evicted(peers: Iterable[ControlPeer]) -> ControlPeer:
    """Who gives way to one more: the one idle for longest, of those who follow no events and hold no calls if there are
    any, else of those who hold none."""
    return min(peers, key=lambda each: (each.holds, each.follows, each.last))


class CommandServer:
    """Takes commands of those who connect. Each is asked one line in turn."""

    def __init__(self, trunk: TrunkWatch) -> None:
        self._trunk, self._peers, self._tasks = trunk, set[ControlPeer](), Tasks()

    def followers(self) -> list[ControlPeer]:
        """Who has asked for events."""
        return [peer for peer in self._peers if peer.follows]

    def on_connect(self, reader: asyncio.StreamReader, writer: asyncio.StreamWriter) -> asyncio.Task[None]:
        """A client has connected."""
        return self._tasks.create(self._serve(reader, writer))

    async def _serve(self, reader: asyncio.StreamReader, writer: asyncio.StreamWriter) -> None:
        """A line in, an answer and an empty line out."""
        if len(self._peers) >= MOST_CLIENTS:
            out = choose_evicted(self._peers)
            self._peers.discard(out)
            out.turn_away()
        self._peers.add(peer := ControlPeer(writer))
        with contextlib.suppress(OSError, ValueError, asyncio.LimitOverrunError):
            while (line := await reader.readline()).endswith(b'\n'):
                peer.last = time.monotonic()
                self._trunk.disconnects.on_message(peer, peer.last)
                if words := line.decode(errors='replace').split():
                    writer.write(f'{await self._obey(words, peer)}\n\n'.encode())
                    await writer.drain()
                await asyncio.sleep(0)          # (one line of each who asks)
                peer.follows |= words == ['events']
        self._peers.discard(peer)
        self._trunk.disconnects.on_disconnect(peer, time.monotonic())
        writer.close()

    async def _obey(self, words: list[str], peer: ControlPeer) -> str:
        """Does what a line says."""
        pages = self._trunk.pages
        match words:
            case ['status']:
                return (await pages.fresh()).table.rstrip('\n')
            case ['status', 'json']:
                return (await pages.fresh()).json
            case ['status', word]:
                circuit = circuit_of(word)
                return circuit_table((await pages.fresh()).status, circuit) if circuit else \
                    NO_CIRCUIT.lines(f'status {word[:40]}')
            case ['events']:
                return 'following'
            case ['on-loss', *rest]:
                answer = self._trunk.disconnects.request(peer, rest, peer.last)
                peer.holds = self._trunk.disconnects.has_request_of(peer)
                return answer.lines('on-loss')
            case ['help']:
                return (__doc__ or '').partition('\n\n')[2].rstrip('\n')
            case ['reload'] | ['reload', 'force' | 'when-idle']:
                return (await self._trunk.trunk.reload(*words[1:])).lines('reload')
            case ['role']:
                return self._trunk.trunk.role() or (await self._trunk.trunk.change_role('role')).lines('role')
            case ['promote' | 'demote' | 'move' as word]:
                return (await self._trunk.trunk.change_role(word)).lines(word)
            case ['block', _] | ['block', _, 'now'] | ['unblock', _]:
                return await self._obey_block(*words)
            case ['block' | 'unblock' as name, word, 'auto']:
                return await self._obey_circuit(name, [word])
            case ['quit']:
                return (await self._trunk.trunk.request_end()).lines('quit')
            case ['codec', *rest]:
                return await self._obey_codec(rest)
            case [name, *rest] if name in COMMANDS:
                return await self._obey_circuit(name, rest)
        return refused(f'no such command; there are {", ".join(COMMANDS)}, codec, status, events, role, '
                       'promote, demote, move, reload, quit and help').lines(words[0][:40])

    async def _obey_block(self, name: str, word: str, *now: str) -> str:
        """An operator takes circuits out of service, or gives them back."""
        trunk, front = self._trunk, f'{name} {word[:40]}'
        try:
            circuits = circuits_of(word)
        except ValueError:
            return NO_CIRCUIT.lines(front)
        if trunk.trunk.stands_by():
            return refused('the other machine is to carry the trunk').lines(front)
        blocks = trunk.blocks
        answer = await (blocks.take(circuits, bool(now)) if name == 'block' else blocks.give_back(circuits))
        return answer.lines(front)

    async def _obey_circuit(self, name: str, words: list[str]) -> str:
        trunk, command = self._trunk, COMMANDS[name]
        if len(words) != 1:
            return refused('it wants a circuit').lines(name)
        circuit = circuit_of(words[0])
        if not circuit:
            return NO_CIRCUIT.lines(f'{name} {words[0][:40]}')
        front = f'{name} {circuit}'
        # (No exchange could see a seizure in an outage, and 200 ms later it would be released.)
        outage = trunk.client.outage() if command is Command.SEIZE else None
        if fault := trunk.blocks.refusal(circuit, command) or outage:
            trunk.count(circuit, name, fault)
            return refused(fault).lines(front)
        return (await trunk.give_command(circuit, command)).lines(front)

    async def _obey_codec(self, words: list[str]) -> str:
        trunk = self._trunk
        if len(words) < 3 or words[3:] not in ([], ['auto']):
            return refused('it wants a circuit, a codec and a payload type').lines('codec')
        circuit = circuit_of(words[0])
        if not circuit:
            return NO_CIRCUIT.lines(f'codec {words[0][:40]}')
        front = f'codec {circuit}'
        if fault := codec_fault(words[1:3], trunk.client.state.law):
            return refused(fault).lines(front)
        record = codec_record(circuit, CODECS[words[1]], int(words[2]))
        answer = await trunk.command(record, circuit, ' '.join(['codec', *words[1:]]))
        if answer.is_done:
            trunk.codecs.on_given(circuit)
        return answer.lines(front)


def codec_fault(words: list[str], law: str) -> str | None:
    """What is wrong with a codec and a payload type, or None."""
    name, number = words
    if name not in CODECS:
        return f'codecs are {", ".join(CODECS)}'
    if not (number.isascii() and number.isdecimal() and len(number) < 4 and int(number) <= 127):
        return 'payload types are 0 to 127'
    if CODECS[name] is Codec.G711 and name != Codec.G711.word(law):
        return f'the law of the trunk is {law}'
    return None
