"""The status of a tie: a table for people, JSON and the text of Prometheus for machines, at a socket and over HTTP."""
from __future__ import annotations

import asyncio
import time
from collections import Counter
from contextlib import suppress
from dataclasses import dataclass

from e1gw_common.answers import CommandCount, refused
from e1gw_common.lines import IN_CALL, Role, State
from e1gw_common.prometheus import Family, text_of
from e1gw_common.tasks import Tasks
from e1gw_common.unix_listener import unix_listener
from e1gw_common.web import MOST_REQUEST, StatusTexts, WebServer
from .circuit import LinkState
from .tie import Tie

SECONDS = 60.0              # for one who asks at the socket
MODE = 0o660                # of the socket
MOST_LINE = 4096            # octets of a line
HEAD = 'here there role     state       there is    remark'
NO_COMMAND = refused('there are status, status json and metrics')


@dataclass(frozen=True)
class JoinedCircuit:
    """A circuit here and the one there, each with its state."""

    circuit: int
    there: int
    role: Role
    state: State
    far_state: State | None
    over: bool
    kept: bool
    stuck: bool

    def line(self) -> str:
        remarks = ('given up', self.over), ('blocked by the operator', self.kept), ('release not followed', self.stuck)
        return (f'{self.circuit:4} {self.there:5} {self.role:8} {self.state:11} {self.far_state or "not known":11} '
                f'{", ".join(text for text, is_so in remarks if is_so)}').rstrip()


@dataclass(frozen=True)
class TieStatus:
    """All that is known of a tie, as its JSON has it (e1gw-tie(1))."""

    time: float
    uptime: float
    control: str
    link: LinkState
    trunk: bool
    site: bool
    dark: bool
    far_dark: bool
    calls: int
    given_up: int
    commands: tuple[CommandCount, ...]
    circuits: tuple[JoinedCircuit, ...]


def status_of(tie: Tie) -> TieStatus:
    """That of now."""
    circuits, has_site = {n: its for n, its in tie.circuits.items() if n in tie.there}, tie.far is not None
    return TieStatus(
        round(time.time(), 3), round(time.monotonic() - tie.start, 3), tie.options.control, tie.link, tie.trunk.is_up,
        has_site, tie.out_of_service, tie.far_out_of_service, sum(each.state in IN_CALL for each in circuits.values()),
        tie.given_up, tuple(CommandCount(*words, count) for words, count in tie.done.items()),
        tuple(JoinedCircuit(n, tie.there[n], its.role, its.state, its.far.state if its.far and has_site else None,
                            its.over, its.kept, its.stuck) for n, its in circuits.items()))


def table(status: TieStatus) -> str:
    """A tie for people."""
    here, there = ('out of service' if dark else 'in service' for dark in (status.dark, status.far_dark))
    return '\n'.join([
        f'tie of {status.control}, up {status.uptime:.0f} s: link {status.link.value}',
        f'this trunk: {here if status.trunk else "not connected"}; the other site: '
        + (f'connected, its trunk {there}' if status.site else 'not connected'),
        f'circuits joined {len(status.circuits)}, calls {status.calls}, calls given up {status.given_up}', HEAD,
        *(each.line() for each in status.circuits), ''])


def exposition(status: TieStatus) -> str:
    """The metrics of a tie."""
    ends = {'this': status.dark} | ({'other': status.far_dark} if status.site else {})
    families: list[Family] = [
        ('e1gw_tie_link', 'The connection between the two trunks: 1 for the state that it is in.',
         [({'state': each.value}, each is status.link) for each in LinkState]),
        ('e1gw_tie_connected', '1 where there is a connection.',
         [({'to': 'trunk'}, status.trunk), ({'to': 'site'}, status.site)]),
        ('e1gw_tie_out_of_service', '1 while a trunk carries no calls.',
         [({'end': end}, dark) for end, dark in ends.items()]),
        ('e1gw_tie_circuits', 'Joined circuits by the state of the line here.',
         [({'state': state}, n) for state, n in Counter(each.state for each in status.circuits).items()]),
        ('e1gw_tie_calls', 'Calls on joined circuits.', status.calls),
        ('e1gw_tie_calls_given_up_total', 'Calls that could not be set up, or that were lost.', status.given_up),
        ('e1gw_tie_commands_total', 'Commands by answer.',
         [({'command': each.command, 'answer': each.answer}, each.count) for each in status.commands])]
    return text_of(families, {})


def texts_of(tie: Tie) -> StatusTexts[TieStatus]:
    """The texts of the status of now."""
    return StatusTexts(status_of(tie), table, exposition)


async def serve_status(tie: Tie, path: str | None, http: tuple[str, int] | None) -> None:
    """Gives the status of a tie, at a Unix socket and over HTTP. OSError or CannotListen where it cannot."""
    async def fresh() -> StatusTexts[TieStatus]:
        return texts_of(tie)

    async def answer_commands(reader: asyncio.StreamReader, writer: asyncio.StreamWriter) -> None:
        with suppress(OSError, ValueError):
            async with asyncio.timeout(SECONDS):
                while line := await reader.readline():
                    now = texts_of(tie)
                    texts = {'status': now.table, 'status json': now.json, 'metrics': now.metrics}
                    words = ' '.join(line.decode(errors='replace').split())
                    answer = texts.get(words) or NO_COMMAND.lines(words[:40])
                    writer.write(f'{answer.rstrip()}\n\n'.encode())
                    await writer.drain()
        writer.close()

    def on_connect(reader: asyncio.StreamReader, writer: asyncio.StreamWriter) -> None:
        tasks.begin(answer_commands(reader, writer))    # (asyncio would report a coroutine that is cancelled)
    tasks = Tasks()
    if path:
        await asyncio.start_unix_server(on_connect, sock=unix_listener(path, MODE, None), limit=MOST_LINE)
    if http:
        await asyncio.start_server(WebServer(fresh).on_connect, *http, limit=MOST_REQUEST)
