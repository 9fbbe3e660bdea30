"""What an operator has of a trunk: status, commands, events, pages, metrics, a line for each call, and what is done
with calls by themselves (jitter buffers, --dark, --on-loss). All of it may fail, and the trunk goes on."""
from __future__ import annotations

import asyncio
import contextlib
import logging
import os
import sys
import time
from collections import Counter, deque
from dataclasses import dataclass, field, replace
from itertools import islice

from e1gw_common.answers import DONE, AnswerWord, CommandAnswer, CommandCount, refused_by
from e1gw_common.call_lines import FIELDS
from e1gw_common.line_files import EventFile, has_line
from e1gw_common.lines import Role, State
from e1gw_common.report import json_line
from e1gw_common.session import CIRCUITS, Codec, Command, codec_record, command_record
from e1gw_common.tasks import Tasks, retry, run_periodically, report_failure, log_failure
from e1gw_common.unix_listener import CannotListen, unix_listener
from e1gw_common.web import MOST_REQUEST, web_listener
from ..calls import CallsNote
from ..clearing import DisconnectWatch, OutageWatch, on_loss_of
from ..clock import ClockFinding
from ..counts import DatagramCounts
from ..deaf import DeafCalls
from ..events import (LAST, Burst, CallsCleared, CommandGiven, Event, LineChanged, RateChanged, ReadEvent, ReadEvents,
                      Slip, WatchEnded, WrongRate)
from ..files_status import FilesStatus
from ..resyncs import Resyncs
from ..status import TrunkStatus
from .commands import MOST_LINE, CommandServer
from .connection import NoAnswer, ProgramConnection
from .blocks import BlockWatch
from .codecs import CodecWatch
from .idle_reloads import IdleReloadWatch
from .journal import NOTICE, tell_journal
from .page import PageNotes
from .http_pages import TrunkPages, TrunkServer
from .tell_client import WATCH, TellClient
from .trunk import WatchedTrunk

TICK = 0.24                 # seconds between two looks
BESIDE = 'json', 'calls'    # what may end without the calls
NOTED = 1000                # lines of calls that are not written yet, which a note has

logger = logging.getLogger(__name__)


@dataclass(kw_only=True)
class WatchWants:
    """What an operator wants to have of a trunk: options of e1gw-watch(1). `picture` are the words of the command that
    draws the last seconds, `kept` those by which e1gw-call finds a call behind its id, if calls are kept."""

    name: str
    control: str | None = None
    control_mode: int = 0o660
    control_group: str | None = None
    http: tuple[str, int] | None = None
    json: str | None = None
    calls: str | None = None
    session: str | None = None
    config: str = ''
    dark: float | None = None
    on_loss: list[str] = field(default_factory=lambda: ['keep'])
    picture: list[str] = field(default_factory=list)
    kept: str | None = None

    def files(self) -> FilesStatus:
        calls, events, session = (path and os.path.abspath(path) for path in (
            self.calls, None if self.json == '-' else self.json, self.session))
        return FilesStatus(os.path.abspath(self.config), calls, events, session, self.http)


@dataclass(frozen=True)
class ShownNote:
    """What pages show beside the status: the last events; alarms that stand, by what they are; the lines of the last
    calls; circuits that hear nothing, with the cause; how many jitter buffers were resynchronised, and how many
    commands had which answer."""

    last: tuple[tuple[str, float], ...]
    alarms: tuple[tuple[str, str, float], ...]
    ended: tuple[str, ...]
    deaf: dict[int, str] = field(default_factory=dict)
    resyncs: int = 0
    commands: tuple[tuple[str, str, int], ...] = ()


class TrunkWatch:
    """One trunk that is watched."""

    def __init__(self, wants: WatchWants, trunk: WatchedTrunk) -> None:
        self.wants, self.trunk, self._loop = wants, trunk, asyncio.get_running_loop()
        self._is_over = True                    # the trunk has ended, once this one does
        self.ended: dict[str, str | None] = dict.fromkeys(BESIDE)
        self._restarts = Resyncs(self.restart, self.report_event)
        self.counts = DatagramCounts(report_failure(self._restarts.count_answers, WATCH))
        self._deaf = DeafCalls(self.report_event)
        self.client = TellClient(trunk, wants.name, self.report_event, self.counts, self._put_call)
        self._state = self.client.state
        trunk.reader.found, trunk.reader.told = self.on_clock_finding, lambda: self._state.place
        trunk.reader.took, trunk.reader.missed = self.counts.take_records, self.counts.skip
        self._program = ProgramConnection(lambda: trunk.places().control, self.client.set_connected, self.client.wake,
                                          lambda: trunk.facts().fault)
        self._state.on_command_told = report_failure(self._program.on_command_told, WATCH)
        self._events, self._ended_calls = ReadEvents(), deque[str](maxlen=LAST)
        self.pages = TrunkPages(self.known_status, self.client.take_now, list(self._state.lines.values()),
                                PageNotes(self._events.last, self._ended_calls, wants.kept))
        self._server = CommandServer(self)
        self.blocks = BlockWatch(trunk.blocks(), self._state, self.give_command, self.report_event)
        self._reloads = IdleReloadWatch(trunk, self._state)
        self.codecs = CodecWatch(self._state, self.give_codec, lambda n: self.blocks.is_busy(n)
                                 or n in self._reloads.waiting(), lambda: self.client.changed())
        self.client.is_followed = lambda: bool(self._server.followers() or self.blocks.kept.now.not_yet_blocked())
        self.client.waiting = lambda: [*islice(self._calls.waiting, NOTED)] if self._calls else []
        self.disconnects = DisconnectWatch(on_loss_of(wants.on_loss), self.clear_all)
        self._outages = OutageWatch(wants.dark, self.clear_all)
        self._done, self._resyncs = Counter[tuple[str, str]](), 0
        self._json = EventFile('json', sys.stdout if wants.json == '-' else wants.json, self._note) \
            if wants.json else None
        self._calls = EventFile('calls', wants.calls, self._note, ','.join(FIELDS)) if wants.calls else None
        self._tasks = Tasks()
        self._listens: asyncio.Server | None = None     # at the control socket

    # ---- what is done with calls ----

    async def command(self, record: bytes, circuit: int, words: str) -> CommandAnswer:
        """Has the program do a command of a circuit."""
        try:
            with self.blocks.under_way(circuit):
                refusal = (await self._program.ask(record, self.client.report_connection)).refusal
            answer = refused_by(refusal, circuit, self._state.lines[circuit].role) if refusal else DONE
        except NoAnswer as fault:
            answer = CommandAnswer(AnswerWord.UNKNOWN if fault.is_given else AnswerWord.REFUSED, str(fault))
        self.count(circuit, words, answer.short)
        return answer

    async def give_command(self, circuit: int, command: Command) -> CommandAnswer:
        return await self.command(command_record(circuit, command), circuit, command.word)

    async def give_codec(self, circuit: int, codec: str, payload: int) -> CommandAnswer:
        return await self.command(self._codec_record(circuit, codec, payload), circuit, f'codec {codec} {payload} auto')

    def _codec_record(self, circuit: int, codec: str, payload: int) -> bytes:
        return codec_record(circuit, next(each for each in Codec if each.word(self._state.law) == codec), payload)

    def count(self, circuit: int, words: str, text: str) -> None:
        self._done[words.split()[0], text] += 1
        self.report_event(CommandGiven(circuit, words, text))

    def clear_all(self, why: str, blocks: bool = False) -> None:
        """Ends all calls that this end can end: clear at the outgoing end, clear-back at the incoming one. `blocks`
        blocks idle circuits at the incoming end, too."""
        cleared = []
        for n, line in self._state.lines.items():
            command = line.ending()
            if blocks and line.role is Role.INCOMING and line.state is State.IDLE:
                command = Command.BLOCK
            if command:
                self._tasks.begin(self.give_command(n, command))
                cleared += [n] * (command is not Command.BLOCK)
        if cleared:
            self.report_event(CallsCleared(why, tuple(cleared)))

    def restart(self, circuits: list[int]) -> None:
        """Gives open circuits the codec that they have, which restarts their playout."""
        for n in circuits:
            line = self._state.lines[n]
            self._tasks.begin(self._renew(self._codec_record(n, line.codec, line.payload)))
        self._resyncs += len(circuits)

    async def _renew(self, record: bytes) -> None:
        with contextlib.suppress(NoAnswer):     # (the next program may have another configuration)
            await self._program.ask(record, lambda: None, waits=False)

    def restore_note(self, note: CallsNote) -> None:
        """Goes on with the calls of the watcher before this one, some of whose lines it may not have written."""
        self.client.restore_note(note)
        for line in note.lines:
            if self._calls and self.wants.calls and not has_line(self.wants.calls, line):
                self._calls.write_line(line)

    def page_notes(self) -> ShownNote:
        """What pages show beside the status."""
        alarms = ((key, each.words, each.time) for key, each in self._events.active_alarms().items())
        last = ((each.words, each.time) for each in self._events.last)
        commands = ((*words, count) for words, count in self._done.items())
        return ShownNote((*last,), (*alarms,), (*self._ended_calls,), self._deaf.causes, self._resyncs, (*commands,))

    def restore_shown(self, note: ShownNote) -> None:
        """Pages show it again."""
        self._events.restore((ReadEvent(*each) for each in note.last),
                           {key: ReadEvent(words, at) for key, words, at in note.alarms})
        self._ended_calls.extend(note.ended)
        self._deaf.restore_causes(note.deaf)
        self._resyncs = note.resyncs
        self._done.update({(command, answer): count for command, answer, count in note.commands})
        self.trunk.reader.clock.rate.is_wrong = WrongRate.name in self._events.active_alarms()

    def _put_call(self, line: str) -> None:
        pair = self.trunk.facts().pair
        if not (pair and pair.stands_by):
            self._ended_calls.appendleft(line)
            if self._calls:
                self._calls.write_line(line)

    # ---- reports ----

    def report_event(self, event: Event) -> None:
        """Tells a change to the journal and to all who follow. One that fails takes it from no other."""
        if isinstance(event, LineChanged):
            report_failure(self.trunk.reader.read, WATCH)()        # (what came up to the end of a call is counted)
            event = replace(event, call=self._call_of(event))
            self._loop.call_soon(self.blocks.block_due)
            if event.state is not State.ANSWERED:
                self._deaf.forget(event.circuit)
            self._loop.call_soon(self.codecs.restore_codecs)
        for hears in tell_journal, self._show, self._tell_followers:
            report_failure(hears, WATCH)(event)

    def _call_of(self, event: LineChanged) -> str | None:
        try:
            return self.client.calls.on_state_change(event) or None
        except Exception as fault:      # pylint: disable=broad-exception-caught
            log_failure(WATCH, fault)
            return None

    def _show(self, event: Event) -> None:
        self._events.take(event, time.time())
        self.pages.mark_stale()

    def _tell_followers(self, event: Event) -> None:
        text = json_line(event, place=self.trunk.place())
        for peer in self._server.followers():
            peer.send_line(text)
        if self._json:
            self._json.write_line(text)

    def on_clock_finding(self, finding: ClockFinding) -> None:
        """What was found of the flow: octets that were lost or came too early, or another rate."""
        if finding.what == 'rate':
            return self.report_event(RateChanged(round(finding.value, 1)))
        if finding.what in ('wrong rate', 'right rate'):
            return self.report_event(WrongRate(finding.what == 'wrong rate', round(100 * finding.value, 2)))
        seconds, since = round(finding.value, 3), finding.since
        since = since and round(time.time() - time.monotonic() + since, 3)
        self.report_event(Slip(seconds, since) if finding.what == 'gap' else Burst(seconds))
        self._restarts.request(self._state.open_circuits(), f'{finding.what} of {seconds} s')

    def _note(self, what: str, why: str | None) -> None:
        """From any thread: something other than the calls has ended, or goes on."""
        self._loop.call_soon_threadsafe(self.set_ended, what, why)

    def set_ended(self, what: str, why: str | None) -> None:
        """Why something other than the calls has ended, or that it goes on; they go on."""
        self.ended[what] = why
        if why:
            self.report_event(WatchEnded(what, why))
        else:
            logger.log(NOTICE, '%s: written again', what)

    def known_status(self) -> TrunkStatus:
        """All that is known."""
        now, facts, client, blocks = time.time(), self.trunk.facts(), self.client, self.blocks.kept.now
        return TrunkStatus(
            name=self.wants.name, version=facts.version, senders=facts.senders, time=round(now, 3),
            uptime=0.0 if facts.fault else round(now - facts.since, 3), fault=facts.fault or None,
            files=self.wants.files(), told=client.told_status(), pair=facts.pair, transport=facts.transport,
            crc4=facts.crc4, clock=client.flow.status(self.trunk.flow()), calls=(*client.calls.open_calls(),),
            alarms=(*self._events.active_alarms().values(),),
            circuits=tuple(replace(row, blocked=blocks.word(n), deaf=self._deaf.causes.get(n))
                           for n, row in zip(CIRCUITS, self._state.rows())),
            waiting=facts.waiting, ended=self.ended | {'session': facts.session}, stale=self.counts.stale(),
            renewed=self._resyncs, log_losses=facts.log_losses,
            commands=tuple(CommandCount(*words, count) for words, count in sorted(self._done.items())))

    # ---- the whole ----

    async def open(self) -> None:
        """Opens what others connect to. OSError or CannotListen if it can't be."""
        wants = self.wants
        if wants.control:
            await self._listen(wants.control)
        if wants.http:
            server = TrunkServer(self.pages.fresh, wants.http[0], wants.picture)
            await asyncio.start_server(server.on_connect, sock=web_listener(*wants.http),
                                       limit=MOST_REQUEST)

    async def _listen(self, path: str) -> None:
        listener = unix_listener(path, self.wants.control_mode, self.wants.control_group)
        if self._listens:
            self._listens.close()
        self._listens = await asyncio.start_unix_server(self._server.on_connect, sock=listener, limit=MOST_LINE)

    async def _reopen_listener(self, path: str) -> None:
        with contextlib.suppress(OSError, CannotListen):
            await self._listen(path)

    async def run(self) -> None:
        """Watches, until it is cancelled. Whatever fails is begun again."""
        works = self.client.run, self._program.run
        try:
            with run_periodically(TICK, self._check, WATCH):
                await asyncio.gather(*(retry(work, WATCH) for work in works))
        finally:
            self._close()

    def _check(self) -> None:
        """A few times a second: whether octets come, what is to become of calls, and whether somebody has removed the
        control socket."""
        now = time.monotonic()
        if self.wants.control and not os.path.lexists(self.wants.control):
            self._tasks.begin(self._reopen_listener(self.wants.control))
        self.client.look_at_flow(now)
        if self._state.live:
            self._deaf.update_hearings(self._state.place, self.counts.listen_to({
                n: line.codec for n, line in self._state.lines.items() if line.state is State.ANSWERED}))
        self._restarts.restart_due(now, self._state.place, self._state.open_circuits(), not self.counts.stale())
        self.disconnects.clear_due(now)
        self.blocks.block_due()
        self.codecs.restore_codecs()
        self._reloads.reload_due(now)
        self._outages.clear_due(now, self.client.outage())

    def on_trunk_restart(self) -> None:
        """The trunk goes on behind the end of this one, and so do its calls."""
        self._is_over = False

    def _close(self) -> None:
        if self._is_over:
            self.client.calls.finish()
        for each in (self._json, self._calls):
            if each:
                each.close()
        if self.wants.control:
            with contextlib.suppress(OSError):
                os.unlink(self.wants.control)
