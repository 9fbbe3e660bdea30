"""The log is read while the program writes it: how octets of the trunk come, by which gaps and another rate are found,
and what is kept of them. Who is overtaken says so, and goes on from the newest state; no call waits for that."""
from __future__ import annotations

import asyncio
import logging
import os
import time
from dataclasses import dataclass, replace
from typing import Callable, Sequence

from e1gw_common.faults import words_of_fault
from e1gw_common.session import OCTETS_A_SECOND, whole_records
from e1gw_common.tasks import run_periodically, reporting_failures
from ..clock import TICK, Clock, ClockFinding
from .journal import NOTICE
from ..log_folder import LogBegun, LogFiles, LogNews, LogPair, LogPiece, LogState
from .open_log import OpenLog
from .recordings import FileBegin, RecordingNote, RecordingWants, TrunkRecording, has_room

AGAIN = 60.0                # seconds between two looks whether a ring that has ended can be written again
MOST_LOST = 0.008           # seconds of the trunk that a program had in hand
MOST_WAIT = 0.25            # seconds for which a program waits for a recording
MOST_FOUND = 4              # pairs of a log, of some more than 1 MiB each

logger = logging.getLogger(__name__)


@dataclass(frozen=True)
class ReadingNote:
    """What the next service has to know of the reading: up to which place of the log that is, and the octet of the
    trunk there; the octet from which on the log is of this machine, and of one configuration; the octets with which
    the last programs began, each with the time of day; when the log was written up to that place; and how many slips
    there were, of how many seconds."""

    place: int = -1
    octets: int = 0
    first: int = 0
    starts: tuple[tuple[int, float], ...] = ()
    written: float = 0.0
    gaps: int = 0
    lost_seconds: float = 0.0


def octets_in(news: Sequence[LogNews]) -> int:
    """The octets of the trunk in what was read."""
    return sum(whole_records(each.octets)[1] for each in news if isinstance(each, LogPiece))


class LogReader:
    """Reads the log of a trunk, in this folder. `note` has what the next service has to know noted, and `config` gives
    that of the program of now. `found` is called with what is found of the flow, and `told` says at which octet the
    trunk is, if the log does not."""

    def __init__(self, folder: str, gap: float, wants: RecordingWants | None, note: Callable[[], None],
                 config: Callable[[], bytes]) -> None:
        self.clock = Clock(time.monotonic(), gap)
        self.found: Callable[[ClockFinding], None] = lambda finding: None
        self.told: Callable[[], int] = lambda: 0
        self.turned: Callable[[], None] = lambda: None      # called at each state that is read
        self.took: Callable[[bytes], None] = lambda octets: None    # .. with records that are read
        self.missed: Callable[[], None] = lambda: None      # .. if others before them were not read
        self.octets = 0                         # of the trunk, up to now
        self.has_missed = False                 # .. too few, since a part of the log was not read: so many, by its time
        self._missed = 0
        self.rests = False                      # the other machine carries the trunk
        self.is_loaded = False                  # the log has begun with a state that was kept elsewhere
        self.first, self.starts = 0, ReadingNote().starts       # (see there)
        self.log, self._wants, self._note, self._config = OpenLog(folder), wants, note, config
        self._written = 0.0                     # when that was written up to which it was read
        self._recording: TrunkRecording | None = None
        self._begun: int | None = None          # the octet of the trunk with which the file of now begins, if any
        self._lost, self._is_cut = 0.0, False
        self._found = list[LogPair]()           # what the log had when this service, and programs, began

    # ---- the log ----

    def restore_note(self, read: ReadingNote, left: RecordingNote | None, files: LogFiles | None = None) -> None:
        """Begins, where the watcher before this one was, with the log that it has left, and with its recording if that
        was of the same and the log has what it lacks."""
        self.log.place, self.octets, self._written = read.place, read.octets, read.written
        self.first, self.starts = read.first, read.starts
        self.clock.gaps, self.clock.lost_seconds = read.gaps, read.lost_seconds
        if files:
            self.log.continue_with(files)
        self._found = self.log.pairs()
        if not (wants := self._wants):
            return
        left = left if left and (left.session, left.keep) == (wants.session, wants.keep) else None
        self._recording = TrunkRecording(wants, self._note, left)
        if left and left.path and any(state.place <= left.place for state in self.log.states()):    # (all behind it)
            self._begun, self.log.place, self.octets = left.begun, left.place, left.octets
            if left.keep and not os.path.exists(f'{left.path}.json'):       # (it had said no more than its name)
                for state in self.log.states():
                    if state.place == left.place:
                        self._see_file(state, True)
            self.log.close()

    def has_log(self, folder: str = '') -> bool:
        """Whether the folder, or another one from now on, has the log that is read; opens one that is there."""
        return self.log.is_there(folder)

    def last(self) -> LogPair | None:
        """What the log has, also if it was taken away."""
        return self.log.last()

    def pairs_since(self, octets: int) -> list[tuple[int, LogPair]]:
        """The pairs of the log that are needed from an octet of the trunk on, as far as it has them, each with the
        octet at its state."""
        self.read()
        its, self._found = {pair.turn: pair for pair in (*self._found, *self.log.pairs())}, []
        pairs = [its[turn] for turn in sorted(its)]
        gaps = [n for n, (pair, behind) in enumerate(zip(pairs, pairs[1:]), 1) if pair.end != behind.place]
        del pairs[:max(gaps, default=0)]
        ats = [self.octets_at(pair, pairs) for pair in pairs]
        first = max((n for n, at in enumerate(ats) if at <= octets), default=0)
        return [*zip(ats, pairs)][first:]

    def octets_at(self, pair: LogPair, pairs: Sequence[LogPair] = ()) -> int:
        """The octet of the trunk at the state of a pair that was read behind the last look, by what was read behind it:
        of this one, or of all that there are."""
        records = b''.join(each.records for each in pairs or (pair,) if each.turn >= pair.turn)
        return self.octets - whole_records(records[:max(0, self.log.place - pair.place)])[1]

    def take_out(self) -> LogPair | None:
        """The same, and gives the room of its files back. What is read next is in other files."""
        with reporting_failures('the reading of the log'):
            self.read()
        last = self.last()
        self.log.close()
        return last

    def switch_log(self, read: tuple[int, int] = (-1, 0), is_loaded: bool = False) -> None:
        """Another log begins, or goes on where another machine was."""
        self.log.close()
        (self.log.place, self.octets), self.is_loaded, self._begun, self.rests = read, is_loaded, None, False
        self.first, self._found = self.octets, []

    def on_next_program(self, lost: bool) -> None:
        """Another program follows; the one before it may have lost what it had in hand. Another file of a ring begins
        with it: who knows how long nobody carried the trunk?"""
        self._lost += MOST_LOST * lost
        self._is_cut = True

    def on_loss(self, octets: int) -> None:
        """The program before the one that has begun with this octet may have lost what it had in hand."""
        if self._recording and self._begun is not None:
            self._recording.slip(octets, MOST_LOST)

    async def keep_older_pair(self) -> None:
        """Before a program starts, whose first state is written over the older pair: keeps that for what is to be told
        of it, and waits a moment until a recording has what is behind. (The one that could say what was not counted is
        no more.)"""
        self.read()
        self.count_on()
        self._found = [*self._found, *self.log.pairs()[:-1]][-MOST_FOUND:]
        self.starts = (*self.starts, (self.octets, time.time()))[-MOST_FOUND:]
        if self._recording and self.log.reader:
            await self._recording.wait_until_written(self.log.reader.base, MOST_WAIT)

    def count_on(self, missed: int | None = None) -> None:
        """So many octets of the trunk were not counted, or as many as its time had, if nobody can say it any more."""
        if self.has_missed:
            self.octets += self._missed if missed is None else missed
        self.has_missed, self._missed = False, 0

    # ---- for the watcher that comes after this one ----

    @property
    def files(self) -> dict[str, int]:
        """The descriptors of the log: it can be read when its folder is gone, too."""
        return self.log.files.files if self.log.files else {}

    def noted(self) -> ReadingNote:
        return ReadingNote(self.log.place, self.octets, self.first, self.starts, self._written, self.clock.gaps,
                           self.clock.lost_seconds)

    def recording_note(self) -> RecordingNote | None:
        recording = self._recording
        return recording.note(self._begun or 0) if recording else None

    def why(self) -> str | None:
        """Why nothing is recorded any more, if that is so."""
        return self._recording.why or None if self._recording else None

    # ---- reading ----

    async def run(self) -> None:
        """Until it is cancelled. Whatever fails is begun again."""
        with run_periodically(TICK, self.read_at_tick, 'the reading of the log'):
            await self._retry_recording()

    def read_at_tick(self) -> None:
        """To be called each TICK, and by nobody else: reads what there is, and looks at the flow. (A look between two
        of these would find octets that are late, or early.)"""
        if self.read():
            for finding in self.clock.find_changes(time.monotonic()):
                if finding.what == 'gap' and self._recording and self._begun is not None:
                    first = max(self.octets - finding.octets, self._begun + 1)      # (what was before has its own file)
                    self._recording.slip(first, round(finding.value, 3))
                self.found(finding)

    def read(self) -> bool:
        """Reads what there is; whether there is a log of this machine."""
        if self.rests or not (self.log.reader or self.has_log() and self.log.reader):
            return False
        before, (its, written) = self.octets, self.log.read_news(self._written)
        for number, news in enumerate(its, 1):
            self._take_news(news, its[number:], written)
        self._written = written
        if self.octets > before:
            self.clock.add_octets(self.octets - before, time.monotonic())
        if any(isinstance(news, LogBegun) for news in its):
            self.clock.restart()
        return True

    def _take_news(self, news: LogNews, behind: Sequence[LogNews], written: float) -> None:
        if isinstance(news, LogPiece):
            self.octets += whole_records(news.octets)[1]
            self.took(news.octets)
            self.log.place = news.place + len(news.octets)
            if self._recording and self._begun is not None:
                self._recording.record(news.octets, self.log.place, self.octets)
            return
        if isinstance(news, LogBegun):
            self._on_overtaken(news, octets_in(behind), written)
            self.missed()
        self.log.place = news.state.place
        self.turned()
        self._see_file(news.state, isinstance(news, LogBegun), octets_in(behind))

    def _on_overtaken(self, news: LogBegun, behind: int, written: float) -> None:
        """The reading begins at a state, perhaps behind what was not seen; these octets of the trunk are behind that,
        and were written up to then. (A log that has begun with a state that was kept is read from there on.)"""
        if news.missed:
            logger.warning('%d octets of the log were not read in time: no event and no recording has them',
                           news.missed, extra={'kind': 'overtaken'})
            passed = min(round((written - self._written) * OCTETS_A_SECOND) - behind, news.missed)
            passed += self.octets + self._missed
            self.octets = max(self.octets, self.told() - behind)
            self.has_missed, self._missed = True, max(0, passed - self.octets)
        elif news.is_anew or self.log.place < 0 and not self.is_loaded:
            self.octets, self.has_missed = max(0, self.told() - behind) * bool(news.state.place), news.state.place > 0

    def _see_file(self, state: LogState, is_break: bool, behind: int = 0) -> None:
        """Another file of a recording begins at a state, if it is to. `behind` octets of the trunk came after it."""
        recording, begun, cuts = self._recording, self._begun, self._is_cut
        if not recording or recording.why:
            return
        self._is_cut = False
        if begun is not None and not is_break:
            if not (cuts and recording.wants.keep or recording.wants.is_long(self.octets - begun)):
                return
        is_new = not state.place and not self.is_loaded
        if not recording.wants.keep and not is_new and (begun is not None or not self.is_loaded):
            return recording.end('a part of the log was not read')
        self._begun, lost, self._lost = self.octets, self._lost, 0.0
        recording.begin(FileBegin(self.octets, state.place, b'' if is_new else state.state, self._config(),
                                  time.monotonic() - behind / OCTETS_A_SECOND, lost))

    # ---- a ring that has ended ----

    async def _retry_recording(self) -> None:
        """A ring that has ended is tried once a minute. If it can be written it goes on from the next state."""
        while True:
            await asyncio.sleep(AGAIN)
            try:
                ended = self._recording
                if ended and ended.wants.keep and ended.why and await self._can_begin(ended):
                    self._begun = None
                    before = replace(ended.note(0), why='', path='')
                    self._recording = TrunkRecording(ended.wants, self._note, before)
                    logger.log(NOTICE, 'the recording begins again')
            except Exception as fault:      # pylint: disable=broad-exception-caught
                logger.warning('the recording does not begin again: %s', words_of_fault(fault))

    async def _can_begin(self, ended: TrunkRecording) -> bool:
        """Whether nothing is left of one that has ended, and there is room for another one."""
        await asyncio.to_thread(ended.close)
        return ended.is_over() and await asyncio.to_thread(has_room, ended.wants.session)

    async def finish(self) -> None:
        """The trunk has ended: all is read and copied."""
        self.read()
        if self._recording:
            await asyncio.to_thread(self._recording.close)
