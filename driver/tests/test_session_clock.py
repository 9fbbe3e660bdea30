"""The time of each place of a kept session: the .json of its files and the journal tell the same."""
from __future__ import annotations

import asyncio
import random
import types
import unittest
from dataclasses import dataclass
from unittest import mock

from . import support
from .logs import WrittenLog
from e1gw_common import session_clock
from e1gw.clock import TICK, ClockFinding
from e1gw.watcher import reader, recordings
from e1gw_common.session import MULTIFRAME, OCTETS_A_SECOND
from e1gw_common.session_clock import FileNote, SessionClock
from e1gw_common.session_files import open_session

RECORD = MULTIFRAME / OCTETS_A_SECOND       # seconds
LATE = TICK + 0.02          # .. by which the begin of a file is seen late, at a look
DAY = 1_800_000_000.0


@dataclass
class Stretch:
    """What happens on a trunk: octets come, then none for `away` seconds. A `new` program carries it from then on,
    which began `early` seconds before the octets came; or another file begins, or another service goes on."""

    flows: float
    away: float = 0.0
    new: bool = False
    early: float = 0.0
    cuts: bool = False
    service: bool = False


# Each ends with octets. By hand: what a file's time and a slip both tell of, and what one of them alone does.
SESSIONS = {
    'the device stands still': [Stretch(3, 5), Stretch(3)],
    'closed and opened again': [Stretch(3, 31.8, new=True), Stretch(3)],
    'opened before octets come': [Stretch(3, 30, new=True, early=4), Stretch(3)],
    'closed for less than an outage': [Stretch(3, 0.4, new=True), Stretch(3)],
    'twice': [Stretch(3, 61.82, new=True), Stretch(3, 61.83, new=True), Stretch(3)],
    'twice, before the flow was steady': [Stretch(3, 30, new=True), Stretch(0.05, 20, new=True), Stretch(3)],
    'a slip soon behind it': [Stretch(3, 31.8, new=True), Stretch(0.7, 0.3), Stretch(3)],
    'another program at once': [Stretch(3, 0.008, new=True), Stretch(3, 12), Stretch(3)],
    'files in between': [Stretch(6, 8, new=True), Stretch(6, cuts=True), Stretch(3, 2), Stretch(6, cuts=True),
                         Stretch(3)],
    'the service ends meanwhile': [Stretch(3, 20, new=True, service=True), Stretch(3, 4), Stretch(3)],
    'the service ends, then an outage': [Stretch(3, service=True), Stretch(2, 9, new=True), Stretch(3)]}


def made(chance: random.Random) -> list[Stretch]:
    """A session of any such steps. (What the service itself does not see, since it begins meanwhile, no file tells.)"""
    steps = []
    for _ in range(chance.randrange(1, 6)):
        away, new = chance.choice((0.0, 0.3, 1.5, chance.uniform(1.2, 90))), chance.random() < 0.6
        service = chance.random() < 0.2 and (new or not away)
        steps.append(Stretch(2.1 + chance.random(), away, new, cuts=chance.random() < 0.3, service=service))
    return [*steps, Stretch(3)]


class KeptSession:
    """A ring that the reader of the logs writes, by a clock of its own, and what is true of it."""

    def __init__(self, folder: str, config: str) -> None:
        self.wants = recordings.RecordingWants(folder, 60, 'west', config, 200)
        self.now, self.log = 5000.0, WrittenLog(f'{folder}.log')
        self.times: list[tuple[int, float]] = []        # of some places, seconds of the day
        self.outages: list[tuple[float, float]] = []    # from when to when octets were missing, if that was an outage
        self.journal: list[ClockFinding] = []           # the gaps that it has
        self.reader = self.service()

    def service(self) -> reader.LogReader:
        """Another service, behind the one that there was."""
        its = reader.LogReader(f'{self.wants.session}.log', 0.1, self.wants, lambda: None, bytes)
        its.found = self.found
        return its

    def found(self, finding: ClockFinding) -> None:
        self.journal += [finding] * (finding.what == 'gap')

    def begin(self, lost: bool) -> None:
        """Another program. (The end of the one before it has the log read.)"""
        self.reader.read_at_tick()
        self.reader.on_next_program(lost)
        self.log.turns()
        self.reader.read_at_tick()

    def go(self, seconds: float, comes: bool = True) -> None:
        """Time goes by, with octets or without."""
        until, due = self.now + seconds - RECORD / 2, self.now + TICK
        while self.now < until:
            self.now += RECORD
            if comes:
                self.log.multiframe()
            if self.now >= due:
                due = self.now + TICK
                self.reader.read_at_tick()

    async def do(self, step: Stretch) -> None:
        self.go(step.flows)
        self.times.append((self.log.octets, self.now + DAY))
        if step.cuts:
            self.log.turns()
        if step.service:
            self.reader.read_at_tick()
            await self.follow()
        begun = self.now
        self.go(step.away - step.early, comes=False)
        if step.new:
            self.begin(step.away < 0.02)
        self.go(step.early, comes=False)
        self.outages += [(begun + DAY, self.now + DAY)] * (step.away >= 1)

    async def follow(self) -> None:
        """The service ends when all is copied, and another one goes on with what it has noted."""
        assert self.reader._recording
        await asyncio.to_thread(self.reader._recording.close)
        before, self.reader = self.reader, self.service()
        self.reader.restore_note(before.noted(), before.recording_note())

    async def end(self) -> None:
        self.reader.read_at_tick()
        await self.reader.finish()
        self.log.close()


class SessionClockTests(support.LoopCase):
    def setUp(self) -> None:
        super().setUp()
        self.config = self.write('west.toml', 'law = "A"\n')

    async def session(self, name: str, steps: list[Stretch]) -> KeptSession:
        """A session that is kept in a folder of this name."""
        its = KeptSession(self.path(name), self.config)
        clock = types.SimpleNamespace(monotonic=lambda: its.now, time=lambda: its.now + DAY)
        with mock.patch.object(reader, 'time', clock), mock.patch.object(recordings, 'time', clock):
            its.reader.restore_note(reader.ReadingNote(), None)
            for step in steps:
                await its.do(step)
            await its.end()
        return its

    async def test_sessions(self) -> None:
        """Sessions with gaps: each octet has the time at which it came, and each outage is told once."""
        chance = support.chance_of(self)
        for name, steps in [*SESSIONS.items(), *((f'made {n}', made(chance)) for n in range(9))]:
            with self.subTest(name, steps=steps):
                its = await self.session(name, steps)
                session = open_session(its.wants.session)
                clock = SessionClock(session.begin, tuple(session.breaks))
                for place, second in its.times:
                    self.assertAlmostEqual(clock.second(place - 1), second, delta=LATE)
                self.told_once(its)
                if not any(step.service for step in steps):     # (a service does not see what was before it)
                    missing = sum(step.away for step in steps if step.away > 0.1)
                    self.assertAlmostEqual(sum(each.value for each in its.journal), missing, delta=0.05)
                    for begin in [(each.since or 0.0) + DAY for each in its.journal if each.value > 1]:
                        self.assertLess(min(abs(begin - first) for first, _ in its.outages), 0.05)

    def told_once(self, its: KeptSession) -> None:
        """The .json tell the outages that there were: from when to when, and for how long."""
        session = open_session(its.wants.session)
        clock = SessionClock(session.begin, tuple(session.breaks))
        told = [(clock.second(each.place) - each.lost, clock.second(each.place), each.lost)
                for each in session.breaks if each.is_outage]
        self.assertEqual(len(told), len(its.outages))
        for (first, last), each in zip(its.outages, told):
            for is_true, is_told, delta in zip((first, last, last - first), each, (LATE, LATE, 0.05)):
                self.assertAlmostEqual(is_true, is_told, delta=delta)


class NotedTwiceTests(unittest.TestCase):
    """What is decided of one file, without any session."""

    def test_slips(self) -> None:
        second = OCTETS_A_SECOND
        rows: list[tuple[str, list[tuple[int, float]], float, tuple[int, float] | None]] = [
            ('none', [], 31.8, None), ('the same', [(second // 8, 31.96)], 31.8, (0, 0.16)),
            ('shorter', [(second // 8, 1.2)], 31.8, None), ('too late', [(3 * second, 31.8)], 31.8, None),
            ('behind another', [(10, 0.3), (second, 31.8)], 31.8, (1, 0.0)),
            ('nothing was missed', [(10, 0.3)], 0.02, None), ('what a program had', [(0, 0.008)], 0.2, None)]
        for name, slips, away, found in rows:
            with self.subTest(name):
                its = FileNote(0, DAY, 1.0, tuple(slips)).repeated_slip(away, away)
                self.assertEqual(its and (its[0], round(its[1], 6)), found)

    def test_when_a_file_was_begun_is_no_jump(self) -> None:
        """It is seen some milliseconds late, each time otherwise; what adds up to a tenth of a second is one."""
        second = OCTETS_A_SECOND
        late = (0.0, 0.012, 0.003, 0.02, 0.07, 0.12)
        breaks = session_clock.breaks_of([FileNote(n * second, DAY + n + each, 100 + n + each, ())
                                          for n, each in enumerate(late)])
        self.assertEqual([(each.place, round(each.seconds, 3)) for each in breaks], [(5 * second, 0.12)])

    def test_a_clock_that_was_set_is_no_outage(self) -> None:
        second = OCTETS_A_SECOND
        breaks = session_clock.breaks_of([FileNote(0, DAY, 100.0, ()),
                                          FileNote(second, DAY - 3568.2, 132.8, ((second + 9, 31.8),))])
        self.assertEqual([(each.place, round(each.seconds, 3), round(each.lost, 3)) for each in breaks],
                         [(OCTETS_A_SECOND, -3569.2, 31.8)])
