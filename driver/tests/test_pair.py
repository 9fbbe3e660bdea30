"""Two machines of one trunk, as the watcher of one of them has it: what it asks the holder, which is played, and what
follows from the role that the holder has."""
from __future__ import annotations

import asyncio
import os
from types import SimpleNamespace
from typing import Any
from unittest import mock

from . import support
from e1gw_common.answers import DONE, AnswerWord, CommandAnswer, refused
from e1gw.holder_state import ACTIVE, STANDBY, TrunkPlaces, start_of
from e1gw.watcher import ask_holder, pair
from e1gw.watcher.pair import NOT_TAKEN, REVERSE, TrunkPair


class PairTests(support.LoopCase):
    async def asyncSetUp(self) -> None:
        await super().asyncSetUp()
        self.state = SimpleNamespace(role=STANDBY, program=0, started=start_of(os.getpid()))
        state = self.state
        self.trunk = mock.Mock(state=state, **{
            'places.return_value': TrunkPlaces(self.folder), 'stands_by': lambda: state.role == STANDBY,
            'carried_by': lambda: state.program if state.role == ACTIVE else 0})
        self.trunk.reader.last.return_value = None
        self.standby = mock.Mock(fed=None, why='', fill=mock.AsyncMock(), run=self.is_fed)
        self.feed = mock.Mock(is_carried=False, hands_over=False, finish=mock.AsyncMock(),
                              is_up_to_date=mock.AsyncMock())
        self.feed.age.return_value = self.standby.age.return_value = 0.5
        self.asked, self.runs, self.holds = list[str](), list[str](), asyncio.Event()
        self.holds.set()
        self.enterContext(mock.patch.object(ask_holder, 'ask_within', self.heard))
        self.its = TrunkPair(self.trunk, self.standby, self.feed)
        self.addCleanup(self.its.close)

    async def heard(self, path: str, words: str, seconds: float) -> str:
        """The holder, which has the role that it is asked for once it is let."""
        self.asked.append(words)
        await self.holds.wait()
        its = words.split()[0]
        self.state.role, self.state.program = (ACTIVE, os.getpid()) if its == 'take' else (STANDBY, 0)
        return f'{its}: done'

    async def is_fed(self) -> None:
        self.runs.append('begins')
        try:
            await asyncio.sleep(support.SECONDS)
        finally:
            self.runs.append('ends')

    def fed(self, number: int | None = None) -> Any:
        self.standby.fed = mock.Mock(place=3, octets=9, circuits=[], **{'next_packet_number.return_value': number})
        return self.standby.fed

    async def test_promoted(self) -> None:
        """It is fed no more before it fills what it has, and writes no more before the holder is asked, which is told
        the next packet's number."""
        for number, words in (None, 'take'), (0, 'take 0'):
            self.state.role, self.state.program, self.asked[:], self.runs[:] = STANDBY, 0, [], []
            self.fed(number).unlock.side_effect = lambda: self.runs.append(f'unlocks before {self.asked}')
            self.its.follow_role()
            await asyncio.sleep(0)
            self.standby.fill.side_effect = lambda: self.runs.append('fills')
            self.assertEqual(await self.its.change('promote'), DONE)
            self.assertEqual((self.asked, self.runs), ([words], ['begins', 'ends', 'fills', 'unlocks before []']))
            self.trunk.reader.switch_log.assert_called_with((3, 9))
            self.standby.publish.assert_called_with(None)

    async def test_asked_twice_and_the_reverse(self) -> None:
        """The same is done once; the reverse ends it."""
        self.holds.clear()
        both = [asyncio.create_task(self.its.change('promote')) for _ in range(2)]
        await self.until(lambda: self.asked)
        demotes = asyncio.create_task(self.its.change('demote'))
        await self.until(lambda: len(self.asked) == 2)
        self.assertEqual([await each for each in both], [refused(REVERSE)] * 2)
        self.holds.set()
        self.assertEqual((await demotes, self.asked), (DONE, ['take', 'release']))
        self.feed.finish.assert_awaited_once()
        self.assertTrue(self.trunk.reader.rests)

    async def test_before_the_holder_answers(self) -> None:
        """What it has done is told: the addresses of the trunk come while its program starts."""
        self.holds.clear()
        promotes = asyncio.create_task(self.its.change('promote'))
        await self.until(lambda: self.asked and self.trunk.follow_holder.call_count)
        self.assertFalse(promotes.done())
        self.holds.set()
        self.assertEqual(await promotes, DONE)

    async def test_somebody_else_takes_it(self) -> None:
        """It is fed no more, and its log is read from where it was fed to."""
        self.fed()
        self.its.follow_role()
        await asyncio.sleep(0)
        self.state.role, self.state.program = ACTIVE, os.getpid()
        self.its.follow_role()
        await asyncio.sleep(0)
        self.assertEqual((self.runs, self.asked), (['begins', 'ends'], []))
        self.trunk.reader.switch_log.assert_called_once_with((3, 9))
        self.standby.publish.assert_called_once_with(None)
        self.assertEqual(self.its.role(), 'active, fed')

    async def test_while_its_program_ends(self) -> None:
        """Somebody has had the holder release it: it is active until then, and knows what it had once that is whole."""
        self.state.role, self.state.program = STANDBY, os.getpid()
        self.its.follow_role()
        await asyncio.sleep(0)
        self.assertEqual((self.runs, self.its.facts().role), ([], 'active'))
        self.assertEqual(await self.its.change('promote'), DONE)
        self.standby.fill.assert_not_awaited()
        self.trunk.reader.switch_log.assert_not_called()

    async def test_moved(self) -> None:
        """The feed says so meanwhile; what nobody takes comes back, with what this machine had."""
        for is_carried, answer in (True, DONE), (False, refused(NOT_TAKEN)):
            self.state.role, self.state.program, self.asked[:] = ACTIVE, os.getpid(), []
            self.feed.is_carried = False
            self.its.follow_role()
            said = list[bool]()

            async def finish(seconds: float) -> None:
                said.append(self.feed.hands_over)
                self.feed.is_carried = is_carried
            self.feed.finish = finish
            with mock.patch.object(self.its, '_own_state') as own:
                self.trunk.reader.last.return_value = mock.Mock()
                self.assertEqual(await self.its.change('move'), answer)
                self.assertEqual((said, self.feed.hands_over), ([True], False))
                self.standby.publish.assert_any_call(own.return_value)
            self.assertEqual(self.asked, ['release'] if is_carried else ['release', 'take'])

    async def test_what_is_refused(self) -> None:
        """A move without a standby that answers, and what no holder hears."""
        self.assertEqual(await self.its.change('move'), refused('no standby is fed here'))
        self.state.role, self.state.program = ACTIVE, 0
        self.assertEqual(self.its.role(), 'active, fed, no program')
        self.state.program = os.getpid()
        self.feed.is_up_to_date.return_value = False
        self.assertEqual(await self.its.change('move'), refused('no standby is fed here'))
        for fault, answer in (
                (TimeoutError(), CommandAnswer(AnswerWord.UNKNOWN, 'the holder does not answer within 30 s')),
                (ConnectionRefusedError(111, 'x'), refused(f'there is no holder: {self.folder}/hold: x'))):
            with mock.patch.object(ask_holder, 'ask_within', side_effect=fault), \
                    mock.patch.object(pair, 'PATIENCE', 30.0):
                self.assertEqual(await self.its.change('demote'), answer)
        self.assertEqual(self.asked, [])
