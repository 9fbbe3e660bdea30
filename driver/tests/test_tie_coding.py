"""Which codec a circuit of a tie is given, and when: one change at a time, without a clock."""
from __future__ import annotations

import asyncio
import unittest
from typing import Any, Coroutine

from .ties import G726, PCMA
from e1gw_common.answers import DONE, CommandAnswer, refused
from e1gw_common.report import Report
from e1gw_common.lines import LineStatus, State
from e1gw_tie.coding import CircuitCoding, CodecChanges, Coding
from e1gw_tie.events import CodecGiven, Warned
from e1gw_tie.trunk import FollowedTrunk, TrunkCircuit, TrunkFlow

OWN = Coding('pcma', 100)
TALKS, SILENT = (State.ANSWERED, State.CLEAREDBACK), (State.IDLE, State.ACKED, State.RELEASING, State.BLOCKED)


def followed(law: str, *circuits: TrunkCircuit) -> FollowedTrunk:
    return FollowedTrunk('a', law, True, TrunkFlow(False), {}, {}, circuits)


class WantedCodingTests(unittest.TestCase):
    def test_what_is_needed(self) -> None:
        """G.711 until the answer where both sites have it; what is there, was refused or is under way is not asked."""
        rows: list[tuple[CircuitCoding, str | None, str | None, Coding | None, Coding | None]] = [
            (CircuitCoding(G726, G726), 'pcma', 'pcma', PCMA, None),
            (CircuitCoding(G726, G726), 'pcmu', 'pcmu', Coding('pcmu', 0), None),
            (CircuitCoding(G726, PCMA), 'pcma', 'pcma', None, G726),
            (CircuitCoding(G726, PCMA), 'pcma', None, G726, G726), (CircuitCoding(G726, PCMA), None, None, G726, G726),
            (CircuitCoding(G726, PCMA), 'pcma', 'pcmu', G726, G726),
            (CircuitCoding(OWN, OWN), 'pcma', 'pcma', None, None),
            (CircuitCoding(G726, G726, PCMA), 'pcma', 'pcma', None, None),
            (CircuitCoding(G726, PCMA, G726), 'pcma', 'pcma', None, None),
            (CircuitCoding(G726, OWN, is_changing=True), 'pcma', 'pcma', None, None)]
        for circuit, own, far, silent, talks in rows:
            for states, wanted in ((SILENT, silent), (TALKS, talks)):
                self.assertEqual({circuit.wanted(state, own, far) for state in states}, {wanted}, circuit)


class CodecChangesTests(unittest.TestCase):
    """A trunk that answers at once; `events` has what is told, `looked` which circuits are looked at again."""

    is_up = True

    def setUp(self) -> None:
        self.asked, self.events = list[str](), list[Report]()
        self.looked = list[int]()
        self.answers: list[CommandAnswer | None] = [DONE] * 9

    def begin(self, task: Coroutine[Any, Any, None]) -> None:
        with self.assertRaises(StopIteration):
            task.send(None)

    async def answer(self, command: str) -> CommandAnswer | None:
        self.asked.append(command)
        return self.answers.pop(0)

    def put_report(self, report: Report) -> None:
        self.events.append(report)

    def changes(self, asked: str | None = 'pcma', law: str = 'A', far: str | None = 'pcma', hears: bool = True,
                **codings: Coding) -> CodecChanges:
        trunk: Any = self
        made = CodecChanges(asked, trunk, self.put_report, self.looked.append)
        made.begin(followed(law, *(TrunkCircuit(line=LineStatus(
            int(n[1:]), configured_codec=its.codec, configured_payload=its.payload, codec='pcmu'))
            for n, its in codings.items())))
        made.on_far_codec(far) if hears else None
        return made

    def test_warnings(self) -> None:
        wrong = 'calls use their configured codec from the start: '
        rows: tuple[tuple[dict[str, Any], str | None, str | None], ...] = (
                ({'asked': None}, None, None), ({}, 'pcma', None),
                ({'law': 'mu'}, None, 'pcma does not match the law of this trunk'),
                ({'c1': Coding('g726-16', 8), 'c2': G726, 'c3': PCMA, 'c4': Coding('pcmu', 0)}, None,
                 'the payload type of circuits 1, 4 is not in 96 to 127'),
                ({'far': None}, 'pcma', 'the other site has no --until-answer'),
                ({'far': 'pcmu'}, 'pcma', 'the other site has --until-answer pcmu'))
        for more, own, about in rows:
            self.setUp()
            made = self.changes(**more)
            made.on_far_codec(more.get('far', 'pcma'))
            self.assertEqual((made.own, self.events), (own, [Warned(wrong + about)] if about else []), more)

    def test_changes(self) -> None:
        """Each is told, and the circuit is looked at again; a refused one is asked again once another was needed."""
        made = self.changes(c1=G726, c2=G726)
        made.give_codec(1, State.IDLE)
        made.give_codec(1, State.ACKED)
        made.give_codec(3, State.IDLE)
        self.answers[:2] = [refused('not now'), DONE]
        made.give_codec(1, State.ANSWERED)
        made.give_codec(1, State.CLEAREDBACK)
        made.give_codec(1, State.IDLE)
        self.assertEqual(self.asked, ['codec 1 pcma 8 auto', 'codec 1 g726-16 96 auto'])
        made.on_codec(1, Coding('pcmu', 0))
        made.on_codec(9, Coding('pcmu', 0))
        made.give_codec(1, State.IDLE)
        made.give_codec(1, State.ANSWERED)
        self.assertEqual(self.asked[2:], ['codec 1 pcma 8 auto', 'codec 1 g726-16 96 auto'])
        self.assertEqual(self.events, [CodecGiven(1, 'pcma', 8, 'done'), CodecGiven(1, 'g726-16', 96, 'not now'),
                                       CodecGiven(1, 'pcma', 8, 'done'), CodecGiven(1, 'g726-16', 96, 'done')])
        self.assertEqual(self.looked, [1] * 4)
        made.on_codec(1, PCMA)
        made.give_codec(1, State.IDLE)
        self.assertEqual(len(self.asked), 4)

    def test_without_a_trunk_or_a_site(self) -> None:
        """Nothing is asked; without an answer it is as if it had not been."""
        made = self.changes(c1=G726)
        self.is_up = False
        made.give_codec(1, State.IDLE)
        self.is_up, self.answers[:1] = True, [None]
        made.give_codec(1, State.IDLE)
        self.assertEqual((self.asked, self.events, self.looked), (['codec 1 pcma 8 auto'], [], []))
        made.give_codec(1, State.IDLE)
        self.assertEqual(self.looked, [1])
        made.begin(followed('mu'))       # (another trunk)
        self.assertIsNone(made.own)
        self.changes(hears=False, c1=Coding('pcmu', 97)).give_codec(1, State.IDLE)
        self.assertEqual(len(self.asked), 2)

    def test_one_at_a_time(self) -> None:
        made = self.changes(c1=G726)
        tasks = list[Coroutine[Any, Any, None]]()
        setattr(self, 'begin', tasks.append)
        made.give_codec(1, State.IDLE)
        made.give_codec(1, State.ANSWERED)
        made.on_codec(1, PCMA)       # (it is of before the answer)
        self.assertEqual(len(tasks), 1)
        self.answers[:1] = [refused('not now')]
        with self.assertRaises(StopIteration):
            tasks[0].send(None)
        made.give_codec(1, State.ANSWERED)
        self.assertEqual(len(tasks), 2)
        tasks[1].close()

    def test_leave(self) -> None:
        made = self.changes(c1=G726, c2=G726, c3=Coding('pcmu', 0), c4=G726)
        asyncio.run(made.restore([1, 3, 4, 5]))
        self.assertEqual(self.asked, ['codec 1 g726-16 96 auto', 'codec 4 g726-16 96 auto'])
        made.give_codec(2, State.IDLE)
        self.assertEqual((len(self.asked), self.looked), (2, [1, 4]))
        self.is_up = False
        asyncio.run(self.changes(c1=G726).restore([1]))
        self.assertEqual(len(self.asked), 2)
