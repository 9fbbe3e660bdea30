"""What is decided of a trunk, over all that may be known; the model of a sequence of deaths is ten lines."""
from __future__ import annotations

import random
import unittest
from unittest import mock

from . import limits, support
from e1gw.holder.decisions import (DEATHS, FIRST_PAUSE, MOST_DEATHS, MOST_PAUSE, TRIED, WITHIN, Deaths)
from e1gw.trial import MOST_ENDED, ReloadEffects
from e1gw.watcher import flow
from e1gw.watcher.flow import Flow, FlowChange
from e1gw.watcher.idle_reloads import IdleReloads


class DecisionTests(unittest.TestCase):
    def test_pauses(self) -> None:
        """Five deaths in two seconds are too many; then there are pauses, up to ten seconds, until one has lived."""
        deaths, now, pauses = Deaths(), 100.0, list[float]()
        for place in range(DEATHS + 9):
            deaths = deaths.with_one(now, False)
            pauses.append(deaths.pause)
            now += deaths.pause + (0.1 if place < DEATHS else 0.01)
        self.assertEqual(pauses, [*[0.0] * (DEATHS - 1), 0.5, 1.0, 2.0, 4.0, 8.0, *[MOST_PAUSE] * 5])
        self.assertEqual(deaths.with_one(now + 100, False).pause, 0.0)

    def test_within_two_seconds(self) -> None:
        self.assertEqual(Deaths((0.0, 0.5, 1.0, 1.5)).with_one(2.0, False).pause, 0.5)
        self.assertEqual(Deaths((0.0, 0.5, 1.0, 1.5)).with_one(2.01, False).pause, 0.0)

    def test_figures_of_the_manual(self) -> None:
        """Of e1gw-trunk(1) and OPERATING.md."""
        self.assertEqual((DEATHS, WITHIN, FIRST_PAUSE, MOST_PAUSE), (5, 2.0, 0.5, 10.0))
        self.assertEqual((MOST_ENDED, MOST_DEATHS, TRIED), (3, 2, 60.0))

    def test_what_a_reload_ends(self) -> None:
        chance = random.Random(f'{self.id()} {support.chance_of(self).random()}')
        for _ in range(300):
            calls, new, ports, then = (frozenset(n for n in range(1, 9) if chance.randrange(2)) for _ in range(4))
            effects = ReloadEffects(calls, new, ports, then)
            for n in range(1, 9):
                self.assertEqual(n in effects.ended_calls, n in calls and n in new)
                self.assertEqual(n in effects.muted_calls, n in calls and n not in new and n in ports and n not in then)
            many = len(effects.ended_calls) + len(effects.muted_calls) > MOST_ENDED
            self.assertEqual((effects.is_refused(False), effects.is_refused(True)), (many, False))

    def test_reloads_of_what_waits(self) -> None:
        """Once a call has ended, one at a time; later if it was refused."""
        fresh = IdleReloads()
        for states, is_due in ('', False), ('answered seized', False), ('answered idle', True):
            self.assertEqual(fresh.is_due(0.0, states.split()), is_due)
        self.assertFalse(fresh.with_request().is_due(1e9, ['idle']))
        for is_done, seconds in ((True, 2.0), (False, 60.0)):
            after = fresh.with_request().with_answer(10.0, is_done)
            self.assertEqual([after.is_due(10.0 + each, ['idle']) for each in (seconds - 0.1, seconds)], [False, True])

    @mock.patch.object(flow, 'QUIET', limits.USUAL['watcher.flow.QUIET'])
    def test_a_stall(self) -> None:
        """It is found after a second, once; what nobody reports is not missed; octets end it."""
        flow, change = Flow(0, 10.0).update(0, 10.99, True)
        self.assertIsNone(change)
        self.assertEqual(flow.update(0, 99.0, False), (flow, None))
        stalled, change = flow.update(0, 11.0, True)
        self.assertEqual((stalled, change), (Flow(0, 10.0, 10.0, 1), FlowChange.STALLED))
        self.assertEqual(stalled.update(0, 50.0, True), (stalled, None))
        self.assertEqual(stalled.update(7, 51.0, False), (Flow(7, 51.0, None, 1), FlowChange.FLOWS))
        self.assertEqual(Flow(7, 51.0, None, 1).update(8, 99.0, True), (Flow(8, 99.0, None, 1), None))
