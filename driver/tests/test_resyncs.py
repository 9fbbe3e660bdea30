"""Which calls have their playout restarted, by a clock of the test's own."""
from __future__ import annotations

import unittest
from typing import Any

from .properties import PropertyCase
from e1gw.events import Event
from e1gw.resyncs import APART, FIRST, REFUSED, Resyncs
from e1gw_common.session import DatagramRefusal

LATE, FULL = int(DatagramRefusal.LATE), int(DatagramRefusal.FULL)
SECOND = 256_000


class ResyncRuleTests(unittest.TestCase):
    def setUp(self) -> None:
        self.restarted: list[tuple[float, int]] = []
        self.told: list[Event] = []
        self.now = 0.0
        self.rule = Resyncs(lambda circuits: self.restarted.extend((self.now, n) for n in circuits), self.told.append)

    def come(self, code: int, *moments: float, circuits: tuple[int, ...] = (1,)) -> None:
        """Datagrams with this answer, and a look behind each."""
        for self.now in moments:
            for n in circuits:
                self.rule.count_answers(n, code, round(self.now * SECOND), 1)
            self.rule.restart_due(self.now, round(self.now * SECOND), [1, 2], True)

    def test_limits(self) -> None:
        """Of half a second what came in it, without its first moment; half of it, three at least, over a quarter; and
        again after a second, and then two. What came before a restart for another reason does not count."""
        self.come(0, 1.0, 1.01)
        self.come(LATE, 1.25)
        self.come(0, 1.3, 1.375)
        self.come(LATE, 1.4375)
        self.assertEqual(self.restarted, [])
        self.come(LATE, 1.5)
        self.assertEqual(self.restarted, [(1.5, 1)])
        for end in 2.5, 4.5:
            before = len(self.restarted)
            self.come(LATE, end - 0.5, end - 0.25, end - 0.0625, end - 0.001)
            self.assertEqual(len(self.restarted), before)
            self.come(LATE, end)
            self.assertEqual(self.restarted[before:], [(end, 1)])
        self.come(0, *(30 + n / 200 for n in range(80)))
        self.rule.request([1], 'gap')
        self.come(0, 30.5)
        self.come(LATE, 30.5625, 30.625, 30.75)
        self.assertEqual(len(self.restarted), 4)
        self.come(LATE, 30.8125)
        self.assertEqual(self.restarted[3:], [(30.5, 1), (30.8125, 1)])

    def go(self, *stretches: tuple[int, float]) -> None:
        """Datagrams come, with each of these answers for so many seconds."""
        for code, seconds in stretches:
            self.come(code, *(self.now + n / 50 for n in range(1, round(50 * seconds) + 1)))

    def test_refusals_of_another_cause(self) -> None:
        """Behind a second without any it is restarted at once; one that is refused now and then waits."""
        for between, count in ((1.2, 4), (2.0, 4), (0.8, 3), (1.02, 4), (1.0, 3)):
            with self.subTest(between):
                self.setUp()
                self.go((LATE, 3.6), (0, between), (FULL, 0.6))
                self.assertEqual(len(self.restarted), count)
        self.setUp()
        self.go((LATE, 3.6), *[(0, 0.5), (LATE, 0.02)] * 4, (LATE, 0.6))
        self.assertEqual(len(self.restarted), 3)

    def test_a_network_that_is_too_slow(self) -> None:
        """It is restarted less and less often."""
        self.go((LATE, 60.0))
        its = [at for at, _ in self.restarted]
        self.assertEqual([round(later - at) for at, later in zip(its, its[1:])], [1, 2, 4, 8, 10, 10, 10, 10])

    def test_what_is_told(self) -> None:
        """One event for all."""
        self.come(FULL, 1.0, 1.2, 1.4, circuits=(2, 1))
        self.assertEqual([event.words() for event in self.told],
                         [f'jitter buffer resynchronised, {REFUSED}: circuits 1, 2'])


class RememberedCall:
    """All that has come to a call since it was restarted, and when that was: what Resyncs is to know by less."""

    def __init__(self) -> None:
        self.come = list[tuple[int, bool]]()            # places of datagrams, and which of them were refused
        self.good = list[int]()                         # places of those since one was refused
        self.fresh, self.since, self.wanted = False, 0, ''
        self.lost, self.again = -APART, list[float]()   # when it was restarted for lost octets, for the same refusals

    def comes(self, place: int, refused: bool) -> None:
        if place >= self.since:
            self.fresh = True
            self.come.append((place, refused))
            if refused and self.good and self.good[-1] - self.good[0] >= SECOND:
                self.again = []
            self.good = [] if refused else [*self.good, place]

    def due(self, now: float, counts: bool) -> str | None:
        """Why it is restarted."""
        last = [(at, bad) for at, bad in self.come if at > self.come[-1][0] - SECOND // 2]
        bad = [at for at, refused in last if refused]
        half = self.fresh and len(bad) >= max(3, len(last) / 2) and bad[-1] - bad[0] >= SECOND // 4
        may = not self.again or now - self.again[-1] >= min(APART, FIRST * 2 ** (len(self.again) - 1))
        found = 'lost' if self.wanted and now - self.lost >= APART else REFUSED if counts and half and may else None
        self.fresh = False
        return found

    def restarted(self, why: str, now: float, place: int) -> None:
        if why == REFUSED:
            self.again.append(now)
        else:
            self.lost = now
        self.since, self.wanted = place, ''
        self.come.clear()


class ResyncPropertyTests(PropertyCase):
    def test_whatever_comes(self) -> None:
        """Each look restarts the calls that all which has come to them says, and no others. The place of a look may be
        ahead of what was told of datagrams."""
        st = self.st
        steps = st.one_of(
            st.tuples(st.just('come'), st.sampled_from((0, LATE, FULL, 13)), st.sampled_from((0.0, 0.02, 0.1, 0.25))),
            st.tuples(st.just('burst'), st.lists(st.sampled_from((0, LATE)), min_size=1, max_size=4),
                      st.sampled_from((0.3, 0.52, 0.6, 1.02, 1.2))),
            st.tuples(st.just('want'), st.just(0), st.sampled_from((0.0, 0.5))),
            st.tuples(st.just('wait'), st.booleans(), st.sampled_from((0.02, 1.0, 4.0, 10.0))),
            st.tuples(st.just('close'), st.booleans(), st.just(0.02)))

        def check(chosen: list[tuple[str, Any, float]], ahead: int) -> None:
            restarted, call = list[int](), RememberedCall()
            rule, now = Resyncs(restarted.extend, lambda event: None), 0.0
            for what, how, seconds in chosen:
                count = round(seconds / 0.02) if what == 'burst' else 1
                for n in range(count):
                    now += seconds / count
                    code = how[n % len(how)] if what == 'burst' else how
                    place = round(now * SECOND)
                    if what in ('come', 'burst'):
                        rule.count_answers(1, code, place, times := 1 + n % 3)
                        for _ in range(times * (code != 13)):
                            call.comes(place, code != 0)
                    elif what == 'want':
                        rule.request([1], 'lost')
                        call.wanted = 'lost'
                    call = RememberedCall() if what == 'close' else call
                    counts = what != 'wait' or bool(how)
                    why = call.due(now, counts)
                    rule.restart_due(now, place + ahead, [] if what == 'close' else [1], counts)
                    assert restarted == [1] * bool(why), (restarted, why)
                    if why:
                        call.restarted(why, now, place + ahead)
                        restarted.clear()
        self.holds(check, st.lists(steps, max_size=30), st.sampled_from((0, SECOND // 4)))
