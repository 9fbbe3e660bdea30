"""The trunk's time: what comes of octets that stop, that are lost, that come at once, and of other clocks."""
from __future__ import annotations

import unittest

from .properties import PropertyCase
from e1gw.clock import DRIFT, STEADY, TICK, Clock, ClockFinding

RECORD = 0.004
WRONG_AND_RIGHT = ['wrong rate', 'right rate']
BURSTS = [('quiet', 0.06), ('at_once', 0.06), ('go', 0.04)] * 10


class ClockedTrunk:
    """Octets in records of 1,024, four milliseconds each, with a look each TICK."""

    def __init__(self, gap: float = 0.1) -> None:
        self.now = 1000.0
        self.clock = Clock(self.now, gap)
        self.found: list[ClockFinding] = []
        self._look = self.now + TICK

    def go(self, seconds: float, rate: float = 1.0) -> None:
        """Octets come, at this rate."""
        for _ in range(round(seconds / RECORD)):
            self._wait(RECORD / rate)
            self.clock.add_octets(1024, self.now)

    def looked_late(self, seconds: float) -> None:
        """Nobody looks for so long, and then one does."""
        self.now += seconds
        self.found += self.clock.find_changes(self.now)
        self._look = self.now + TICK

    def overtaken(self, seconds: float) -> None:
        """Octets of this time are not seen."""
        self.now += seconds
        self.clock.restart()
        self._look = self.now + TICK

    def at_once(self, seconds: float) -> None:
        """Octets of this time come at one moment."""
        for _ in range(round(seconds / RECORD)):
            self.clock.add_octets(1024, self.now)

    def quiet(self, seconds: float) -> None:
        """No octets come."""
        for _ in range(round(seconds / RECORD)):
            self._wait(RECORD)

    def _wait(self, seconds: float) -> None:
        self.now += seconds
        while self._look <= self.now:
            self.found += self.clock.find_changes(self._look)
            self._look += TICK


class ClockTests(unittest.TestCase):
    # The seconds of a gap, what happens, and what is found.
    ROWS: dict[str, tuple[float, list[tuple[str, float]], list[str]]] = {
        'lost octets': (0.1, [('go', 2), ('quiet', 0.5), ('go', 1)], ['gap']),
        'octets that waited': (0.1, [('go', 2), ('quiet', 0.5), ('at_once', 0.5), ('go', 1)], []),
        'a late look': (0.1, [('go', 2), ('looked_late', 0.5)], []),
        'no octets behind it': (0.1, [('go', 2), ('looked_late', 0.5), ('quiet', 0.2)], []),
        'small gaps add up': (0.1, [('go', 2), *[('quiet', 0.02), ('go', 10.0)] * 6], ['gap']),
        "a gap of one's own": (0.3, [('go', 2), ('quiet', 0.25), ('go', 1)], []),
        'a loss from octets that come in bursts': (0.1, [('go', 2), *BURSTS, ('quiet', 0.5), *BURSTS], ['gap']),
        'too many octets': (0.1, [('go', 2), ('at_once', 0.3), ('go', 1)], ['ahead'])}

    def test_what_is_found(self) -> None:
        for name, (gap, steps, words) in self.ROWS.items():
            with self.subTest(name):
                trunk = ClockedTrunk(gap)
                for what, seconds in steps:
                    getattr(trunk, what)(seconds)
                trunk.found = [each for each in trunk.found if each.what not in WRONG_AND_RIGHT]
                self.assertEqual([finding.what for finding in trunk.found], words)
                lost = round(sum(each.value for each in trunk.found if each.what == 'gap'), 3)
                status = trunk.clock.status()
                self.assertEqual((status.gaps, status.gap_seconds), (words.count('gap'), lost))
                self.assertEqual(status.ppm is None, trunk.now < 1059)       # (there is no rate of less)
                if name == 'lost octets':
                    self.assertAlmostEqual(trunk.found[0].value, 0.5, delta=0.03)

    def test_rates(self) -> None:
        """Clocks of networks are no gaps; another rate is reported."""
        for ppm, words in ((0, []), (-50, []), (50, []), (-500, ['rate'])):
            trunk = ClockedTrunk()
            trunk.go(130 if words == [] else 70, 1 + ppm / 1e6)
            with self.subTest(ppm):
                self.assertEqual([finding.what for finding in trunk.found], words)
                self.assertFalse(trunk.clock.status().rate_wrong)
                self.assertAlmostEqual(trunk.clock.ppm or 0.0, ppm, delta=20 if words else 5)
                self.assertEqual(trunk.clock.status().ppm, round(trunk.clock.ppm or 0.0, 1))
                for finding in trunk.found:
                    self.assertAlmostEqual(finding.value, -500, delta=20)


class ClockPropertyTests(PropertyCase):
    def test_what_was_lost_is_found(self) -> None:
        """Whatever is lost, late or too early, and whoever stands still: once octets flow, what was found is what is
        missing, to within a gap and what is followed as a clock's drift. No octet that only waited counts."""
        st = self.st
        seconds = st.floats(0.0, 0.5)
        steps = st.one_of(st.tuples(st.sampled_from(('quiet', 'at_once', 'late', 'looked_late')), seconds),
                          st.tuples(st.just('go'), st.floats(0.2, 2.0)))

        def check(chosen: list[tuple[str, float]], gap: float) -> None:
            trunk, lost = ClockedTrunk(gap), 0.0
            trunk.go(0.5)
            for what, length in chosen:
                length = RECORD * round(length / RECORD)
                lost += {'quiet': length, 'at_once': -length}.get(what, 0.0)
                if what == 'late':
                    trunk.quiet(length)
                    trunk.at_once(length)
                elif what == 'looked_late':
                    trunk.looked_late(length)
                    trunk.at_once(length)
                else:
                    getattr(trunk, what)(length)
            before = len([each for each in trunk.found if each.what not in WRONG_AND_RIGHT])
            trunk.go(0.3)
            trunk.found = [each for each in trunk.found if each.what not in WRONG_AND_RIGHT]
            found = sum(each.value if each.what == 'gap' else -each.value for each in trunk.found)
            self.assertLessEqual(abs(lost - found), gap + DRIFT * (trunk.now - 1000.0) + STEADY, trunk.found)
            self.assertLessEqual(len(trunk.found) - before, 2)
            self.assertAlmostEqual(trunk.clock.lost_seconds, sum(
                each.value for each in trunk.found if each.what == 'gap'))
        self.holds(check, st.lists(steps, max_size=8), st.sampled_from((0.05, 0.1, 0.3)))
