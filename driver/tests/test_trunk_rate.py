"""Which rate of a trunk is wrong, and which is only seen so because a machine stands still."""
from __future__ import annotations

import unittest

from .test_clock import WRONG_AND_RIGHT, ClockedTrunk


class TrunkRateTests(unittest.TestCase):
    # What happens; then the rates that are found wrong, and those found right again.
    WHOLE_RATES: dict[str, tuple[list[tuple[str, float]], list[float]]] = {
        'a fifth': ([('fifth', 15.5)], [0.2]), 'a fifth for a while': ([('fifth', 16), ('go', 30)], [0.2, 1.0]),
        'octets in bursts': ([('quiet', 0.472), ('at_once', 0.472), ('go', 0.04)] * 90, []),
        'too slow': ([('slow', 25), ('go', 30)], [0.9985, 1.0]),
        'too fast': ([('fast', 25), ('go', 30)], [1.0015, 1.0]),
        'lost octets': ([('go', 20), ('quiet', 0.5), ('go', 40)], [0.95, 1.0]),
        'no octets, which is told as that': ([('go', 20), ('quiet', 5), ('go', 40)], []),
        'octets that were not seen': ([('go', 20), ('overtaken', 0.5), ('go', 40)], []),
        'a fifth from the beginning on, for too short a time to tell': ([('fifth', 13)], []),
        **{f'a program stands still for {seconds} s, behind {before}': (
            [('go', before), *[('quiet', seconds), ('at_once', seconds), ('go', 1)] * 3, ('go', 30)], [])
            for before in (13, 14, 16, 20, 21.5) for seconds in (0.1, 0.9, 5)},
        **{f'nobody looks for {seconds} s, behind {before}': (
            [('go', before), ('looked_late', seconds), ('go', 0.5), ('at_once', seconds), ('go', 30)], [])
            for before in (13, 14, 16, 20, 21.5) for seconds in (0.1, 5)}}

    def test_whole_rates(self) -> None:
        """Whatever the flow; a machine that stands still is no wrong rate, if octets are made up for."""
        for name, (steps, ratios) in self.WHOLE_RATES.items():
            trunk = ClockedTrunk()
            for what, seconds in steps:
                rate = {'fifth': 0.2, 'slow': 0.9985, 'fast': 1.0015}.get(what)
                trunk.go(seconds * rate, rate) if rate else getattr(trunk, what)(seconds)
            found = [each for each in trunk.found if each.what in WRONG_AND_RIGHT]
            with self.subTest(name):
                self.assertEqual([each.what for each in found], WRONG_AND_RIGHT[:len(ratios)])
                self.assertEqual([round(each.value, 2) for each in found], [round(each, 2) for each in ratios])
                if len(ratios) != 1:
                    self.assertAlmostEqual(trunk.clock.status().rate or 1.0, 1.0, delta=0.0002)
