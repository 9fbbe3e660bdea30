"""Sums of calls, and times as an operator types them."""
from __future__ import annotations

import os
import time
import unittest
from unittest import mock

from e1gw.call_sums import sums_of
from e1gw_common.call_lines import CallLine, moment
from e1gw_common.session_clock import local_second

NINE = 1_800_000_000 // 3600 * 3600.0           # an hour begins


def line(call: str, seized: float | None, answered: float | None, ended: float | None) -> CallLine:
    """A call by seconds behind nine."""
    times = [moment(None if each is None else NINE + each) for each in (seized, answered, ended)]
    about = {'trunk': 'west', 'circuit': '1', 'call': call, **dict(zip(('seized', 'answered', 'ended'), times))}
    return CallLine(**{name: about.get(name, '') for name in CallLine._fields})


class CallSumTests(unittest.TestCase):
    def test_sums(self) -> None:
        """Two at once, and a third that begins when one of these ends; one not answered; one that goes on; one that was
        up before, and one with a line before a stop of the trunk and one behind it."""
        lines = [line('a', 0, 10, 100), line('b', 50, 60, 150), line('c', 100, None, 120), line('d', 3600, 3610, None),
                 line('e', 7200, 7210, 7300), line('e', None, None, 7400), line('f', None, -100, 0)]
        sums = sums_of(lines, NINE + 3700)
        self.assertEqual((sums.calls, sums.answered, sums.most), (6, 5, 2))
        self.assertEqual((sums.seconds, sums.mean), (90 + 90 + 90 + 190 + 100, 112.0))
        self.assertEqual(sums_of([], NINE).mean, 0.0)

    def test_traffic(self) -> None:
        """In each hour, from the seizure on; of an hour of which a part alone is listed, or over, in that part."""
        lines = [line('a', 1800, None, 5400), line('b', 0, None, 3600), line('c', 7300, None, None)]
        self.assertEqual(sums_of(lines, NINE + 9000).erlangs, {
            NINE: 1.5, NINE + 3600: 0.5, NINE + 7200: (9000 - 7300) / 1800})
        self.assertEqual(sums_of(lines, NINE + 9000, NINE + 1800, NINE + 4500).erlangs, {NINE: 2.0, NINE + 3600: 1.0})


class LocalTimeTests(unittest.TestCase):
    def test_local_times(self) -> None:
        with mock.patch.dict(os.environ, TZ='Europe/Berlin'):
            time.tzset()
            now = time.mktime((2026, 12, 1, 0, 30, 0, 0, 0, -1))
            for text, found in (('14:03', '2026-12-01 14:03:00'), ('9:03', '2026-12-01 09:03:00'),
                                ('14:03:07', '2026-12-01 14:03:07'), ('yesterday', '2026-11-30 00:00:00'),
                                ('yesterday 7:03', '2026-11-30 07:03:00'), ('today', '2026-12-01 00:00:00'),
                                ('2026-11-23', '2026-11-23 00:00:00'), ('2026-07-23T07:30Z', '2026-07-23 09:30:00')):
                self.assertEqual(time.strftime('%F %T', time.localtime(local_second(text, now))), found)
            for text in '', 'x', '7', '25:00', 'yesterday x', 'yesterday 1:00 2', 'tomorrow':
                with self.assertRaises(ValueError):
                    local_second(text, now)
        time.tzset()
