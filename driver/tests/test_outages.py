"""Outages by the events of a trunk: figures worked by hand."""
from __future__ import annotations

import json
import unittest
from math import inf
from typing import Any

from e1gw.outages import NO_OCTETS, SLIP, TrunkOutage, outages_in
from e1gw_common.session import OCTETS_A_SECOND
from e1gw_common.session_clock import FileNote, SessionClock, breaks_of


def outages(*events: dict[str, Any], since: float = 0.0, until: float = 1e9) -> list[TrunkOutage]:
    return outages_in([f'{json.dumps(event)}\n' for event in events], since, until)


def event(time: float, name: str, place: int, **fields: Any) -> dict[str, Any]:
    return {'time': time, 'event': name, 'place': place, **fields}


SEIZED = event(90.0, 'state', 1, circuit=3, was='idle', state='seized', call='a-3-1')
LFA = event(110.0, 'alarm', 1000, what='frame', on=True), event(121.0, 'alarm', 20_000, what='frame', on=False)
AWAY = (event(112.0, 'stalled', 1500, seconds=1.0), event(120.0, 'flows', 1501, seconds=9.0),
        event(120.5, 'gap', 9000, seconds=9.25, since=111.1))


class OutageTests(unittest.TestCase):
    def test_figures(self) -> None:
        """What is measured of no octets is told once; a call is concerned while it is up, and one that begins, too."""
        ended = event(111.5, 'state', 1400, circuit=3, was='seized', state='idle')
        other = event(112.5, 'state', 1500, circuit=4, was='idle', state='acked', call='a-4-1')
        found = outages(SEIZED, LFA[0], ended, AWAY[0], other, *AWAY[1:], LFA[1],
                        event(130.0, 'gap', 90_000, seconds=0.25))
        self.assertEqual([each.fields('west')[1:] for each in found], [
            ('LFA', '1970-01-01T00:01:50.000Z', '1970-01-01T00:02:01.000Z', '11.000', '3-4', 'a-3-1 a-4-1'),
            (NO_OCTETS, '1970-01-01T00:01:51.100Z', '1970-01-01T00:02:00.350Z', '9.250', '4', 'a-4-1'),
            (SLIP, '1970-01-01T00:02:09.750Z', '1970-01-01T00:02:10.000Z', '0.250', '4', 'a-4-1')])

    def test_a_start_is_none(self) -> None:
        """The trunk finds its frames and multiframes within its first 20 ms; later, or longer, that is an outage."""
        for place, kinds in ((5120, []), (5121, ['slot 16'])):
            found = outages(event(1.0, 'alarm', 0, what='multiframe', on=True),
                            event(1.02, 'alarm', place, what='multiframe', on=False))
            self.assertEqual([each.kind for each in found], kinds)
        begun = event(1.0, 'alarm', 0, what='frame', on=True)
        self.assertEqual(len(outages(begun)), 1)
        self.assertEqual(len(outages(event(1.0, 'remote alarm', 0, what='frame', on=True),
                                     event(1.02, 'remote alarm', 5000, what='frame', on=False))), 1)

    def test_kinds(self) -> None:
        """Each alarm is of its own kind, and goes on until it is over; a device that is lost gives no octets."""
        for name, what, kind in (('alarm', 'multiframe', 'slot 16'), ('remote alarm', 'frame', 'RAI'), (
                'remote alarm', 'multiframe', 'slot 16 there'), ('card', 'RED', 'LOS or LFA'), ('card', 'BLUE', 'AIS')):
            found = outages(event(1.0, name, 5, what=what, on=True), event(2.0, name, 6, what=what, on=True), *LFA)
            self.assertEqual([(each.kind, each.end) for each in found], [(kind, inf), ('LFA', 121.0)])
        lost = event(1.0, 'trunk lost', 5, why='w'), event(9.0, 'trunk', 5)
        for events, spans in ((lost, [(1.0, 9.0)]), (AWAY[:2], [(111.0, 120.0)]), (LFA * 2, [(110.0, 121.0)] * 2), (
                (*lost, event(9.5, 'gap', 7, seconds=8.75), event(20.0, 'gap', 8, seconds=1.5)),
                [(0.75, 9.5), (18.5, 20.0)])):
            self.assertEqual([(each.begin, each.end) for each in outages(*events)], spans)

    def test_times(self) -> None:
        """Those that were between two times, of lines among others."""
        for since, until, count in ((0, 1e9, 1), (121, 1e9, 1), (121.5, 1e9, 0), (0, 110, 1), (0, 109, 0)):
            self.assertEqual(len(outages({'event': 'alarm'}, event(1, 'card', 2, what='LOOPBACK', on=True), *LFA,
                                         since=since, until=until)), count, (since, until))
        self.assertEqual([*outages_in(['"event": "gap"\n', '{"event": "gap"}\n', 'x\n'], 0, 9)], [])

    def test_the_same_as_a_recording(self) -> None:
        """The journal and the file of a recording have one measure of a gap, with its place."""
        for seconds in 0.25, 9.25:
            place, begin = 9 * OCTETS_A_SECOND, 1000.0
            clock = SessionClock(begin, breaks_of([FileNote(0, begin, 5.0, ((place, seconds),))]))
            since = clock.second(place) - seconds
            (found,) = outages(event(clock.second(place) + 0.16, 'gap', place, seconds=seconds, since=since))
            self.assertEqual((found.begin, found.end, found.last), (begin + 9, begin + 9 + seconds, place))
