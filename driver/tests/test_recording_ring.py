"""The ring of kept sessions, by the time of the trunk: no step of the clock of the day and no zstd loses anything."""
from __future__ import annotations

import itertools
import json
import os
import stat
import time
import types
import unittest
from collections import deque
from unittest import mock

from . import support
from .properties import PropertyCase
from e1gw.recording_ring import MOST_SLIPS, Ring, seconds_of, seconds_of_file
from e1gw_common.session import OCTETS_A_SECOND
from e1gw_common.session_files import FileAbout, open_session, read_about

KEPT = 60                   # seconds
EARLIER, OWN = 5, 6         # files, in place of so many that no test makes them
OTHERS = 'we.st', 'east-20260101T000000Z.json', 'we.st-2-20260101T000000Z.state', 'wexst-20260101T000000Z.json'


class KeptTimeTests(unittest.TestCase):
    def test_times(self) -> None:
        self.assertEqual([seconds_of(text) for text in ('60s', '1m', '2h', '3d', '090s')], [60, 60, 7200, 259200, 90])
        for text in ('', '59s', '0h', '1', 's', '1x', '-1h', '1.5h', '\u0663h', '1hh', '1 h'):
            with self.subTest(text), self.assertRaises(ValueError):
                seconds_of(text)


    def test_files(self) -> None:
        """Of 10 s, from two minutes to an hour: twelve at least and 360 at most."""
        self.assertEqual([seconds_of_file(seconds_of(text)) for text in ('1m', '90s', '2m', '1h', '2h', '1d')],
                         [5.0, 7.5, 10.0, 10.0, 20.0, 240.0])


class RingTests(support.FolderCase, PropertyCase):
    """A ring, and the clock of the day by which its files have their names."""

    def setUp(self) -> None:
        super().setUp()
        self.ring, self.day = self.path('ring'), 1_800_000_000.0
        clock = types.SimpleNamespace(strftime=time.strftime, gmtime=lambda: time.gmtime(self.day))
        self.enterContext(mock.patch('e1gw.recording_ring.time', clock))

    def begins(self, ring: Ring, second: int) -> str:
        """A file of a ring; returns its path without the ending."""
        about = FileAbout(place=second * OCTETS_A_SECOND)
        ring.begin(front := ring.next(second * OCTETS_A_SECOND), about, b'%d' % second, b'law')
        self.write(f'{front}.e1gw', f'{second}')
        return front

    def files(self, ending: str) -> list[str]:
        return sorted(name for name in os.listdir(self.ring) if name.endswith(ending) and name not in OTHERS)

    def kept(self) -> list[int]:
        """The seconds at which the files begin that are there. Each has its .json, its .state and its .toml."""
        fronts, found = [os.path.join(self.ring, name[:-6]) for name in self.files('.state')], list[int]()
        for front in fronts:
            found.append(int(support.text_of(f'{front}.state')))
            self.assertEqual(read_about(front).place, found[-1] * OCTETS_A_SECOND)
        self.assertEqual([len(self.files(ending)) for ending in ('.json', '.e1gw', '.toml')], [len(found)] * 3)
        return sorted(found)

    @mock.patch('e1gw.recording_ring.MOST_EARLIER', EARLIER)
    @mock.patch('e1gw.recording_ring.MOST_OWN', OWN)
    def test_what_is_kept(self) -> None:
        """However long files are, and however the clock of the day is set: all of the time that is kept is there, and
        one file at most that begins before it, unless there are too many; of earlier sessions as many as may be, until
        it is all of this one. They are read in their order, and files of others stay."""
        st, folders = self.st, itertools.count()

        def check(sessions: list[list[tuple[int, int]]]) -> None:
            self.ring, place, earlier = self.path(f'{next(folders)}'), 0, 0
            os.mkdir(self.ring)
            for name in OTHERS:
                self.write(os.path.join(self.ring, name), '')
            for files in sessions:
                ring, own = Ring(self.ring, 'we.st', KEPT), list[int]()
                ring.zstd = None
                for seconds, step in files:
                    self.begins(ring, place)
                    own = [*(at for at, end in zip(own, [*own[1:], place]) if end + KEPT > place), place][-OWN:]
                    earlier = 0 if own[0] + KEPT <= place else min(earlier, EARLIER)
                    found = self.kept()
                    self.assertEqual((found[-len(own):], len(found)), (own, len(own) + earlier))
                    place, self.day = place + seconds, self.day + seconds + step
                if not earlier:
                    self.assertEqual([int(support.text_of(path)) for path in open_session(self.ring).files], own)
                earlier += len(own)
                ring.close()
            self.assertLessEqual({*OTHERS}, {*os.listdir(self.ring)})
        self.holds(check, st.lists(st.lists(st.tuples(st.integers(1, 70), st.sampled_from((0, 0, 3600, -7, -3600))),
                                            min_size=1, max_size=8), max_size=4), examples=100)

    def test_twelve_in_a_second(self) -> None:
        """They are dropped in the order in which they began."""
        for run in range(12):
            self.begins(Ring(self.ring, 'we.st', KEPT), run)
        with mock.patch('e1gw.recording_ring.MOST_EARLIER', 3):
            self.begins(Ring(self.ring, 'we.st', KEPT), 12)
        self.assertEqual(self.kept(), [9, 10, 11, 12])

    def test_zstd(self) -> None:
        """Each file that is whole is packed, and nothing is left of it, or of the packing."""
        os.chmod(zstd := self.write('zstd', '#!/bin/sh\n[ "$1 $2 $4" = "-q -f -o" ] && cat "$3" > "$5"\n'), 0o755)
        ring = Ring(self.ring, 'west', KEPT)
        ring.zstd = zstd
        for second in range(0, 100, 5):
            self.begins(ring, second)
            self.day -= 1
        support.until(lambda: len(self.files('.e1gw')) == 1 and not self.files('.part'))
        packed = [os.path.join(self.ring, name) for name in self.files('.zst')]
        self.assertEqual(sorted(map(int, map(support.text_of, packed))), [*range(35, 95, 5)])
        self.assertEqual({stat.S_IMODE(os.stat(path).st_mode) for path in packed}, {0o640})
        ring.close()

    def test_slips_are_noted_beside_their_file(self) -> None:
        """A ring that goes on with a file adds to what is noted there."""
        ring = Ring(self.ring, 'west', KEPT)
        front = ring.next(0)
        ring.begin(front, FileAbout(place=0), b'state')
        ring.note(deque([(1, 0.25), (2, 0.25)]))
        after = Ring(self.ring, 'west', KEPT, json.loads(json.dumps(ring.own)))
        after.begin(front, FileAbout(place=7), b'other')
        self.assertEqual(read_about(front), FileAbout(place=0, slips=((1, 0.25), (2, 0.25))))
        after.note(deque([(99, 0.1)] * 2 * MOST_SLIPS))
        self.assertEqual((len(read_about(front).slips), support.text_of(f'{front}.state')), (MOST_SLIPS, 'state'))
        self.assertEqual({stat.S_IMODE(os.stat(os.path.join(self.ring, name)).st_mode)
                          for name in os.listdir(self.ring)}, {0o640})
        for each in (ring, after):
            each.close()
