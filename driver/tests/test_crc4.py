"""What follows from what a program says of CRC-4, and of slot 16 behind a card that keeps time slot 0 (--clear)."""
from __future__ import annotations

import unittest

from e1gw import crc4
from e1gw.crc4 import Crc4, counts_in
from e1gw.slots import Slots, SlotsStatus

LOST, FOUND = 'slot 16 lost: what comes is silent', 'slot 16 found, speech goes on'
MOVED = 'slots moved by {}: slot 16 found again, speech goes on'


class Crc4CountTests(unittest.TestCase):
    def counts(self, *numbers: int) -> dict[str, int]:
        return dict(zip(crc4.COUNTS, numbers))

    def test_what_the_program_says(self) -> None:
        live = 'live submultiframes 19 errored 1 far_end_errored 2 multiframes_found 3 multiframes_lost 4 given_up 5'
        self.assertEqual(counts_in(live), self.counts(19, 1, 2, 3, 4, 5))
        for other in '', 'live', live[5:], live[:-1] + 'x', live[:-10], 'fault 5 Read':
            self.assertEqual(counts_in(other), {})

    def test_what_is_told(self) -> None:
        """Each state once, by the counts of one check; errors are over after ten counts without one."""
        rows: tuple[tuple[tuple[int, ...], int, list[str]], ...] = (
            ((0, 0, 0, 0, 0, 0), 2, ['no CRC multiframe alignment']),
            ((988, 0, 0, 1, 0, 0), 1, ['CRC multiframe alignment found']),
            ((1988, 3, 0, 1, 0, 0), 1, ['CRC-4 errors: 3 of 1000 submultiframes']),
            ((2988, 4, 2, 1, 0, 0), 1, ['CRC-4 errors reported by the other end (E bits): 2 of 1000 submultiframes']),
            ((2988, 4, 2, 1, 0, 0), 9, []),
            ((2988, 4, 2, 1, 0, 0), 1, ['CRC-4 errors over: 4 of 2000 submultiframes',
             'CRC-4 errors reported by the other end (E bits) over: 2 of 1000 submultiframes']),
            ((3988, 4, 2, 3, 2, 0), 1, ['CRC multiframe alignment lost and found again, 2 times']),
            ((3988, 4, 2, 3, 3, 0), 1, ['CRC multiframe alignment lost']),
            ((4988, 4, 2, 5, 4, 0), 1,
             ['CRC multiframe alignment found', 'CRC multiframe alignment lost and found again']),
            ((5903, 919, 2, 5, 5, 1), 1, ['false frame alignment: 915 of 1000 submultiframes errored',
             'CRC multiframe alignment lost', 'CRC-4 errors: 915 of 915 submultiframes']))
        known = Crc4()
        for numbers, times, told in rows:
            for number in range(times):
                events = [event.words() for event in known.take(self.counts(*numbers))]
                self.assertEqual(events, [] if number and told else told, numbers)
        self.assertEqual(known.counts, self.counts(5903, 919, 2, 5, 5, 1))
        known.reset()
        known.take(self.counts(100, 0, 0, 1, 0, 0))
        self.assertEqual(known.counts, self.counts(6003, 919, 2, 6, 5, 1))

    def test_programs_that_follow(self) -> None:
        """One that has found nothing yet has just begun, or ends as soon; at the second count of it nothing comes."""
        known, nothing = Crc4(), self.counts(0, 0, 0, 0, 0, 0)
        known.take(self.counts(988, 0, 0, 1, 0, 0))
        rows = ((self.counts(988, 0, 0, 1, 0, 0),), (nothing,), (nothing, self.counts(988, 0, 0, 1, 0, 0)), (nothing,))
        for counts in rows:
            known.on_next_program()
            self.assertEqual([event for its in counts for event in known.take(its)], [])
        (lost,) = known.take(nothing)
        self.assertEqual(lost.words(), 'CRC multiframe alignment lost')
        self.assertEqual(known.counts, self.counts(3 * 988, 0, 0, 3, 0, 0))


class SlotsTests(unittest.TestCase):
    def words_after(self, known: Slots, *lines: str) -> list[str]:
        return [event.words() for line in lines for event in known.take(line)]

    def test_what_the_program_says(self) -> None:
        """The first find is compared with none; later ones also if another program or service follows."""
        known = Slots()
        for other in 'slots', 'slots found', 'slots found x', 'slots lost 3', 'slot found 3', 'live slots lost':
            self.assertEqual(self.words_after(known, other), [])
        self.assertTrue(known.status().silent)
        self.assertEqual(self.words_after(known, 'slots found 30', 'slots lost', 'slots found 30'),
                         [FOUND, LOST, FOUND])
        self.assertFalse(known.status().silent)
        known.on_next_program()
        self.assertTrue(known.status().silent)
        later = Slots()
        later.restore_note(known.note())
        for n, by in (2, 3), (0, 29):
            self.assertEqual(self.words_after(later, f'slots found {n}'), [MOVED.format(by)])
        self.assertEqual(later.status(), SlotsStatus('clear', False, 1, 2))
