"""What a holder decides, over all that may be known."""
from __future__ import annotations

import itertools
import unittest
from math import inf
from typing import Iterator

from e1gw.holder.decisions import (APART, DEATHS, FIRST_PAUSE, MOST_DEATHS, MOST_LINE_PAUSE, MOST_PAUSE, QUICK,
                                   Beginning, Deaths, Decision, EndFault, EndOfProgram, EndReason, NextAct, Openings,
                                   Renewals, Trial, after_end, beginning_of, is_active)
from e1gw.satop_numbers import next_number

OFTEN = Deaths((1.0, 1.1, 1.2, 1.3), 0.0, DEATHS - 1)       # one more at 1.4 waits; a crash is one too many
DIED = EndOfProgram(EndReason.NONE, EndFault.NONE, was_up=True, is_well=False, is_crash=True, is_line_over=False,
                    is_first=False, reopens=True, trial=None, deaths=Deaths(), now=1.0)


def ends() -> Iterator[EndOfProgram]:
    """Each kind of end."""
    flags = itertools.product((False, True), repeat=6)
    for reason, fault, trial, (was_up, is_well, is_crash, is_over, is_first, reopens) in itertools.product(
            EndReason, EndFault, (None, Trial(), Trial(99.0, MOST_DEATHS - 1)), flags):
        yield EndOfProgram(reason, fault, was_up, is_well, is_crash, is_over, is_first, reopens, trial, OFTEN, 1.4)


class AfterAnEndTests(unittest.TestCase):
    """What follows a program that has ended."""

    def test_each_end(self) -> None:
        for end in ends():
            decided = after_end(end)
            self.assertEqual(decided.act, self.wanted(end), end)
            is_asked = end.is_well and end.reason is not EndReason.NONE and end.was_up
            is_death = decided.act is NextAct.MOVE_LOG or decided.act is NextAct.START and not is_asked
            self.assertEqual(decided.pause, FIRST_PAUSE if is_death else 0.0, end)
            is_counted = is_death or decided.act is NextAct.GO_BACK and end.was_up or \
                decided.act is NextAct.NEW_LOG and end.fault is not EndFault.LOG_LOST
            self.assertEqual(decided.deaths != OFTEN, is_counted, end)

    def wanted(self, end: EndOfProgram) -> NextAct:
        """The same by a list of rules, the first that holds."""
        last_chance = end.trial is not None and end.trial.deaths == MOST_DEATHS - 1
        is_asked = end.is_well and end.reason is not EndReason.NONE
        rules = (
            (end.reason is EndReason.END, NextAct.FINISH), (end.reason is EndReason.RELEASE, NextAct.RELEASE),
            (not end.was_up and end.fault is EndFault.LOG_LOST, NextAct.NEW_LOG),
            (not end.was_up and end.trial is not None, NextAct.GO_BACK),
            (not end.was_up and end.is_first and not end.reopens, NextAct.FINISH),
            (end.was_up and is_asked, NextAct.START),
            (end.was_up and end.is_line_over, NextAct.REOPEN if end.reopens else NextAct.FINISH),
            (not end.was_up and end.fault is EndFault.LOG_WRITE, NextAct.MOVE_LOG),
            (last_chance, NextAct.GO_BACK), (not end.was_up and end.is_crash, NextAct.NEW_LOG), (True, NextAct.START))
        return next(act for holds, act in rules if holds)

    def test_status(self) -> None:
        """0 if the end was asked for, or the line ended without a fault and the program with it in order."""
        for end in ends():
            decided = after_end(end)
            is_good = end.reason is EndReason.END or end.was_up and end.is_well and end.fault is not EndFault.TRUNK
            self.assertEqual(decided.status, int(decided.act is NextAct.FINISH and not is_good), end)

    def test_a_first_program_waits(self) -> None:
        """systemd starts a holder that ends at once again and again: one that is to stay tries by itself."""
        end = DIED._replace(was_up=False, is_first=True, is_crash=False)
        self.assertEqual(after_end(end), Decision(NextAct.START, Deaths((1.0,)), None, FIRST_PAUSE))
        self.assertEqual(after_end(end._replace(reopens=False)), Decision(NextAct.FINISH, Deaths(), status=1))

    def test_a_trial_goes_on(self) -> None:
        """A death counts; an end that was asked for, and a line that is opened again, do not."""
        end = DIED._replace(trial=Trial(50.0))
        self.assertEqual(after_end(end), Decision(NextAct.START, Deaths((1.0,)), Trial(50.0, 1)))
        self.assertEqual(after_end(end._replace(reason=EndReason.RENEW, is_well=True)).trial, Trial(50.0))
        self.assertEqual(after_end(end._replace(is_line_over=True)).trial, Trial(50.0))

    def test_when_a_log_is_put_aside(self) -> None:
        """Only if five programs in a row crash on it before they are up. No number of kills does it: calls go on."""
        end = DIED._replace(was_up=False)
        kill, up = end._replace(is_crash=False), end._replace(was_up=True)
        for its in ([kill] * 20, [*[up] * 4, kill] * 4, [up] * 20, [*[end] * 4, kill] * 3, [*[end] * 4, up] * 3):
            self.assertEqual({each.act for each in self.decided(its)}, {NextAct.START})
        decided = self.decided([*[up] * 9, *[end] * 10])
        self.assertEqual([n for n, each in enumerate(decided, 1) if each.act is NextAct.NEW_LOG], [14, 19])

    def decided(self, its: list[EndOfProgram]) -> list[Decision]:
        """What follows each of these, which come one behind the other."""
        found, deaths = list[Decision](), Deaths()
        for n, end in enumerate(its):
            found.append(after_end(end._replace(deaths=deaths, now=n / 10)))
            deaths = found[-1].deaths
        return found


class OtherDecisionTests(unittest.TestCase):
    def test_renewals(self) -> None:
        """A second apart; if they come again and again later and later, until none was wanted for long."""
        renewals, now, waits = Renewals(), 100.0, list[float]()
        for _ in range(12):
            renewals = renewals.with_one(now)
            waits.append(round(renewals.due - now, 3))
            now = renewals.due
        self.assertEqual(waits, [*[APART] * 5, 1.0, 2.0, 4.0, 8.0, *[MOST_PAUSE] * 3])
        later = renewals.with_one(now + 100.0)
        self.assertEqual(later.due, now + 100.0 + APART)

    def test_openings(self) -> None:
        """A line that has lasted is opened again at once; else later and later, up to a second."""
        opening, now, pauses = Openings(), 100.0, list[float]()
        for _ in range(4):
            opening = opening.with_one(now).with_end(now)
            pauses.append(opening.due - now)
            now = opening.due
        self.assertEqual(pauses, [0.25, 0.5, 1.0, MOST_LINE_PAUSE])
        self.assertEqual(opening.with_one(now).with_end(now + QUICK).due, now + QUICK)

    def test_beginnings(self) -> None:
        """A program that is there goes on, else the log, else what was saved."""
        for flags in itertools.product((False, True), repeat=3):
            its = zip(flags, (Beginning.REPLACED, Beginning.KILLED, Beginning.SAVED))
            wanted = next((how for has, how in its if has), Beginning.ANEW)
            self.assertIs(beginning_of(*flags), wanted)

    def test_who_has_the_trunk(self) -> None:
        """Who was given the line has it; else the folder says it; else who is no standby has it."""
        for is_standby, role, has_line, has_it in (
                (False, '', False, True), (True, '', False, False), (True, 'active', False, True),
                (False, 'standby', False, False), (True, 'standby', True, True)):
            self.assertIs(is_active(is_standby, role, has_line), has_it)

    def test_trials(self) -> None:
        self.assertEqual(Trial().until, inf)
        self.assertEqual(Trial().with_program_up(100.0).with_program_up(150.0), Trial(160.0))

    def test_numbers_of_packets(self) -> None:
        """2048 kbit/s: a thousand packets of 256 octets a second."""
        for first, lines, seconds, size, number in (
                (7, list[str](), 0.0, 256, 7), (7, ['satop received=9 sent=5', 'satop sent=6'], 0.0, 256, 13),
                (7, ['satop sent=6', 'e1gw: x'], 0.5, 256, 513), (65535, ['satop sent=1'], 0.0, 256, 0),
                (0, ['satop sent=3'], 0.1, 512, 53), (0, ['satop sent=x'], -5.0, 256, 0)):
            self.assertEqual(next_number(first, lines, seconds, size), number, lines)
