"""What a holder does next: pure functions of what is known, without a clock, a file or a process.

After a holder dies nobody answers the trunk until the next one has imported its modules. dataclasses is slow to import,
so no module of this folder does it."""
from __future__ import annotations

from enum import Enum
from math import inf
from typing import NamedTuple

DEATHS, WITHIN = 5, 2.0                 # programs that died, within so many seconds: the next one waits
FIRST_PAUSE, MOST_PAUSE = 0.5, 10.0     # seconds that it waits, at first and at most
TRIED, MOST_DEATHS = 60.0, 2            # seconds in which a new version is tried, and deaths that it may not have then
APART, OFTEN = 1.0, 10.0                # seconds between two renewals; in which DEATHS of them are too many
QUICK = 1.0                             # seconds: a line that ends within them is opened again later
LINE_PAUSE, MOST_LINE_PAUSE = 0.25, 1.0     # .. by so many, at first and at most: a device that is back is taken soon


class EndReason(Enum):
    """Why the program of now was asked to end."""

    NONE = ''
    RELOAD = 'reload'
    RENEW = 'a socket, a port or the log is to be had again'
    RELEASE = 'the trunk is released'
    TAKEN_BACK = 'the trunk is taken back'
    END = 'the end is asked for'


class EndFault(Enum):
    """Of what a program has said that it ended, or its line."""

    NONE = 'nothing that is known here'
    TRUNK = 'the trunk cannot be read or written'
    LOG_LOST = 'the log has nothing that can be loaded'
    LOG_WRITE = 'the log takes no writes'


class NextAct(Enum):
    """What follows a program that has ended."""

    START = 'another one starts'
    GO_BACK = 'one of the version before starts'
    NEW_LOG = 'one starts on a new log'
    MOVE_LOG = 'one starts on a copy of the log in memory'
    REOPEN = 'the line is opened again'
    RELEASE = 'the line is closed until it is to be taken'
    FINISH = 'the holder ends'


class Deaths(NamedTuple):
    """Programs that died shortly one after another, and how long the next one waits; and how many of the last ones
    crashed before they carried the trunk."""

    times: tuple[float, ...] = ()
    pause: float = 0.0
    crashes: int = 0

    def with_one(self, now: float, is_crash: bool = False, within: float | None = None) -> Deaths:
        within = WITHIN if within is None else within
        times = (*self.times, now)[-DEATHS:]
        is_often = len(times) == DEATHS and now - times[0] <= max(within, DEATHS * self.pause)
        pause = min(MOST_PAUSE, max(FIRST_PAUSE, 2 * self.pause)) if is_often else 0.0
        return Deaths(times, pause, self.crashes + 1 if is_crash else 0)


class Trial(NamedTuple):
    """The version of now is tried, behind another one that may come back."""

    until: float = inf
    deaths: int = 0

    def with_program_up(self, now: float) -> Trial:
        return self._replace(until=min(self.until, now + TRIED))

    def with_death(self) -> Trial:
        return self._replace(deaths=self.deaths + 1)


class EndOfProgram(NamedTuple):
    """A program that has ended, or that does not come up in time and was killed."""

    reason: EndReason
    fault: EndFault
    was_up: bool                # it has carried the trunk
    is_well: bool               # it has ended in order
    is_crash: bool              # a signal has ended it that a fault of its own raises, and nobody who kills
    is_line_over: bool          # the other end has closed the line
    is_first: bool              # no program was up before it
    reopens: bool
    trial: Trial | None         # of its version, if there is one before it
    deaths: Deaths
    now: float


class Decision(NamedTuple):
    """What follows: behind a pause, with the deaths and the trial that then count. `status` is that of the holder."""

    act: NextAct
    deaths: Deaths
    trial: Trial | None = None
    pause: float = 0.0
    status: int = 0


def after_end(end: EndOfProgram) -> Decision:
    """What follows a program that has ended."""
    if end.reason is EndReason.END:
        return Decision(NextAct.FINISH, end.deaths)
    if end.reason is EndReason.RELEASE:
        return Decision(NextAct.RELEASE, end.deaths, end.trial)
    if not end.was_up:
        return _never_up(end)
    if end.is_well and end.reason is not EndReason.NONE:
        return Decision(NextAct.START, end.deaths, end.trial)
    if end.is_line_over:
        return Decision(NextAct.REOPEN, end.deaths, end.trial) if end.reopens else \
            Decision(NextAct.FINISH, end.deaths, status=int(not end.is_well or end.fault is EndFault.TRUNK))
    return _died(end)


def _never_up(end: EndOfProgram) -> Decision:
    """One that did not come to carry the trunk."""
    if end.fault is EndFault.LOG_LOST:
        return Decision(NextAct.NEW_LOG, end.deaths, end.trial)
    if end.trial:
        return Decision(NextAct.GO_BACK, end.deaths)
    if end.is_first and not end.reopens:
        return Decision(NextAct.FINISH, end.deaths, status=1)
    step = _died(end)
    if end.fault is EndFault.LOG_WRITE:
        return step._replace(act=NextAct.MOVE_LOG)
    if step.deaths.crashes >= DEATHS:
        # of a log with which each one crashes none is to be had
        return step._replace(act=NextAct.NEW_LOG, deaths=step.deaths._replace(crashes=0), pause=0.0)
    return step._replace(pause=max(FIRST_PAUSE, step.pause)) if end.is_first else step


def _died(end: EndOfProgram) -> Decision:
    """One that died, of itself or by a signal."""
    trial = end.trial and end.trial.with_death()
    deaths = end.deaths.with_one(end.now, end.is_crash and not end.was_up)
    if trial and trial.deaths >= MOST_DEATHS:
        return Decision(NextAct.GO_BACK, deaths)
    return Decision(NextAct.START, deaths, trial, deaths.pause)


# ---- what a program lacks ----

class Renewals(NamedTuple):
    """Programs that followed since a socket, a port or the log was gone: when the next one may."""

    due: float = -inf
    often: Deaths = Deaths()

    def with_one(self, now: float) -> Renewals:
        often = self.often.with_one(now, within=OFTEN)
        return Renewals(now + max(APART, often.pause), often)


# ---- a line that is opened ----

class Openings(NamedTuple):
    """When the line was opened last, and when it may be opened again: at once, but later and later if it ends soon."""

    began: float = -inf
    pause: float = 0.0
    due: float = -inf

    def with_one(self, now: float) -> Openings:
        return self._replace(began=now)

    def with_end(self, now: float) -> Openings:
        pause = min(MOST_LINE_PAUSE, max(LINE_PAUSE, 2 * self.pause)) if now < self.began + QUICK else 0.0
        return Openings(self.began, pause, now + pause)


# ---- how a holder begins ----

class Beginning(Enum):
    """How a holder begins, by what it finds."""

    REPLACED = 'the holder was replaced'
    KILLED = 'the holder was killed'
    SAVED = 'begins with what was saved'
    ANEW = 'begins'


def beginning_of(has_child: bool, has_log: bool, has_saved: bool) -> Beginning:
    """With the program of the process that has become this one; or on the log of a holder that was killed; or from a
    state that was saved."""
    if has_child:
        return Beginning.REPLACED
    return Beginning.KILLED if has_log else Beginning.SAVED if has_saved else Beginning.ANEW


def is_active(is_standby: bool, role: str, has_line: bool) -> bool:
    """Whether a holder begins with the trunk: as its folder says, else as it is asked; and if it was given the line."""
    return has_line or (role == 'active' if role else not is_standby)
