"""The card of a trunk, as its driver tells it: alarms and what it counts, asked each second. The holder has the
channel, and takes its events."""
from __future__ import annotations

import logging
import os
import time
from dataclasses import dataclass
from math import inf
from typing import Mapping

from e1gw_common.faults import words_of_fault
from e1gw_common.plain import flat
from ..dahdi import CONTROL, COUNTS, Alarm, SpanFacts, span_of
from ..events import CardAlarm, CardAlarmChanged, Tell

LOOK = 1.0                  # seconds between two looks
DOWN = Alarm.RED | Alarm.BLUE | Alarm.NOT_OPEN

logger = logging.getLogger(__name__)


@dataclass(frozen=True)
class CardStatus:
    """A span, as a status has it; and by their names its alarms, 1 for those that stand, and what it has counted."""

    span: int
    numbers: Mapping[str, int] = flat()

    def alarms(self) -> list[str]:
        return [name for each in Alarm if self.numbers.get(str(each.name).lower()) for name in each.names()]

    def counts(self) -> dict[str, int]:
        """Those that are not 0."""
        return {name: count for name in COUNTS if (count := self.numbers.get(name, 0))}


class CardWatch:
    """Watches the span of a card. `tell` is called with each change of an alarm; `told` are those of which another
    watcher has told the begin."""

    def __init__(self, tell: Tell, told: int) -> None:
        self._tell, self._told = tell, Alarm(told)
        self._span: SpanFacts | None = None
        self._said, self._due = '', -inf

    @property
    def as_told(self) -> int:
        return int(self._told)

    def read_alarms(self, span: int) -> None:
        """Asks for this span, and tells which alarms have changed; 0 is none. Why it cannot is said once."""
        if not span:
            return self.close()
        if (now := time.monotonic()) < self._due:
            return
        self._due = now + LOOK
        try:
            file = os.open(CONTROL, os.O_RDWR | os.O_CLOEXEC)   # (what stays open keeps the driver from being unloaded)
            try:
                self._span, why = span_of(file, span), ''
            finally:
                os.close(file)
        except OSError as fault:
            self.close()
            why = words_of_fault(fault, CONTROL)
        if why and why != self._said:
            logger.warning('alarms of the card are not known: %s', why)
        self._said = why
        if self._span:
            self._tell_changes(self._span.alarms)

    def _tell_changes(self, alarms: Alarm) -> None:
        for each in Alarm:
            if each in alarms ^ self._told:
                self._tell(CardAlarmChanged(CardAlarm(each.names()[0]), each in alarms))
        self._told = alarms

    def outage(self) -> str | None:
        """Why no seizure can reach the other end, or None."""
        alarms = self._span.alarms if self._span else Alarm(0)
        if down := (DOWN & alarms).names():
            return f'the card is in alarm: {", ".join(down)}'
        return 'the other end has no alignment' if Alarm.YELLOW in alarms else None

    def status(self) -> CardStatus | None:
        """None if it is not known."""
        if not (span := self._span):
            return None
        alarms = {str(each.name).lower(): int(each in span.alarms) for each in Alarm}
        return CardStatus(span.number, alarms | span.counts)

    def close(self) -> None:
        """Nothing is known of it from now on."""
        self._span = None
