"""What calls come to: how many there were, how long, how many at once, and the traffic of each hour."""
from __future__ import annotations

from dataclasses import dataclass
from itertools import accumulate
from math import inf
from typing import Iterable, Mapping

from e1gw_common.call_lines import CallLine
from e1gw_common.session_clock import second_of

HOUR = 3600.0


@dataclass(frozen=True)
class CallSpan:
    """When a call was seized, answered and ended, in seconds since 1970."""

    seized: float
    answered: float | None
    ended: float


@dataclass(frozen=True)
class CallSums:
    """The sums of calls; the traffic in erlang by the begin of each hour, which is that of UTC."""

    calls: int
    answered: int
    seconds: float              # of speech, in all
    most: int                   # at once
    erlangs: Mapping[float, float]

    @property
    def mean(self) -> float:
        return self.seconds / self.answered if self.answered else 0.0


def spans_of(lines: Iterable[CallLine], now: float) -> list[CallSpan]:
    """The calls of lines, in the order of time. One that goes on ends now, and one during which the trunk was stopped
    has two lines with one id."""
    joined: dict[tuple[str, str], list[CallLine]] = {}
    for line in lines:
        joined.setdefault((line.trunk, line.call), []).append(line)
    found = []
    for its in joined.values():
        answered = next((each.answered for each in its if each.answered), '')
        begun, end = its[0].seized or answered, its[-1].ended
        ended = second_of(end) if end else now
        found.append(CallSpan(second_of(begun) if begun else ended, second_of(answered) if answered else None, ended))
    return found


def most_at_once(spans: Iterable[CallSpan]) -> int:
    """How many calls there were at once, at most; one that begins when another one ends is not beside it."""
    changes = sorted(change for each in spans for change in ((each.seized, 1), (each.ended, -1)))
    return max(accumulate(change for _, change in changes), default=0)


def erlangs_of(spans: Iterable[CallSpan], first: float, last: float) -> dict[float, float]:
    """The traffic of each hour in which there was a call, as far as it is between two times."""
    hours: dict[float, float] = {}
    for each in spans:
        hour = max(each.seized, first) // HOUR * HOUR
        while (begin := max(hour, first)) < min(each.ended, last):
            end = min(hour + HOUR, last)
            hours[hour] = hours.get(hour, 0.0) + (min(each.ended, end) - max(each.seized, begin)) / (end - begin)
            hour += HOUR
    return dict(sorted(hours.items()))


def sums_of(lines: Iterable[CallLine], now: float, first: float = -inf, last: float = inf) -> CallSums:
    """The sums of calls that were listed between two times."""
    spans = spans_of(lines, now)
    lengths = [each.ended - each.answered for each in spans if each.answered is not None]
    return CallSums(len(spans), len(lengths), sum(lengths), most_at_once(spans),
                    erlangs_of(spans, first, min(last, now)))
