"""The calls of trunks, a line for each: those that have ended, by the file of each, and those that go on. Outages, too,
by the file of events."""
from __future__ import annotations

import time
from dataclasses import dataclass
from enum import Enum, auto
from itertools import islice, takewhile
from math import inf
from typing import Iterable, Iterator

from e1gw_common.call_lines import FIELDS as FIELDS_OF_CALLS, CallLine, csv_line, read_calls
from e1gw_common.line_files import files_of
from e1gw_common.session_clock import second_of
from .call_sums import CallSums, sums_of
from .ctl_all import each_status
from .deaf import words_of_call
from .outages import FIELDS, outages_in
from .status import TrunkStatus
from .watcher.page import length, outages_page

LAST = 20                   # calls that have ended, if nothing else is asked for
WRITTEN = 3600.0            # seconds behind its end within which each has its line
HEAD = (f'{"trunk":12}  n {"role":8} {{zone:23}} {"answered":12} {"ended":12} {"by":16} {"codec":7} '
        f'{"sent":>8} {"received":>8} {"lost":>6} {"late":>6}  {"discarded":27} call')

OUTAGE = '{:12} {:13} {:24} {:24} {:>11}  {:14} {}'


class OutageForm(Enum):
    """As what outages are printed."""

    TEXT = auto()
    CSV = auto()
    PAGE = auto()


@dataclass(frozen=True)
class Wanted:
    """Which calls are listed: the last ones, those of a circuit, those that there were between two times."""

    last: int | None = None
    circuit: int | None = None
    first: float | None = None
    end: float | None = None

    def select_ended(self, ended: Iterable[CallLine]) -> list[CallLine]:
        """Those of calls that have ended, the last one first."""
        if self.first is not None:
            first = self.first
            ended = (each for each in takewhile(lambda each: second_of(each.ended) >= first - WRITTEN, ended)
                     if second_of(each.ended) >= first)
        is_any = self.first is None and self.end is None
        return [*islice(self.select_open(ended), self.last or (LAST if is_any else None))]

    def select_open(self, calls: Iterable[CallLine]) -> Iterator[CallLine]:
        """Those of the circuit, if it is one alone, that had begun by the end."""
        end = inf if self.end is None else self.end
        return (each for each in calls if self.circuit in (None, int(each.circuit))
                and second_of(each.seized or each.answered or each.ended) <= end)


def local_words(text: str) -> str:
    """A time of a line in local time; nothing if there is none."""
    if not text:
        return ''
    second = second_of(text)
    return time.strftime('%Y-%m-%d %H:%M:%S', time.localtime(second)) + f'.{round(second * 1000) % 1000:03}'


def row_of(call: CallLine) -> str:
    """A call in a line, in local time; answer and end are without the day."""
    seized, answered, ended = map(local_words, (call.seized, call.answered, call.ended))
    return (f'{call.trunk:12} {call.circuit:>2} {call.direction:8} {seized or ended[:10]:23} {answered[11:]:12} '
            f'{ended[11:]:12} {call.by:16} {call.codec:7} {call.sent:>8} {call.received:>8} {call.lost:>6} '
            f'{call.late:>6}  {words_of_call(call):27} {call.call}')


def sums_words(sums: CallSums) -> Iterator[str]:
    """The lines below a list of calls."""
    yield (f'{sums.calls} calls, {sums.answered} answered: {length(sums.mean)} on average, {length(sums.seconds)} in '
           f'all; {sums.most} at once at most')
    for hour, erlang in sums.erlangs.items():
        yield f'{time.strftime("%Y-%m-%d %H:%M", time.localtime(hour))} {erlang:6.2f} erlang'


def calls_listed(trunks: Iterable[tuple[str, str]], wanted: Wanted, is_csv: bool, patience: float) -> int:
    """Prints the calls of trunks, the last one last, and their sums; returns the status."""
    found = list[CallLine]()

    def print_outages(_: str, of: TrunkStatus) -> None:
        file = of.files.calls_file
        ended = wanted.select_ended(read_calls(file)) if file else []
        its = [*reversed(ended), *wanted.select_open(of.calls)]
        found.extend(its)
        for call in its:
            print(csv_line(call) if is_csv else row_of(call), flush=True)
        if not file:
            raise ValueError('it writes no --calls: there are no calls that have ended')
    zone = f'seized ({time.strftime("%Z")})'
    print(csv_line(FIELDS_OF_CALLS) if is_csv else HEAD.format(zone=zone))
    status = each_status(trunks, patience, print_outages)
    if not is_csv:
        first, end = -inf if wanted.first is None else wanted.first, inf if wanted.end is None else wanted.end
        print('', *sums_words(sums_of(found, time.time(), first, end)), sep='\n')
    return status


def lines_of(path: str) -> Iterator[str]:
    """The lines of a file and of those that it has followed."""
    for each in reversed(files_of(path)):
        with open(each, encoding='utf-8', errors='replace') as lines:
            yield from lines


def outages_listed(trunks: Iterable[tuple[str, str]], since: float | None, until: float | None, form: OutageForm,
                   patience: float) -> int:
    """Prints the outages of trunks between two times; returns the status."""
    rows = list[tuple[str, ...]]()

    def print_row(its: tuple[str, ...]) -> None:
        if form is OutageForm.PAGE:
            return rows.append(its)
        print(csv_line(its) if form is OutageForm.CSV else OUTAGE.format(*its).rstrip(), flush=True)

    def print_outages(name: str, of: TrunkStatus) -> None:
        if not of.files.events_file:
            raise ValueError('it writes no --json FILE: its outages are not known')
        for each in outages_in(lines_of(of.files.events_file), since or 0.0, inf if until is None else until):
            print_row(each.fields(of.name or name))
    print_row(FIELDS)
    status = each_status(trunks, patience, print_outages)
    if rows:
        print(outages_page(rows))
    return status
