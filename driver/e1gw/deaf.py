"""Which calls hear nothing: no packet was accepted in them for a while, though they are answered; and the cause. And
the words of what else is wrong with a circuit."""
from __future__ import annotations

from dataclasses import dataclass, replace
from operator import itemgetter, sub
from typing import Iterable, Mapping

from e1gw_common.call_lines import CallLine
from e1gw_common.lines import PAIRS, State, circuit_words
from e1gw_common.session import OCTETS_A_SECOND, DatagramRefusal
from e1gw_common.session_clock import second_of
from .counts import REASONS, ToldCounts
from .events import CallsDeaf, Tell
from .heard_speech import SOUNDS_WRONG
from .status import CircuitStatus, TrunkStatus

DEAF_AFTER = 2 * OCTETS_A_SECOND        # octets of the trunk
HEARS_NOTHING, NO_PACKETS = 'hears nothing', 'no packets'
AGAINST = 'signals against Q.421'
POOR = 100              # of how many packets one that did not come, or was discarded, is too many


def why_deaf(octets: int, cause: str) -> str:
    """Why an answered call hears nothing that has accepted no packet for these octets of the trunk, in which packets
    were discarded for this cause, or none came. Nothing if that is not long."""
    return '' if octets < DEAF_AFTER else cause or NO_PACKETS


@dataclass(frozen=True)
class Hearing:
    """What an answered circuit hears: its counts up to now; the octet of the trunk at its answer, or at the last packet
    that was accepted; the octet at the last discard since, and its cause."""

    counts: ToldCounts
    heard: int
    discarded: int = 0
    cause: str = ''

    def updated(self, counts: ToldCounts, place: int) -> Hearing:
        """The same with the counts up to an octet of the trunk."""
        if counts.accepted != self.counts.accepted:
            return Hearing(counts, place)
        count, reason = max(zip(map(sub, counts.refused, self.counts.refused), REASONS), key=itemgetter(0))
        if count <= 0 or reason is DatagramRefusal.NOT_OPEN:        # (these came before the call)
            return replace(self, counts=counts)
        return replace(self, counts=counts, discarded=place, cause=reason.label)

    def why_deaf(self, place: int) -> str:
        """Why it hears nothing at this octet of the trunk; nothing if it hears."""
        return why_deaf(place - self.heard, self.cause if place - self.discarded < DEAF_AFTER else '')


class DeafCalls:
    """The calls of a trunk that hear nothing. `causes` has why, by circuit; `tell` is called when that begins and
    ends."""

    def __init__(self, tell: Tell) -> None:
        self.causes, self._tell = dict[int, str](), tell
        self._hearings = dict[int, Hearing]()

    def restore_causes(self, causes: Mapping[int, str]) -> None:
        """Goes on with what was told of these circuits."""
        self.causes.update(causes)

    def forget(self, circuit: int) -> None:
        """Its call is over, or not answered any more."""
        self._hearings.pop(circuit, None)
        if self.causes.pop(circuit, ''):
            self._tell(CallsDeaf(False, (circuit,)))

    def update_hearings(self, place: int, answered: Mapping[int, ToldCounts]) -> None:
        """To be called a few times a second, with the octet of the trunk and the counts of answered circuits."""
        self._hearings = {n: (self._hearings.get(n) or self._start(n, counts, place)).updated(counts, place)
                          for n, counts in answered.items()}
        before, now = self.causes, {n: why for n, each in self._hearings.items() if (why := each.why_deaf(place))}
        self.causes = now
        if over := before.keys() - now:
            self._tell(CallsDeaf(False, (*sorted(over),)))
        begun = {n: why for n, why in now.items() if n not in before}
        for why in sorted({*begun.values()}):
            self._tell(CallsDeaf(True, (*(n for n in begun if begun[n] == why),), why))

    def _start(self, circuit: int, counts: ToldCounts, place: int) -> Hearing:
        """That of a circuit of which nothing was counted yet; of one that was told to hear nothing it goes on."""
        if cause := self.causes.get(circuit, ''):
            return Hearing(counts, place - DEAF_AFTER, place, cause if cause != NO_PACKETS else '')
        return Hearing(counts, place)


def words_of_row(row: CircuitStatus) -> str:
    """That a circuit of a status is in fault, hears nothing, or sounds wrong; nothing if none of these, or if that is
    not known, as in an alarm."""
    if row.line.state is State.FAULT and row.line.recognised != PAIRS[None]:
        return f'{AGAINST}: receives {row.line.recognised}'
    if row.deaf:
        return f'{HEARS_NOTHING}: {row.deaf}'
    return f'{SOUNDS_WRONG}: {row.packets.speech}' if row.packets.speech else ''


def words_of_rows(rows: Iterable[CircuitStatus]) -> str:
    """Which circuits of a status are in fault, hear nothing, or sound wrong, by the cause."""
    return _by_cause((row.line.circuit, words_of_row(row)) for row in rows)


def _by_cause(found: Iterable[tuple[int, str]]) -> str:
    """Circuits with what they have and why, as `what: why`, by these."""
    circuits = dict[str, dict[str, list[int]]]()
    for circuit, words in found:
        what, _, why = words.partition(': ')
        circuits.setdefault(what, {}).setdefault(why, []).append(circuit)
    return '; '.join(f'{what}: ' + ', '.join(f'{circuit_words(its)} ({why})' for why, its in whys.items())
                     for what, whys in circuits.items() if what)


def is_poor(call: CallLine) -> bool:
    """Whether a hundredth of the packets of a call did not come, or was discarded."""
    return bool(_missing_words(call))


def _missing_words(call: CallLine) -> str:
    """What part of a call's packets were lost or discarded, and why; nothing if it is small."""
    received, lost, discarded = (int(each or 0) for each in (call.received, call.lost, call.discarded))
    missing, whole = lost + discarded, received + lost + discarded
    why = 'lost' if lost >= discarded else call.cause
    return f'calls miss packets: {100 * missing / whole:.0f} % {why}' if POOR * missing > whole else ''


def words_of_missing(status: TrunkStatus) -> str:
    """Which calls miss packets, by how many; without those of which other words say what is wrong."""
    told = {row.line.circuit for row in status.circuits if words_of_row(row)}
    return _by_cause((int(call.circuit), _missing_words(call)) for call in status.calls
                     if int(call.circuit) not in told)


def why_call_deaf(call: CallLine) -> str:
    """Why a call that has ended heard nothing at all; nothing if it heard, or was short."""
    if not (call.answered and call.ended and call.received == '0'):
        return ''
    return why_deaf(round((second_of(call.ended) - second_of(call.answered)) * OCTETS_A_SECOND), call.cause)


def refused_words(call: CallLine) -> str:
    """What was discarded of a call, with the first cause; nothing without any."""
    return f'{call.discarded} {call.cause}' if call.discarded not in ('', '0') else ''


def words_of_call(call: CallLine) -> str:
    """That a call that has ended heard nothing at all; or what was discarded of it, with the first cause."""
    why = why_call_deaf(call)
    return f'{HEARS_NOTHING}: {why}' if why else refused_words(call)
