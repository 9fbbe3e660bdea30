"""An emulated circuit: a trunk as SAToP packets over UDP (RFC 4553). `e1gw satop` receives and sends them, plays them
at their rate and aligns their octets. These are its two ends, and what it says on standard error, a line at most once
a second: `satop received=1000 sent=1000 ..`. These numbers are the status of the transport."""
from __future__ import annotations

import socket
from contextlib import suppress
from dataclasses import dataclass
from typing import Mapping, NamedTuple, Sequence

from e1gw_common.addresses import host_and_port
from e1gw_common.fault_words import named
from e1gw_common.plain import flat

FIRST = 'satop '            # how a line of counts begins


class SatopCondition(NamedTuple):
    """What is reported while a count grows: its name in the status, the count, and the words."""

    name: str
    grows: str
    words: str


# In silence the program plays by its own clock and counts each tick; bits L and R are those of the packets that come
# (RFC 4553, 4.3).
SILENT = SatopCondition('silent', 'ticks', 'packets missing')
BITS = (SatopCondition('far_fault', 'with_l', 'line fault at the far end (bit L)'),
        SatopCondition('far_silent', 'with_r', 'packets missing at the far end (bit R)'))
# (The socket is connected, so that the kernel gives packets of another sender to no socket.)
STRANGE = SatopCondition('other_source', 'ticks', 'perhaps packets from another source port (from=) or address than '
                         'those of the far end: as many datagrams come that no socket takes')
# Packets that come and are refused, with the option of --satop that has to be as the far end has it.
REFUSED = (SatopCondition('other_size', 'malformed_other_size', 'packets of another size (size=)'),
           SatopCondition('other_header', 'malformed_no_rtp_header', 'packets without RTP header (rtp=)'),
           SatopCondition('other_header', 'malformed_no_control_word',
                          'packets with another header, perhaps RTP (rtp=)'),
           SatopCondition('other_header', 'malformed_other_length', 'packets with another length in their header'),
           SatopCondition('other_header', 'malformed_short', 'packets shorter than their header'))


def _text_of(address: str, port: int) -> str:
    return f'[{address}]:{port}' if ':' in address else f'{address}:{port}'


def _address_of(end: tuple[str, int], family: int = 0) -> tuple[int, tuple[str, int]]:
    """The first address of an end, and its family. OSError, which names it, if it has none."""
    try:
        found, _, _, _, address = socket.getaddrinfo(*end, family=family, type=socket.SOCK_DGRAM)[0]
    except OSError as fault:
        raise named(fault, _text_of(*end)) from None
    return found, (str(address[0]), int(address[1]))


def addresses_of(local: tuple[str, int], peer: tuple[str, int]) -> list[str]:
    """Both ends as addresses. OSError for a host that has none."""
    family, far = _address_of(peer)
    _, near = _address_of(local, family)
    return [_text_of(*near), _text_of(*far)]


def can_send(ends: Sequence[str]) -> bool:
    """Whether this machine has the address of the one end, from which it sends to the other one."""
    (near, _), far = map(host_and_port, ends[:2])
    with socket.socket(socket.AF_INET6 if ':' in near else socket.AF_INET, socket.SOCK_DGRAM) as line:
        with suppress(OSError):
            line.bind((near, 0))
            line.connect(far)
            return True
    return False


def is_here(far: str) -> bool:
    """Whether the far end has an address of this machine, whose packets then may be our own."""
    host, _ = host_and_port(far)
    with socket.socket(socket.AF_INET6 if ':' in host else socket.AF_INET, socket.SOCK_DGRAM) as line:
        with suppress(OSError):
            line.bind((host, 0))
            return True
    return False


def counts_of(line: str) -> dict[str, int] | None:
    """The counts of a line that the program printed, or None if it is another line."""
    pairs = [each.partition('=') for each in line.removeprefix(FIRST).split()]
    if not line.startswith(FIRST) or not all(digits.isascii() and digits.isdecimal() for _, _, digits in pairs):
        return None
    return {name: int(digits) for name, _, digits in pairs}


class SatopSeen(NamedTuple):
    """What `e1gw satop` has counted; datagrams that came to this machine for which there was no socket, if they were
    looked at; and what holds."""

    counts: dict[str, int] = {}
    unheard: int | None = None
    holding: tuple[SatopCondition, ...] = ()

    def updated(self, counts: dict[str, int], unheard: int) -> SatopSeen:
        """The same with the next counts. What a count tells of holds from when it grows until packets come and it does
        not; packets that are refused are not missing."""
        def grown(count: str) -> int:
            return counts.get(count, 0) - self.counts.get(count, 0)

        def holds(what: SatopCondition) -> bool:
            return grown(what.grows) > 0 or what in self.holding and grown('received') <= 0
        refused = max(REFUSED, key=lambda each: grown(each.grows))
        is_refused = grown(refused.grows) > max(0, grown('received'))
        strange = self.unheard is not None and is_about(unheard - self.unheard, grown('ticks'))
        missing = (SILENT, *[STRANGE] * strange) if holds(SILENT) else ()
        return SatopSeen(counts, unheard, (*((refused,) if is_refused else missing), *filter(holds, BITS)))


def is_about(found: int, wanted: int) -> bool:
    """Whether datagrams came as often as packets are due."""
    return 2 * abs(found - wanted) < wanted


@dataclass(frozen=True)
class SatopStatus:
    """What holds, in words; and by their names all counts, and all conditions, 1 for those that hold."""

    satop: str
    numbers: Mapping[str, int] = flat()

    def words(self) -> str:
        """The line of SAToP for people."""
        received, lost, *refused = (self.numbers.get(name, 0) for name in (
            'received', 'lost', *(each.grows for each in REFUSED)))
        return f'satop: {self.satop or "no fault"}; received {received}, lost {lost}, refused {sum(refused)}'


def status_of(seen: SatopSeen) -> SatopStatus | None:
    """None before anything was counted."""
    names = {each.name for each in seen.holding}
    named = {each.name: int(each.name in names) for each in (SILENT, STRANGE, *REFUSED, *BITS)}
    words = '; '.join(each.words for each in seen.holding)
    return SatopStatus(words, {**seen.counts, **named}) if seen.counts else None
