"""Listens to samples of each circuit: datagrams, and the octets of its time slot."""
from __future__ import annotations

import math

from e1gw_common.frames import DOUBLE, is_frame
from e1gw_common.lines import OPEN
from e1gw_common.session import FRAME, packet_of
from e1gw_common.sound import LOOKED_AT, HeardSamples, sample_speech, is_silent
from .facts import BITS, Facts, Row
from .orders import STRETCH, Orders

AGAIN = 16                  # samples at least in the page of a trunk in service


class SpeechListener:
    """Puts the results into the columns of facts. If one circuit `only` is asked for, time slots of others are listened
    to while its own reads like the other law: whether they do, too."""

    def __init__(self, facts: Facts, program: str | None = None, only: int = 0) -> None:
        self.facts = facts
        self.most = facts.last / AGAIN if facts.last else math.inf
        self.frame = 0                          # a place where a frame with the signal began
        self._rows = [facts.rows[only]] if only else [*facts.rows.values()]     # whose time slots are listened to
        self.orders = Orders(program, facts.law,
                             lambda circuit, place, seen: facts.add_sample(circuit, place, 'order', seen))

    def add_datagram(self, row: Row, place: int, datagram: bytes) -> None:
        """An admitted datagram: one of some in G.711, and of G.726 some that are consecutive."""
        stream = row.stream
        if stream.stretch is None:
            if not stream.came.advance(place, self.most):
                return
            payload = packet_of(datagram).payload
            if row.codec not in BITS:
                return row.cell.add_sample('came', sample_speech(payload, self.facts.law))
            row.cell.add_sample('came', HeardSamples(1, is_silent(payload)))
            stream.stretch = []
        stream.stretch.append(packet_of(datagram).payload)
        if len(stream.stretch) == STRETCH:
            self.orders.queue(row.number, place, row.codec, stream.stretch)
            stream.stretch = None

    def trunk(self, octets: bytes, place: int) -> None:
        """Octets of the trunk up to a place: of each open path's time slot some, if frames are found in them."""
        due = [row for row in self._rows if row.states.value in OPEN and place >= row.stream.slot.due]
        before = (self.frame - place + len(octets)) % DOUBLE        # where frames began before this
        begin = next((at for at in (before, *range(DOUBLE)) if is_frame(octets, at)), None) if due else None
        if begin is None:
            return
        self.frame = place - len(octets) + begin
        for row in due:
            row.stream.slot.advance(place, self.most)
            first = (begin + row.number + (row.number > 15)) % FRAME
            seen = sample_speech(octets[first:first + LOOKED_AT * FRAME:FRAME], self.facts.law)
            row.cell.add_sample('slot', seen)
            if seen.other:
                self._rows = [*self.facts.rows.values()]
