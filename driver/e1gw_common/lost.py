"""How many packets the network lost, by the sequence numbers of all that came, accepted or not (RFC 3550, A.1 and A.3):
the numbers between the first and the highest one that no packet had."""
from __future__ import annotations

import struct

NUMBERS = struct.Struct('>BxHxxxxI')    # of an RTP header: version, sequence number, SSRC
HEADER_LEN = 12
WINDOW = 512                            # numbers up to the highest one of which it is known whether they came
AHEAD = 3000                            # by so many a packet may be ahead of the highest one
NEAR = 8                                # .. or one of another source, if it has the numbers of the same sender
IN_A_ROW = 16                           # packets of another source or numbering, behind which that is the stream
_KNOWN = (1 << WINDOW) - 1


class NumberedStream:
    """Packets that are numbered one behind the other."""

    def __init__(self, sequence: int, source: int) -> None:
        self.source, self.lost = source, 0
        self._highest, self._came = sequence, _KNOWN    # a bit for each number of the window, the highest one first

    def add(self, sequence: int, source: int) -> bool:
        """Counts a packet, if it is one of these."""
        ahead = (sequence - self._highest + 0x8000 & 0xFFFF) - 0x8000
        least, most = (-WINDOW, AHEAD) if source == self.source else (-NEAR, NEAR)
        if not least < ahead < most:
            return False
        if ahead > 0:
            self._highest, self._came = sequence, (self._came << ahead | 1) & _KNOWN
            self.lost += ahead - 1
        elif not self._came >> -ahead & 1:
            self._came |= 1 << -ahead
            self.lost -= 1
        return True


class ReceivedNumbers:
    """The sequence numbers of a circuit's packets."""

    def __init__(self) -> None:
        self.before = 0                 # packets that were lost of streams before the one of now
        self._now: NumberedStream | None = None
        self._next: NumberedStream | None = None    # what comes in place of it at this moment
        self._row = 0                   # packets of that

    @property
    def count_lost(self) -> int:
        """Packets that were lost."""
        return self.before + (self._now.lost if self._now else 0)

    def begin(self, stream: NumberedStream | None = None) -> None:
        """Another stream begins, by default with the next packet."""
        self.before, self._now, self._next = self.count_lost, stream, None

    def take(self, octets: bytes, at: int, length: int) -> None:
        """A datagram that has come, of this length, at a place of octets."""
        if length < HEADER_LEN:
            return
        first, sequence, source = NUMBERS.unpack_from(octets, at)
        if first >> 6 != 2:
            return
        if self._now is None:
            self._now = NumberedStream(sequence, source)
        elif self._now.add(sequence, source):
            self._next = None
        elif self._next is not None and self._next.add(sequence, source):
            self._row += 1
            if self._row == IN_A_ROW:
                self.begin(self._next)
        else:
            self._next, self._row = NumberedStream(sequence, source), 1
