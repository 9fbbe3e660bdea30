"""Which calls sound wrong, though packets are accepted: they read like speech in the other law, or have fewer samples
than their timestamps go on by."""
from __future__ import annotations

from e1gw_common.g711 import NAMES, OTHER
from e1gw_common.session import BadPacket, packet_of
from e1gw_common.sound import HeardSamples, sample_speech

SOUNDS_WRONG = 'sounds wrong'
FIRST, MOST = 16, 256           # packets between two looks: at the start of a call, and at most
EACH_TWICE = 8                  # looks behind which they are half as often
G711 = {'pcma': 'A', 'pcmu': 'mu'}
BITS = {'g726-16': 2, 'g726-24': 3, 'g726-32': 4, 'g726-40': 5}     # of a sample; else eight
OFTEN, ALL = 6, 8               # of the last looks so many tell of gaps


class HeardSpeech:
    """Looks at some of the packets of a circuit, whose codec is `codec` while it is in a call."""

    def __init__(self) -> None:
        self.codec = ''
        self.begin()

    def begin(self) -> None:
        """Another call begins."""
        self._heard, self._gaps, self._words = HeardSamples(), 0, ''
        self._each, self._left, self._looks = FIRST, FIRST, 0
        self._last: tuple[int, int] | None = None       # number and timestamp of the packet before this

    def take(self, octets: bytes, at: int, length: int) -> None:
        """A datagram that has come, of this length, at a place of octets."""
        self._left -= 1
        if self._left > 1 or not self.codec:
            return
        try:
            packet = packet_of(octets[at:at + length])
        except BadPacket:
            return
        if self._left == 1:
            self._last = packet.sequence, packet.timestamp
            return
        samples = 8 * len(packet.payload) // BITS.get(self.codec, 8)
        if self._last and packet.sequence == self._last[0] + 1 & 0xFFFF:
            step = packet.timestamp - self._last[1] & 0xFFFFFFFF
            self._gaps = (self._gaps << 1 | (samples < step)) & (1 << ALL) - 1
            self._words = f'{samples} of {step} samples a packet'
        if law := G711.get(self.codec):
            self._heard.join(sample_speech(packet.payload, law))
        self._looks += 1
        if self._looks % EACH_TWICE == 0:
            self._each = min(2 * self._each, MOST)
            if self._looks % (2 * EACH_TWICE) == 0:
                self._heard = HeardSamples(*(value // 2 for value in (
                    self._heard.looks, self._heard.silent, self._heard.own, self._heard.other)))
        self._left = self._each

    def why_wrong(self) -> str:
        """Why the call sounds wrong; nothing if it does not, or is not known to."""
        law = G711.get(self.codec)
        if law and self._heard.is_other():
            return f'reads like {NAMES[OTHER[law]]}'
        return self._words if self._gaps.bit_count() >= OFTEN else ''
