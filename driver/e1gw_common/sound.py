"""Whether octets of G.711 are speech: how well each sample is predicted from those before it.

Speech and tones are predicted well. Under the other law, or from code words in another order, they are noise."""
from __future__ import annotations

from dataclasses import dataclass, fields
from operator import mul
from typing import NamedTuple

from .g711 import OTHER, VALUES, ZERO
from .session import OCTETS_A_SECOND

BEFORE = 8                  # samples from which the next is predicted
LOOKED_AT = 160             # samples
CLEARLY = 2.0               # times the part that is not predicted: 3 dB
SPEECH = 0.25               # the greatest unpredicted part of speech: noise has more
LOUDER = 4.0                # the greatest relative power of the clearer reading: a wrong one is rarely softer
FLOOR = 1e-6                # the least power relative to 0 dBm0, -60 dBm0: below it is silence
OFTEN = 5                   # clear samples, at least
SILENT = 7                  # silent samples, at least
MOSTLY = 0.9                # the part of them that must agree
EACH = OCTETS_A_SECOND * 8 // 25        # octets of the trunk, 320 ms
EIGHT = 8
FLOATS = {law: [float(value) for value in values] for law, values in VALUES.items()}


class Sound(NamedTuple):
    """Samples: their mean power relative to 0 dBm0, and the part of it that those before each do not predict, 0 to
    1."""
    power: float
    strange: float

    def is_clearer(self, other: Sound) -> bool:
        """Whether this is speech, and another reading of the same octets is not."""
        return (self.strange * CLEARLY <= other.strange and self.strange <= SPEECH
                and self.power <= other.power * LOUDER and min(self.power, other.power) >= FLOOR)


def sound(octets: bytes, law: str) -> Sound:
    """The sound of octets under a law: by autocorrelation and the recursion of Levinson and Durbin."""
    values = list(map(FLOATS[law].__getitem__, octets[:LOOKED_AT]))
    along = [sum(map(mul, values, values[lag:])) for lag in range(BEFORE + 1)]
    if len(values) <= BEFORE or along[0] <= 0:
        return Sound(0.0, 1.0)
    left = along[0] = along[0] * 1.0001 + 1
    weights = [1.0]
    for n in range(1, BEFORE + 1):
        turn = -sum(map(mul, weights, along[n:0:-1])) / left
        weights.append(0.0)
        weights = [a + turn * b for a, b in zip(weights, reversed(weights))]
        left *= 1 - turn * turn
    return Sound(along[0] / len(values) / ZERO[law], left / along[0])


@dataclass(slots=True)
class HeardSamples:
    """The samples of one direction of a circuit."""
    looks: int = 0
    silent: int = 0                     # of one octet only
    own: int = 0                        # like the circuit's own law or order
    other: int = 0                      # like the other law, or the other order
    power: float = 0.0                  # the sum, under the circuit's law
    under_other: float = 0.0            # under the other law

    def join(self, more: HeardSamples) -> None:
        for each in fields(self):
            setattr(self, each.name, getattr(self, each.name) + getattr(more, each.name))

    def is_silence(self) -> bool:
        """Whether each sample had one octet only, and there are many."""
        return self.looks >= SILENT and self.silent == self.looks

    def is_own(self) -> bool:
        """Whether it is the circuit's own: clear samples are many, and nearly all agree."""
        return self.own >= OFTEN and self.own >= MOSTLY * (self.own + self.other)

    def is_other(self) -> bool:
        """Whether it is the other one: clear samples are many, and nearly all agree."""
        return self.other >= OFTEN and self.other >= MOSTLY * (self.own + self.other)


def compared(own: Sound, other: Sound, silent: bool = False) -> HeardSamples:
    """A sample in two readings, which should be the first."""
    return HeardSamples(1, silent, own.is_clearer(other), other.is_clearer(own), own.power, other.power)


def is_silent(octets: bytes) -> bool:
    """One octet only, as in silence."""
    return octets.count(octets[:1]) == len(octets)


def sample_speech(octets: bytes, law: str) -> HeardSamples:
    """A sample of a circuit's octets of G.711, which should be in this law."""
    return compared(sound(octets, law), sound(octets, OTHER[law]), is_silent(octets))


class ListeningTimes:
    """When to listen: each 320 ms at the start of a call, half as often after each eight samples."""
    __slots__ = ('due', 'each', 'looks')

    def __init__(self) -> None:
        self.due, self.each, self.looks = 0, EACH, 0

    def advance(self, place: int, most: float) -> bool:
        """Whether to listen at a place, if samples are to be at most this number of octets apart."""
        if place < self.due:
            return False
        self.looks += 1
        if not self.looks % EIGHT:
            self.each *= 2
        self.due = place + int(min(self.each, most))
        return True
