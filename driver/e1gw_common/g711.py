"""ITU-T G.711: the values that the octets of its two laws stand for, and levels in dBm0."""
from __future__ import annotations

import math
from collections.abc import Iterable


def a_law(octet: int) -> int:
    """The value of an octet of A-law, from -4032 to 4032 (ITU-T G.711, Table 1)."""
    t = octet ^ 0x55
    segment, step = t >> 4 & 7, t & 15
    size = 2 * step + 1 if segment == 0 else (2 * step + 33) << segment - 1
    return size if t & 0x80 else -size


def mu_law(octet: int) -> int:
    """The value of an octet of mu-law, from -8031 to 8031 (ITU-T G.711, Table 2)."""
    t = octet ^ 0xFF
    size = ((2 * (t & 15) + 33) << (t >> 4 & 7)) - 33
    return -size if t & 0x80 else size


VALUES = {'A': [a_law(octet) for octet in range(256)], 'mu': [mu_law(octet) for octet in range(256)]}
NAMES = {'A': 'A-law', 'mu': 'mu-law'}
OTHER = {'A': 'mu', 'mu': 'A'}
# A tone of 1 kHz at 0 dBm0 (ITU-T G.711, Tables 5 and 6).
TONES = {'A': bytes.fromhex('34212134b4a1a1b4'), 'mu': bytes.fromhex('1e0b0b1e9e8b8b9e')}


def power(octets: Iterable[int], law: str) -> float:
    """The mean of the squared values of octets; 0 of none."""
    squares = [VALUES[law][octet] ** 2 for octet in octets]
    return sum(squares) / len(squares) if squares else 0.0


ZERO = {law: power(tone, law) for law, tone in TONES.items()}      # at 0 dBm0


def level(mean_square: float, law: str) -> float:
    """The level in dBm0 of so much power; that of no power is below all."""
    return 10 * math.log10(mean_square / ZERO[law]) if mean_square > 0 else -math.inf
