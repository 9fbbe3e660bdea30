"""How early datagrams arrive, as points over time: steps, and straight lines through them."""
from __future__ import annotations

from dataclasses import dataclass
from statistics import fmean, linear_regression, median

from e1gw_common.session import FRAME
from .facts import SECOND, Row

AROUND = 6                  # points on each side of a step
STEP = 120                  # samples, 15 ms, above which it is one
POINTS = 300
Points = list[tuple[float, float]]      # place, samples before its turn


@dataclass(frozen=True)
class Step:
    """Datagrams suddenly arrive earlier by this number of samples, or later if it is negative."""
    place: int
    samples: float


def points(row: Row, width: int) -> list[Points]:
    """The mean number of samples before their turn in each column, for each restart of the playout."""
    out: list[Points] = [[]]
    begun = sorted(row.begun)
    for column in sorted(row.cells):
        cell, place = row.cells[column], (column + 0.5) * width
        while begun and begun[0] < (column + 1) * width:
            begun.pop(0)
            out.append([])
        if cell.admitted:
            out[-1].append((place, cell.total / cell.admitted))
        else:
            seen = cell.refused.get(14) or cell.refused.get(16)
            if seen:
                out[-1].append((place, (seen[1] + seen[2]) / 2))
    return [_thinned(part) for part in out if len(part) > 3]


def _thinned(part: Points) -> Points:
    """At most this number of points, each the mean of neighbours."""
    each = -(-len(part) // POINTS)
    groups = [part[n:n + each] for n in range(0, len(part), each)]
    return [(fmean(x for x, _ in group), fmean(y for _, y in group)) for group in groups]


def steps(part: Points) -> list[Step]:
    """Lasting changes of the points' height."""
    out: list[Step] = []
    for n in range(AROUND, len(part) - AROUND + 1):
        before = [y for _, y in part[n - AROUND:n]]
        after = [y for _, y in part[n:n + AROUND]]
        jump = median(after) - median(before)
        noise = max(max(before) - min(before), max(after) - min(after))
        if abs(jump) > max(STEP, 1.5 * noise) and not (out and part[n][0] - out[-1].place < SECOND / 2):
            out.append(Step(int(part[n][0]), jump))
    return out


def slope(part: Points) -> tuple[float, float, float]:
    """Of the straight line through points: parts in a million, its total change, and the points' distance from it, in
    samples."""
    gain, first = linear_regression(*zip(*part))
    away = fmean((y - first - gain * x) ** 2 for x, y in part) ** 0.5
    return gain * FRAME * 1e6, gain * (part[-1][0] - part[0][0]), away
