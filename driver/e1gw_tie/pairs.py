"""Pairs of a circuit here and one at the other site."""
from __future__ import annotations

from e1gw_common.session import CIRCUITS, circuits_of

Pairs = dict[int, int]      # by a circuit here, the one there


def pairs_of(text: str) -> Pairs:
    """The pairs in a text of lines `HERE THERE`; `#` begins a comment. ValueError for others, and if there are none."""
    pairs: Pairs = {}
    for number, line in enumerate(text.splitlines(), 1):
        try:
            _add(pairs, line.partition('#')[0].split())
        except ValueError as fault:
            raise ValueError(f'line {number}: {fault}') from None
    if not pairs:
        raise ValueError('there are no circuits')
    return pairs


def _add(pairs: Pairs, words: list[str]) -> None:
    """Adds the pairs of a line."""
    if len(words) not in (0, 2):
        raise ValueError('a line needs a circuit here and one there')
    ranges = [circuits_of(word) for word in words]
    if len(set(map(len, ranges))) > 1:
        raise ValueError(f'{" and ".join(words)} have different lengths')
    for here, there in zip(*ranges):
        if here in pairs or there in pairs.values():
            raise ValueError(f'circuit {here} here or {there} there is repeated')
        pairs[here] = there


def agreed(here: Pairs | None, there: Pairs | None) -> Pairs:
    """The pairs of both sites. One site's suffice; without any, circuits have equal numbers."""
    back = None if there is None else {theirs: ours for ours, theirs in there.items()}
    if here is None:
        return {n: n for n in CIRCUITS} if back is None else back
    return {ours: theirs for ours, theirs in here.items() if back is None or back.get(ours) == theirs}
