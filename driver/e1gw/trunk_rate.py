"""Whether the octets of a trunk come at their rate: a line may lose some all the time, or be too fast."""
from __future__ import annotations

from collections import deque

HALF, LEAST = 10.0, 14.0    # seconds of which the least lateness is compared with that before; and of both, the fewest
APART = 0.01                # seconds by which these differ at most: of 10 s a thousandth
EACH = 1.0                  # seconds of which the least lateness is kept


class TrunkRate:
    """The part of the octets that came over the last seconds, whether they flow steadily or not.

    Octets that wait because a machine stands still are late, and made up for: the least lateness of some seconds tells
    nothing of that, if they are more than it stands still. The first comparison is of 7 s with 7 s, which bears 5 s."""

    def __init__(self) -> None:
        self.ratio: float | None = None         # none until it is known
        self.is_wrong = False
        self._lows = deque[tuple[float, float]]()       # the least lateness, of seconds that began then

    def clear(self) -> None:
        """Forgets what was measured."""
        self._lows.clear()

    def update_rate(self, now: float, behind: float) -> bool:
        """Octets are late by so much. Whether the rate is wrong since this look, or right again."""
        lows = self._lows
        if lows and now - lows[-1][0] < EACH:
            lows[-1] = lows[-1][0], min(lows[-1][1], behind)
            return False
        lows.append((now, behind))
        while now - lows[0][0] > 2 * HALF:
            lows.popleft()
        if now - lows[0][0] < LEAST:
            return False
        # (As many seconds of each, without the one that begins now: a fast trunk is least late at their ends.)
        half = (len(lows) - 1) // 2
        whole = [*lows][-1 - 2 * half:-1]
        before, since = whole[:half], whole[half:]
        more = min(low for _, low in since) - min(low for _, low in before)
        self.ratio = 1 - more / (since[0][0] - before[0][0])
        was, self.is_wrong = self.is_wrong, abs(more) > APART
        return self.is_wrong is not was
