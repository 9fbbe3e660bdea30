"""What clears calls by itself: control clients that are gone (--on-loss), and a trunk out of service (--dark)."""
from __future__ import annotations

from contextlib import suppress
from dataclasses import dataclass
from math import inf
from typing import Callable

from e1gw_common.answers import DONE, CommandAnswer, refused

LOOKS = 0.5                 # seconds between two looks from which on this process stood still, and no client


@dataclass(frozen=True)
class DisconnectPolicy:
    """Calls are cleared after these seconds, and idle circuits blocked if that is asked too; None keeps them. A client
    that has said nothing for `alive` seconds counts as gone since."""

    seconds: float | None = None
    blocks: bool = False
    alive: float | None = None


def on_loss_of(words: list[str]) -> DisconnectPolicy:
    """`keep`, `clear SECONDS` or `block SECONDS`, and behind that `alive SECONDS`. ValueError where it is none."""
    if words == ['keep']:
        return DisconnectPolicy()
    with suppress(ValueError):
        if len(words) in (2, 4) and words[0] in ('clear', 'block') and words[2:3] in ([], ['alive']):
            seconds, alive = float(words[1]), float(words[3]) if words[3:] else None
            if 0 <= seconds <= 86400 and (alive is None or 1 <= alive <= 86400):
                return DisconnectPolicy(seconds, words[0] == 'block', alive)
    raise ValueError(f'--on-loss {" ".join(words)} is not keep, or clear or block SECONDS (0 to 86400)')


@dataclass
class DisconnectClient:
    """A client that asked for something to be done when it is gone: what, and when it has said something last."""

    wish: DisconnectPolicy
    said: float
    is_silent: bool = False     # for so long that it counts as gone


class DisconnectWatch:
    """The clients that asked for something to be done when the last of them is gone."""

    def __init__(self, usual: DisconnectPolicy, clear: Callable[[str, bool], None]) -> None:
        self._usual, self._clear = usual, clear
        self._asked: dict[object, DisconnectClient] = {}
        self._due: float | None = None
        self._blocks = False
        self._looked = inf

    def request(self, client: object, words: list[str], now: float) -> CommandAnswer:
        """A client asks with these words, or, without any, for what is usual on this trunk."""
        try:
            wish = on_loss_of(words) if words else self._usual
        except ValueError:
            return refused('it wants keep, or clear or block and seconds')
        if wish.seconds is None:
            self._asked.pop(client, None)
        else:
            self._asked[client] = DisconnectClient(wish, now)
        self._due = None
        return DONE

    def has_request_of(self, client: object) -> bool:
        """Whether something is to be done when it is gone."""
        return client in self._asked

    def on_message(self, client: object, now: float) -> None:
        """A client has said something: it is there."""
        if its := self._asked.get(client):
            if its.is_silent:
                self._due = None
            its.said, its.is_silent = now, False

    def on_disconnect(self, client: object, now: float) -> None:
        """A client is gone."""
        its = self._asked.pop(client, None)
        if its and not its.is_silent:
            self._carry_out(its.wish, now)

    def _carry_out(self, wish: DisconnectPolicy, since: float) -> None:
        if wish.seconds is not None and all(each.is_silent for each in self._asked.values()):
            self._due, self._blocks = since + wish.seconds, wish.blocks

    def clear_due(self, now: float) -> None:
        """To be called a few times a second. (What came while this process stood still is not read yet.)"""
        stood, self._looked = now - self._looked, now
        for its in self._asked.values():
            if stood > LOOKS:
                its.said += stood
            if its.wish.alive is not None and not its.is_silent and now - its.said > its.wish.alive:
                its.is_silent = True
                self._carry_out(its.wish, its.said)
        if self._due is not None and now >= self._due:
            self._due = None
            self._clear('the last control client is gone', self._blocks)


class OutageWatch:
    """Clears the calls of a trunk that has been out of service for a number of seconds; never if that is None."""

    def __init__(self, seconds: float | None, clear: Callable[[str], None]) -> None:
        self._seconds, self._clear = seconds, clear
        self._since: float | None = None
        self._has_cleared = False

    def clear_due(self, now: float, outage: str | None) -> None:
        """To be called now and then, with why the trunk is out of service, or None."""
        if outage is None:
            self._since, self._has_cleared = None, False
            return
        self._since = now if self._since is None else self._since
        if self._seconds is not None and not self._has_cleared and now - self._since >= self._seconds:
            self._has_cleared = True
            self._clear(f'the trunk has been dark for {self._seconds:g} s')
