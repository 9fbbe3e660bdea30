"""Who clears calls: clients that are gone, and a trunk out of service, by a clock of their own."""
from __future__ import annotations

import asyncio
import unittest
from math import inf
from typing import Any, NamedTuple
from unittest import mock

from .properties import PropertyCase
from e1gw.clearing import DisconnectPolicy, DisconnectWatch, OutageWatch, on_loss_of
from e1gw.watcher.commands import CommandServer

LOOK = 0.125                # seconds between two looks


class ClearingTests(unittest.TestCase):
    def test_words(self) -> None:
        """The limits of both times are of it, and nothing beside them."""
        for words, policy in (('keep', DisconnectPolicy()), ('clear 0', DisconnectPolicy(0.0)),
                              ('block 86400', DisconnectPolicy(86400.0, True)),
                              ('clear 3 alive 1', DisconnectPolicy(3.0, False, 1.0)),
                              ('block 0.5 alive 86400', DisconnectPolicy(0.5, True, 86400.0))):
            self.assertEqual(on_loss_of(words.split()), policy, words)
        for words in ('', 'keep 1', 'clear', 'seize 3', 'clear -0.1', 'clear 86400.1', 'clear nan', 'clear x',
                      'clear 3 alive', 'clear 3 alive 0.9', 'clear 3 alive 86401', 'clear 3 after 2', 'clear 3 4',
                      'block 3 alive 2 5'):
            with self.subTest(words), self.assertRaisesRegex(ValueError, f'^--on-loss {words} is not keep'):
                on_loss_of(words.split())

    def test_an_outage(self) -> None:
        """Once in each outage that lasts so long."""
        cleared: list[str] = []
        watch, never = OutageWatch(3.0, cleared.append), OutageWatch(None, cleared.append)
        for now, outage in ((100.0, 'dark'), (102.0, None), (103.0, 'dark'), (105.9, 'dark')):
            watch.clear_due(now, outage)
            never.clear_due(now + 1000 * now, outage)
        self.assertEqual(cleared, [])
        for now in (106.0, 120.0):
            watch.clear_due(now, 'dark')
        self.assertEqual(cleared, ['the trunk has been dark for 3 s'])
        watch = OutageWatch(0.5, cleared.append)            # (that has known no trunk in service)
        watch.clear_due(7.0, 'dark')
        watch.clear_due(7.5, 'dark')
        self.assertEqual(cleared[1:], ['the trunk has been dark for 0.5 s'])

    def test_a_silent_client(self) -> None:
        """Three seconds behind the one of silence by which it counts as gone calls are cleared, and not again."""
        cleared, now = list[float](), 100.0
        watch = DisconnectWatch(DisconnectPolicy(), lambda why, blocks: cleared.append(now))
        watch.clear_due(now)
        watch.request('one', ['clear', '3', 'alive', '1'], now)
        watch.request('other', ['clear', '9', 'alive', '7'], now)
        watch.on_disconnect('other', now)
        for _ in range(80):
            now += LOOK
            watch.clear_due(now)
        self.assertEqual(cleared, [103.0])

    def test_each_line_is_a_sign(self) -> None:
        async def comes() -> list[str]:
            trunk, reader = mock.Mock(), asyncio.StreamReader()
            reader.feed_data(b'\nhelp\n')
            reader.feed_eof()
            await CommandServer(trunk).on_connect(reader, mock.Mock(drain=mock.AsyncMock()))
            return [name for name, *_ in trunk.disconnects.mock_calls]
        self.assertEqual(asyncio.run(comes()), ['on_message', 'on_message', 'on_disconnect'])


class HeardClient(NamedTuple):
    """A client that asked, and when it was heard last."""

    wish: DisconnectPolicy
    heard: float

    def is_silent(self, now: float) -> bool:
        return now - self.heard > (self.wish.alive or inf)


class RememberedClients:
    """Who is there, and when calls are to be cleared by the wish of the last one that was."""

    def __init__(self, usual: DisconnectPolicy) -> None:
        self.there, self.due, self.wish, self.usual = dict[str, HeardClient](), inf, usual, usual

    def asks(self, who: str, words: list[str], now: float) -> None:
        wish = on_loss_of(words) if words else self.usual
        self.there.pop(who, None)
        self.there |= {} if wish.seconds is None else {who: HeardClient(wish, now)}
        self.due = inf

    def says(self, who: str, now: float) -> None:
        if its := self.there.get(who):
            self.due = inf if its.is_silent(now) else self.due
            self.there[who] = HeardClient(its.wish, now)

    def leaves(self, who: str, now: float) -> None:
        its = self.there.pop(who, None)
        if its and not its.is_silent(now):
            self.lost(its.wish, now, now)

    def lost(self, wish: DisconnectPolicy, heard: float, now: float) -> None:
        if all(each.is_silent(now) for each in self.there.values()):
            self.due, self.wish = heard + (wish.seconds or 0.0), wish

    def goes_on(self, seconds: float, now: float) -> None:
        """This process has looked, or has stood still, for so long up to now."""
        for who, its in self.there.items():
            if seconds > 0.5:
                self.there[who] = HeardClient(its.wish, its.heard + seconds)
            elif its.is_silent(now) and not its.is_silent(now - seconds):
                self.lost(its.wish, its.heard, now)


class ClearingPropertyTests(PropertyCase):
    def test_whoever_comes_and_goes(self) -> None:
        """Each look clears by the last one's wish if it is time, and then no more."""
        st = self.st
        who = st.sampled_from(('one', 'two'))
        asks = st.sampled_from(('keep', 'clear 1', 'clear 4 alive 1', 'block 3 alive 2', 'block 3 alive 2', ''))
        steps = st.one_of(
            st.tuples(st.just('asks'), who, asks), *(st.tuples(st.just(what), who, st.just('')) for what in (
                'says', 'says', 'leaves')), st.tuples(st.sampled_from((1, 7, 13, 18, 32)), st.just(LOOK), st.just('')),
            st.sampled_from(((1, 30.0, ''), (1, 0.75, ''), (2, 0.5, ''))))

        def check(chosen: list[tuple[Any, Any, str]]) -> None:
            clients, cleared, now = RememberedClients(DisconnectPolicy(2.0, True)), list[bool](), 0.0
            watch = DisconnectWatch(clients.usual, lambda _, blocks: cleared.append(blocks))
            watch.clear_due(now)
            ends = [('leaves', each, '') for each in ('one', 'two')]
            for what, how, words in [*chosen, *ends, (32, LOOK, '')]:
                if what == 'asks':
                    clients.asks(how, words.split(), now)
                    self.assertTrue(watch.request(how, words.split(), now).is_done)
                elif what in ('says', 'leaves'):
                    getattr(clients, what)(how, now)
                    {'says': watch.on_message, 'leaves': watch.on_disconnect}[what](how, now)
                for _ in range(what if isinstance(what, int) else 0):
                    now += how
                    clients.goes_on(how, now)
                    watch.clear_due(now)
                    self.assertEqual(cleared, [clients.wish.blocks] * (now >= clients.due))
                    if cleared:
                        cleared.clear()
                        clients.due = inf
        self.holds(check, st.lists(steps, max_size=20))
