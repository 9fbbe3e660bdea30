"""Two whole ties in one process, by a clock that goes on when there is nothing to do: whatever happens to exchanges,
trunks, connection and programs, both ends of each circuit agree soon after it."""
from __future__ import annotations

import asyncio
import itertools
import json
from collections import deque
from typing import Any, Coroutine

from .properties import PropertyCase
from .test_tie_circuit import ACKED, ANSWERED, BLOCKED, CLEAREDBACK, RELEASING, disagreement
from .ties import ANSWER, G726, HELD, IDLE, SEIZED, StandInDriver
from e1gw_common.lines import Role, State
from e1gw_tie.coding import SIGNALLING
from e1gw_tie.messages import encode_message, message_of
from e1gw_tie.pairs import Pairs
from e1gw_tie.tie import Tie, TieOptions
from e1gw_tie.trunk import told_by

JOINED = range(1, 5)        # on odd ones the west calls, on even ones the east
HOLD, REST = 3.0, 12.0      # seconds
RUNS = itertools.count()
Step = tuple[str, int, int, Any]        # what is done, to which side, to which circuit, and how


class PlayedLoop(asyncio.SelectorEventLoop):
    """An event loop whose clock goes on once there is nothing to do."""

    def __init__(self) -> None:
        super().__init__()
        self.now = 0.0
        setattr(getattr(self, '_selector'), 'select', self.select)

    def time(self) -> float:
        return self.now

    def select(self, timeout: float | None = None) -> list[Any]:
        assert timeout is not None, 'nothing will ever happen'
        self.now += timeout
        return []


class JoinedTrunk(StandInDriver):
    """A trunk of four circuits, whose tie talks to it and to the other site without a socket."""

    def __init__(self, side: int, until: str | None = None, pairs: Pairs | None = None, waits: bool = False) -> None:
        super().__init__('', {n: Role.OUTGOING if n % 2 == side else Role.INCOMING for n in JOINED})
        self.acknowledges, self.options = True, TieOptions('', pairs, HOLD, waits, until)
        self.other: JoinedTrunk | None = None           # while the sites are connected
        self.events, self.on_way = list[dict[str, Any]](), deque[tuple[Tie, bytes]]()
        self.follows: asyncio.Task[None] | None = None
        self.starts()

    def starts(self) -> None:
        """A tie is started, which knows nothing."""
        self.down() if self.follows else None
        self.apart()
        self.tie = Tie(self.options, f'{next(RUNS)}', lambda report: self.events.append(report.plain()))
        setattr(self.tie, 'site', self)
        setattr(self.tie.trunk, 'ask', self.asks)
        self.tie._hold_calls()
        self.up()

    def up(self) -> None:
        """The tie finds its trunk."""
        self.follows = self.follows or asyncio.create_task(self.tie.trunk._poll())

    def down(self) -> None:
        """It loses it."""
        if self.follows:
            self.follows.cancel()
        self.follows, self.tie.trunk.is_up = None, False
        self.tie.on_trunk_lost()

    def anew(self) -> None:
        """The trunk has forgotten how often each line was seized."""
        self.down()
        self.life, self.seizures = f'{self.life}a', dict.fromkeys(JOINED, 0)
        self.up()

    def operator(self, n: int, blocks: bool) -> None:
        """The operator blocks a circuit, or takes that back."""
        self.blocked = self.blocked | {n} if blocks else self.blocked - {n}
        self.obey(['block' if blocks else 'unblock', str(n), 'auto'])

    async def asks(self, line: str) -> str:
        await asyncio.sleep(0.001)
        if not self.follows:
            raise EOFError
        answer = self.obey(line.split())
        await asyncio.sleep(0)          # (events that were told before come before it)
        return answer

    def send_event(self, **event: Any) -> None:
        if self.tie.trunk.is_up:
            asyncio.get_running_loop().call_soon(self.tie.on_event, told_by(json.dumps(event)))

    def joins(self, other: JoinedTrunk) -> None:
        """The sites are connected."""
        if self.other is None:
            self.other, other.other = other, self
            self.tie.on_connect(other.tie.own_greeting)
            other.tie.on_connect(self.tie.own_greeting)

    def apart(self) -> None:
        """They are no more."""
        for each in (self, self.other) if self.other else ():
            each.other = None
            each.tie.on_disconnect('closed')

    def send(self, message: Any, pair: int = -1) -> None:
        """The tie sends to the other site; or the exchange sends bits of a circuit."""
        if pair >= 0:
            super().send(message, pair)
        elif self.other:
            self.on_way.append((self.other.tie, encode_message(message)))
            asyncio.get_running_loop().call_later(0.001, self.comes)

    def comes(self) -> None:
        """The next message is there, if the sites are connected as they were."""
        tie, octets = self.on_way.popleft()
        if self.other and self.other.tie is tie:
            tie.on_message(message_of(octets))


def played(scene: Coroutine[Any, Any, None]) -> None:
    with asyncio.Runner(loop_factory=PlayedLoop) as runner:
        runner.run(scene)


class TogetherTests(PropertyCase):
    """Two trunks whose ties are connected, and their exchanges."""

    async def joined(self, *trunks: JoinedTrunk) -> None:
        """They are connected and at rest."""
        self.trunks = self.west, self.east = trunks
        self.west.joins(self.east)
        await self.rests(1.0)

    async def rests(self, seconds: float) -> None:
        """Exchanges go on meanwhile, whose bits are recognised."""
        loop = asyncio.get_running_loop()
        until = loop.time() + seconds
        while loop.time() < until:
            await asyncio.sleep(0.1)
            for trunk in self.trunks:
                trunk.recognise()

    async def sends(self, trunk: JoinedTrunk, pair: int, *states: State) -> None:
        """An exchange sends these bits on circuit 1, on which the west calls; then its two ends are in these states."""
        trunk.send(1, pair)
        await self.rests(4.0)
        self.assertEqual((self.west.states[1], self.east.states[1]), states)

    def commands(self, trunk: JoinedTrunk) -> list[str]:
        """What a tie has done on circuit 1, behind the first block and its end, once all of them are at an end."""
        for each in self.trunks:
            each.down()
        return [each['command'] for each in trunk.events
                if each['event'] == 'command' and each['circuit'] == 1 and 'block' not in each['command']]

    # ---- scenes ----

    def test_congestion(self) -> None:
        """A call that the other exchange does not acknowledge is passed on once. Its caller is answered and cleared
        back; where no answer may be feigned he waits."""
        async def scene(waits: bool, state: State, *told: str) -> None:
            await self.joined(JoinedTrunk(0, waits=waits), JoinedTrunk(1))
            self.east.acknowledges = False
            await self.sends(self.west, SEIZED, ACKED, State.SEIZED)
            self.east.move(1, RELEASING)
            await self.sends(self.east, IDLE, state, State.IDLE)
            self.assertEqual(self.west.tie.given_up, 1)
            await self.sends(self.west, IDLE, State.IDLE, State.IDLE)
            self.assertEqual((self.commands(self.west), self.commands(self.east)), ([*told], ['seize']))
        played(scene(False, CLEAREDBACK, 'answer', 'clear-back'))
        played(scene(True, ACKED))

    def test_release_not_followed(self) -> None:
        """It is a fault to the other end until the exchange follows it."""
        async def scene() -> None:
            await self.joined(JoinedTrunk(0), JoinedTrunk(1))
            await self.sends(self.west, SEIZED, ACKED, ACKED)
            self.east.acknowledges = False
            await self.sends(self.west, IDLE, BLOCKED, RELEASING)
            self.assertEqual([each['circuit'] for each in self.east.events if each['event'] == 'stuck'], [1])
            await self.sends(self.east, IDLE, State.IDLE, State.IDLE)
            self.commands(self.east)
        played(scene())

    def test_the_other_site_goes(self) -> None:
        """No circuit can be seized from then on. Calls are kept for a while, then they are cleared."""
        async def scene() -> None:
            await self.joined(JoinedTrunk(0), JoinedTrunk(1))
            await self.sends(self.west, SEIZED, ACKED, ACKED)
            self.west.apart()
            for seconds, states in (HOLD - 0.5, (ACKED, ACKED, BLOCKED)), (1.0, (CLEAREDBACK, State.IDLE, BLOCKED)):
                await self.rests(seconds)
                self.assertEqual((self.west.states[1], self.east.states[1], self.west.states[3]), states)
            self.commands(self.east)
        played(scene())

    # ---- whatever happens ----

    async def play(self, until: str | None, pairs: Pairs | None, steps: list[Step]) -> None:
        await self.joined(JoinedTrunk(0, until, pairs), JoinedTrunk(1, until))
        for what, side, n, how in steps:
            trunk = self.trunks[side]
            if what == 'send':
                trunk.send(n, how)
            elif what == 'operator':
                trunk.operator(n, how)
            elif what == 'alarm':
                trunk.alarm = how
                trunk.send_event(event='alarm', what='frame', on=how)
            elif what == 'wait':
                await self.rests(how)
            elif what == 'joins':
                trunk.joins(self.trunks[1 - side])
            else:
                getattr(trunk, what)()
        for trunk in self.trunks:
            trunk.alarm = False
            trunk.up()
        self.west.joins(self.east)
        await self.rests(REST)
        self.look(until, pairs or {n: n for n in JOINED})
        await self.call(until, pairs or {n: n for n in JOINED})
        self.commands(self.west)
        await asyncio.sleep(1.0)

    async def call(self, until: str | None, pairs: Pairs) -> None:
        """Calls on all circuits, from their seizure to their end, once nothing keeps them up."""
        for trunk, n in itertools.product(self.trunks, JOINED):
            trunk.operator(n, False)
            trunk.send(n, IDLE)
        await self.rests(3.0)
        for role, pair, state in ((Role.INCOMING, SEIZED, ACKED), (Role.OUTGOING, ANSWER, ANSWERED),
                                  (Role.OUTGOING, HELD, CLEAREDBACK), (Role.OUTGOING, ANSWER, ANSWERED),
                                  (Role.INCOMING, IDLE, State.IDLE)):
            for trunk, n in itertools.product(self.trunks, JOINED):
                if trunk.roles[n] is role:
                    trunk.send(n, pair)
            await self.rests(1.0)
            self.assertEqual([{*trunk.states.values()} for trunk in self.trunks], [{state}] * 2)
            self.look(until, pairs)

    def look(self, until: str | None, pairs: Pairs) -> None:
        """The ends agree, and each circuit has the codec that its state needs."""
        for here, there in pairs.items():
            ends = self.west.tie.circuits[here], self.east.tie.circuits[there]
            near, far = ends if self.west.roles[here] is Role.INCOMING else ends[::-1]
            self.assertIsNone(disagreement(near, far), (near, far))
            self.assertEqual((self.west.states[here], self.east.states[there]), (ends[0].state, ends[1].state))
        for trunk, n in itertools.product(self.trunks, JOINED):
            speaks = trunk.states[n] in (ANSWERED, CLEAREDBACK)
            self.assertEqual(trunk.codecs[n], SIGNALLING[until] if until and not speaks else G726)
        self.assertEqual({trunk.tie.link.value for trunk in self.trunks}, {'good'})

    def test_both_ends_agree(self) -> None:
        """Whatever happens to exchanges, trunks, connection and programs: once all is well, and at rest."""
        st = self.st
        side, circuit = st.sampled_from((0, 1)), st.sampled_from(list(JOINED))

        def step(what: str, how: Any) -> Any:
            return st.tuples(st.just(what), side, circuit, how)
        steps = st.one_of(
            step('send', st.sampled_from((IDLE, SEIZED, ANSWER, HELD))),
            step('send', st.sampled_from((SEIZED, ANSWER))),
            step('wait', st.sampled_from((0.01, 0.3, 1.0, 4.0))), step('alarm', st.booleans()),
            step('operator', st.booleans()),
            *(step(what, st.none()) for what in ('joins', 'apart', 'up', 'down', 'anew', 'starts')))

        def check(until: str | None, pairs: Pairs | None, chosen: list[Step]) -> None:
            played(self.play(until, pairs, chosen))
        pairs = st.sampled_from((None, {1: 3, 2: 4, 3: 1, 4: 2}))
        self.holds(check, st.sampled_from((None, 'pcma')), pairs, st.lists(steps, max_size=15), examples=80)
