"""One end of a tie line, between the e1gw-watch here and the other site's tie."""
from __future__ import annotations

import asyncio
import time
from collections import Counter
from dataclasses import dataclass, replace

from e1gw_common.lines import IN_CALL, Role, State
from e1gw_common.session import Command
from .circuit import NO_CALL, CircuitEnd, LinkState, TieCircuit, start_circuit, call_name
from .coding import CodecChanges, Coding
from .events import (CallOver, CommandAnswered, Dark, Light, LinkChanged, ReleaseStuck, SiteCame, SiteGone, Tell,
                     TrunkFollowed, Warned)
from .messages import Greeting, Message, SiteState
from .pairs import Pairs, agreed
from .site import Site
from .trunk import CodecTold, DarkTold, FollowedTrunk, StateTold, Told, TrunkLink

STUCK = 2.0                 # seconds of a release that the exchange ignores
ANSWER_LASTS = 0.1          # seconds of an answer at least, so that the exchange recognises it
AGAIN = 0.5                 # seconds until a refused command is retried


@dataclass(frozen=True)
class TieOptions:
    """The options of the tie."""

    control: str
    pairs: Pairs | None
    hold: float
    waits: bool             # no false answer reports congestion
    until_answer: str | None = None     # the codec of each call until it is answered


class Tie:
    """Joins the circuits of the trunk here with those of the other site."""

    def __init__(self, options: TieOptions, run: str, tell: Tell) -> None:
        self.options, self.put_report = options, tell
        self.own_greeting, self.start = Greeting(run, options.pairs), time.monotonic()
        self.site: Site | None = None
        self.circuits: dict[int, TieCircuit] = {}
        self.there = agreed(options.pairs, None)        # by a circuit here, the one there
        self.link = LinkState.LOST                      # the connection between the two trunks
        self._giving_up: asyncio.TimerHandle | None = None
        self.out_of_service = self.far_out_of_service = True
        self.trunk = TrunkLink(options.control, options.hold, self)
        self.codecs = CodecChanges(options.until_answer, self.trunk, tell, self._update_circuit)
        self.done = Counter[tuple[str, str]]()          # how often which command got which answer
        self.given_up = 0                               # calls that could not be set up, or that were lost
        self._life, self._seizures = '', dict[int, int]()       # of the trunk, and how often each line was seized in it
        self.far: dict[int, CircuitEnd] | None = None           # the other site's states, by its numbers; None: unknown
        self._busy: dict[int, Command] = {}

    async def run(self) -> None:
        """Follows the trunk here for ever."""
        self._hold_calls()
        await self.trunk.run()

    # ---- the trunk here ----

    def on_trunk_lost(self) -> None:
        self._set_out_of_service(True)

    def begin(self, status: FollowedTrunk) -> None:
        """Takes all circuits from the trunk, with what is remembered of their calls."""
        self._life = status.life or ''
        for row in status.circuits:
            n, role, kept = row.line.circuit, row.line.role, row.blocked is not None
            self._seizures[n] = row.line.seizures
            known = self.circuits.get(n)
            call = call_name(self._life, self._seizures[n]) if role is Role.INCOMING else known.call if known else None
            self.circuits[n] = start_circuit(known, TieCircuit(role, row.line.state, call, kept=kept))
        states = Counter(str(circuit.state) for circuit in self.circuits.values())
        self.put_report(TrunkFollowed(dict(sorted(states.items()))))
        self.codecs.begin(status)
        self._join()
        self.on_status(status)
        self._send_all()

    def on_status(self, status: FollowedTrunk) -> None:
        """Takes the status of the trunk, makes up for missed events, and finds releases that are not followed."""
        self._set_out_of_service(status.is_out_of_service())
        for row in status.circuits:
            line, n = row.line, row.line.circuit
            self.codecs.on_codec(n, Coding(line.codec, line.payload))
            self._set_circuit(n, replace(self.circuits[n], kept=row.blocked is not None))
            if n not in self._busy:
                circuit, state, self._seizures[n] = self.circuits[n], line.state, line.seizures
                call = call_name(self._life, self._seizures[n]) if circuit.role is Role.INCOMING else circuit.call
                if state is not circuit.state or call != circuit.call:
                    circuit = circuit.with_state(state, None if call == circuit.call else call)
                if state is State.RELEASING and line.for_ >= STUCK and not circuit.stuck:
                    circuit = replace(circuit, stuck=True)
                    self.put_report(ReleaseStuck(n))
                self._set_circuit(n, circuit)

    def on_event(self, event: Told) -> None:
        """Takes an event of the trunk."""
        match event:
            case StateTold(n, was, state):
                self._set_state(n, was, state)
            case CodecTold(n, codec, payload):
                self.codecs.on_codec(n, Coding(codec, payload))
                self._update_circuit(n)
            case DarkTold():
                self._set_out_of_service(True)

    def _set_state(self, n: int, was: State, state: State) -> None:
        circuit, call = self.circuits[n], None
        if circuit.role is Role.INCOMING and state is State.ACKED and was is State.IDLE:
            self._seizures[n] += 1
            call = call_name(self._life, self._seizures[n])
        if self._busy.get(n) is Command.SEIZE and state is State.SEIZED and circuit.far:
            circuit = circuit.with_attempt(circuit.far.call or NO_CALL)
        self._set_circuit(n, circuit.with_state(state, call))

    def _set_circuit(self, n: int, circuit: TieCircuit) -> None:
        """Takes a circuit's new values: sends them to the other site and acts on them."""
        before, self.circuits[n] = self.circuits[n], circuit
        if before.end() != circuit.end():
            self._send(n)
        self._update_circuit(n)

    # ---- commands ----

    def _link_of(self, n: int) -> LinkState:
        """The connection to a circuit's other end. One that cannot be joined has none."""
        far = self.circuits[n].far
        if self.link is LinkState.GOOD and (far is None or far.role is self.circuits[n].role):
            return LinkState.GIVEN_UP
        return self.link

    def _update_circuit(self, n: int) -> None:
        """Gives a circuit the codec and the command that it needs."""
        if n not in self.there:
            return
        self.codecs.give_codec(n, self.circuits[n].state)
        if not self.trunk.is_up or n in self._busy:
            return
        link = self._link_of(n)
        marked_over = self.circuits[n].marked_over(link)
        if marked_over is not self.circuits[n]:
            self.given_up += 1
            self.put_report(CallOver(n, marked_over.call, link.value))
            self.circuits[n] = marked_over
            self._send(n)
        command = marked_over.next_command(link, self.options.waits)
        if command is not None:
            self._busy[n] = command
            self.trunk.begin(self._send_command(n, command, marked_over.clear_reason(command, link)))

    def _look_at_all(self) -> None:
        for n in list(self.circuits):
            self._update_circuit(n)

    async def _send_command(self, n: int, command: Command, why: str | None) -> None:
        loop = asyncio.get_running_loop()
        far, began = self.circuits[n].far, loop.time()
        auto = ' auto' * (command in (Command.BLOCK, Command.UNBLOCK))      # (no operator's)
        answer = await self.trunk.answer(f'{command.word} {n}{auto}')
        if answer is None:
            del self._busy[n]
            return
        self.done[command.word, answer.short] += 1
        self.put_report(CommandAnswered(n, command.word, answer.short, round((loop.time() - began) * 1000, 2), why))
        if command is Command.SEIZE:
            self._set_circuit(n, self.circuits[n].with_attempt(far.call or NO_CALL if far else NO_CALL))
        if not answer.is_done or command is Command.ANSWER:
            await asyncio.sleep(ANSWER_LASTS if answer.is_done else AGAIN)
        del self._busy[n]
        self._update_circuit(n)

    async def restore_codecs(self) -> None:
        """Restores the configured codec of circuits without a call, before the end."""
        await self.codecs.restore(n for n, circuit in self.circuits.items() if circuit.state not in IN_CALL)

    # ---- the link ----

    def _set_out_of_service(self, on: bool) -> None:
        """Notes whether the trunk here can carry calls."""
        if on != self.out_of_service:
            self.out_of_service = on
            self.put_report(Dark() if on else Light())
            if self.site:
                self.site.send(SiteState(on, {}))
            self._look_at_link()

    def _hold_calls(self) -> None:
        """Calls are kept for some seconds without the other end."""
        self._giving_up = asyncio.get_running_loop().call_later(self.options.hold, self._set_link, LinkState.GIVEN_UP)

    def _look_at_link(self) -> None:
        """Follows whether both trunks carry calls and know of each other."""
        good = (self.trunk.is_up and self.far is not None and not self.out_of_service
                and not self.far_out_of_service)
        if good is not (self.link is LinkState.GOOD):
            if self._giving_up:
                self._giving_up.cancel()
            if not good:
                self._hold_calls()
            self._set_link(LinkState.GOOD if good else LinkState.LOST)

    def _set_link(self, state: LinkState) -> None:
        self.link = state
        self.put_report(LinkChanged(state.value, self.far is not None, self.out_of_service, self.far_out_of_service))
        self._look_at_all()

    # ---- the other site ----

    def on_connect(self, greeting: Greeting) -> None:
        self.there = agreed(self.options.pairs, greeting.pairs)
        left = sorted(set(agreed(self.options.pairs, None)) - set(self.there)) if greeting.pairs else []
        self.put_report(SiteCame(len(self.there), tuple(left)))
        self._send_all()

    def on_message(self, message: Message) -> None:
        """Takes what the other site says; a keepalive is nothing."""
        if not isinstance(message, SiteState):
            return
        if message.out_of_service is not None:
            self.far_out_of_service = message.out_of_service
        if message.all:
            self.far = dict(message.ends)
            self.codecs.on_far_codec(message.until_answer)
            self._join()
        elif self.far is not None:
            self.far |= message.ends
            for here, there in self.there.items():
                if there in message.ends and here in self.circuits:
                    self._set_circuit(here, self.circuits[here].with_far(message.ends[there]))
        self._look_at_link()
        if message.all:
            self._look_at_all()

    def on_disconnect(self, why: str) -> None:
        self.put_report(SiteGone(why))
        self.far = None
        self._look_at_link()

    def _join(self) -> None:
        """Gives each circuit the other site's state of its other end."""
        alike, far = [], self.far or {}
        for here, end in ((here, far[there]) for here, there in self.there.items()
                          if here in self.circuits and there in far):
            before, self.circuits[here] = self.circuits[here], self.circuits[here].with_far(end)
            if before.end() != self.circuits[here].end():
                self._send(here)
            if end.role is before.role:
                alike.append(here)
        if alike:
            self.put_report(Warned('both ends have the same role', tuple(alike)))

    def _send(self, n: int) -> None:
        if self.site and n in self.there:
            self.site.send(SiteState(None, {n: self.circuits[n].end()}))

    def _send_all(self) -> None:
        """Sends the state of all circuits, once it is known."""
        if self.site and self.circuits:
            ends = {n: self.circuits[n].end() for n in self.there if n in self.circuits}
            self.site.send(SiteState(self.out_of_service, ends, self.codecs.own, all=True))
        if self.far is not None:
            self._join()
            self._look_at_link()
