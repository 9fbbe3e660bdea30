"""The scenes of scripts/dahdi, which run inside its machine: python3 -m dahdi_scenes NAME.. runs those of these names.
Each prints a line `passed NAME: figures` or `failed NAME: why`."""
from __future__ import annotations

import os
import signal
import subprocess
import sys
import time
import traceback
from dataclasses import dataclass
from functools import partial
from pathlib import Path
from typing import Callable, Iterator

import dahdi_inside as inside
from paths import TOP
from dahdi_inside import BACK, DEVICES, Site, SceneFailed, asks, until
from dahdi_far import FarEnd, openr2, simulated
from dahdi_start import pasted
from dahdi_talk import Talk, figures
from e1gw.card_opening import open_device
from e1gw.dahdi import Alarm, Blocks
from e1gw.events import CardAlarm, CardAlarmChanged
from e1gw_common.lines import State
from e1gw_testing.openr2 import OpenR2
from e1gw_testing.service import ask

# Seconds between the starts of two trunks: half of those between two states that a program writes into its log, each in
# 10 ms. The two would have a machine each; here both have one processor, and would write theirs at the same moment.
APART = 2.0
PORTS = (24002, 34002), (24102, 34102)      # of e1gw-config, local and its peer's, of both sites
THIRTY = range(1, 31)
DEFAULT = Blocks(16, 16)
NOBODY = 65534
# What a card counts, in the order in which our module gives them.
COUNTS = ('bipolar_violations', 'crc4_errors', 'e_bits', 'alignment_signal_errors', 'framing_errors', 'code_violations',
          'bit_errors', 'errored_seconds', 'interrupts_missed')
FIRST = 11
R2 = 'R2 call of libopenr2'


@dataclass(frozen=True)
class Scene:
    """A scene: its name, and what it does; that returns figures, or raises SceneFailed."""

    name: str
    does: Callable[[], str]


class Pair:
    """Two sites, one on each span, aligned."""

    def __init__(self) -> None:
        inside.configured()
        self.west = Site('west', 0)
        time.sleep(APART)
        self.east = Site('east', 1)
        self.sites = [self.west, self.east]
        self.are_heard()

    def are_heard(self, seconds: float = inside.SOON) -> None:
        for site in self.sites:
            until(site.is_heard, f'{site.name} has alignment', seconds, site.status)

    def calls(self) -> None:
        """All thirty answered."""
        if self.are_answered():
            return
        self.west.commands('seize', THIRTY)
        until(lambda: self.west.states() == {'acked'}, 'thirty acked', found=self.west.states)
        self.east.commands('answer', THIRTY)
        until(self.are_answered, 'thirty answered', found=self.west.states)

    def are_answered(self) -> bool:
        return self.west.states() == self.east.states() == {'answered'}

    def goes_on(self, before: list[int]) -> bool:
        """Whether the west has another program than before, and both have alignment. (A service that has just begun
        was told nothing yet.)"""
        is_told = State.UNKNOWN not in self.west.states()
        return bool(set(self.west.programs()) - set(before)) and is_told and all(s.is_heard() for s in self.sites)

    def talk(self, seconds: float) -> Talk:
        talk = Talk(PORTS, THIRTY, seconds)
        talk.run()
        return talk

    def end(self) -> None:
        for site in self.sites:
            site.end()


class Shared:
    """The pair that scenes share, begun by the first one, and by the one behind a scene that failed."""

    pair: Pair | None = None

    @classmethod
    def begun(cls) -> Pair:
        cls.pair = cls.pair or Pair()
        return cls.pair

    @classmethod
    def end(cls) -> None:
        pair, cls.pair = cls.pair, None
        if pair:
            pair.end()


# ---- the scenes ----

def thirty_calls() -> str:
    """By the options of docs/START.md."""
    pair = Shared.begun()
    pair.calls()
    for site in pair.sites:
        site.put_first()
    before = [site.losses() for site in pair.sites]
    talk = pair.talk(10)
    after = [site.losses() for site in pair.sites]
    compared = talk.compared()
    told = figures(compared)
    if before != after or any(one.wrong or one.missing or not one.octets for one in compared):
        raise SceneFailed(f'slot 16 and multiframe alignment lost: {before} before, {after} behind; sent late by '
                          f'{talk.late:.3f} s at most; {told}')
    return told


def killed() -> str:
    """Whatever is killed or replaced, the calls stay."""
    pair, took = Shared.begun(), dict[str, float]()
    pair.calls()
    west = pair.west
    acts: dict[str, Callable[[], None]] = {
        'program': lambda: os.kill(west.programs()[0], signal.SIGKILL),
        'reload': lambda: west.service.driver.send_signal(signal.SIGHUP), 'e1gw-trunk': west.killed}
    for what, ends in acts.items():
        before = west.programs()
        ends()
        took[what] = until(partial(pair.goes_on, before), f'both have alignment again behind: {what}')
        asks(pair.are_answered(), f'{what}: {pair.west.states()}, {pair.east.states()}')
    return 'thirty calls stay; alignment again after ' + ', '.join(f'{s:.1f} s ({what})' for what, s in took.items())


def removed() -> str:
    """A card goes: one end knows it, the other one has an alarm. Both come back with it."""
    pair = Shared.begun()
    pair.calls()
    program, card = pair.west.programs(), inside.remove(1)
    alarm = until(lambda: pair.west.transport().get('red') == 1, 'the west has RED')
    until(lambda: not pair.east.status().get('trunk_up', True), 'the east has no trunk')
    asks(pair.west.has_printed('card: RED alarm: '), 'the west says nothing of RED')
    inside.has_all(pair.east.service.printed(), 'the card is gone')
    refusal = pair.west.service.ask('seize 1')
    time.sleep(3)
    inside.give_back(1, card)
    back = until(lambda: pair.east.transport().get('red') == 0, 'the east has its card again', BACK)
    pair.are_heard(BACK)
    until(lambda: pair.west.has_printed('card: RED alarm over'), 'the west says that RED is over', BACK)
    asks(pair.are_answered(), f'{pair.west.states()}, {pair.east.states()}')
    asks(pair.west.programs() == program, 'the alarm has ended the program of the west')
    return f'RED within {alarm:.1f} s (seize: {refusal}), open {back:.1f} s behind the card, thirty calls stay'


TOLD = (
    # (an alarm of the west, as its card's driver tells it; whether by maintenance)
    (Alarm.BLUE, False), (Alarm.NOT_OPEN, False), (Alarm.LOOPBACK, True),
)


def share(process: int, seconds: float) -> float:
    """How much of a processor a process has in the next seconds."""
    before, began = inside.had(process), time.monotonic()
    time.sleep(seconds)
    return (inside.had(process) - before) / (time.monotonic() - began)


def alarms() -> str:
    """Each alarm is told, with what to do, and its end. The calls stay, and the program does not run on meanwhile."""
    pair = Shared.begun()
    pair.calls()
    west, program = pair.west, pair.west.programs()
    shares = [share(program[0], 2)]
    with inside.alarms_module():
        for alarm, is_maintenance in TOLD:
            inside.set_alarms(0, alarm, is_maintenance)
            has_alarm(west, alarm)
            shares.append(share(program[0], 2))
            inside.set_alarms(0, 0)
            until(lambda: west.has_printed(f'card: {alarm.names()[0]} alarm over'), f'{alarm.name} is over')
        inside.cut(1)
        has_alarm(pair.east, Alarm.RED)
        has_alarm(west, Alarm.YELLOW)
        shares.append(share(program[0], 2))
        inside.cut(None)
        until(lambda: west.has_printed('card: YELLOW alarm over'), 'YELLOW is over')
        until(lambda: pair.east.has_printed('card: RED alarm over'), 'RED is over', BACK)
        pair.are_heard(BACK)
    asks(pair.are_answered(), f'{pair.west.states()}, {pair.east.states()}')
    asks(west.programs() == program, 'an alarm has ended the program of the west')
    inside.has_all(west.service.printed() + pair.east.service.printed(), 'card: [A-Z ]+ alarm')
    asks(max(shares) < 1.5 * shares[0], f'the program has {shares} of a core, at first without an alarm')
    return f'the program has {100 * max(shares):.1f} % of a core at most, {100 * shares[0]:.1f} % without an alarm'


def has_alarm(site: Site, alarm: Alarm) -> None:
    """Waits until a site has an alarm, and has told it with what to do."""
    name, = alarm.names()
    key = str(alarm.name).lower()
    until(lambda: site.transport().get(key) == 1, f'the {site.name} has {name}', found=site.transport)
    asks(site.has_printed(CardAlarmChanged(CardAlarm(name), True).words()), f'the {site.name} says nothing of {name}')


def slips() -> str:
    """A slip ends no call; what a card counts is told by its name."""
    pair = Shared.begun()
    pair.calls()
    west, east = pair.sites
    before = east.losses()
    with inside.alarms_module():
        inside.slip(1)
        until(lambda: east.losses() > before, 'the east has lost slot 16', found=east.losses)
        pair.are_heard(BACK)
        inside.set_alarms(0, 0, count=FIRST)
        numbers = range(FIRST, FIRST + len(COUNTS))
        until(lambda: [west.transport().get(name) for name in COUNTS] == [*numbers], 'the counts', found=west.transport)
        inside.has_all(east.service.printed() + ask(west.service.control, b'status'), '(card: span|slot)')
        inside.set_alarms(0, 0)
    asks(pair.are_answered(), f'{west.states()}, {east.states()}')
    return f'slot 16 is found again, thirty calls stay; {len(COUNTS)} counts, each under its name'


def reset() -> str:
    """Channels are configured again while they are open."""
    pair = Shared.begun()
    pair.calls()
    inside.unconfigure()
    time.sleep(1)
    inside.configure()
    pair.are_heard(BACK)
    asks(pair.are_answered(), f'{pair.west.states()}, {pair.east.states()}')
    return 'alignment is found again, thirty calls stay'


def unloaded() -> str:
    """The driver is unloaded, which it refuses while a channel is open, and loaded again."""
    pair = Shared.begun()
    pair.calls()
    asks(inside.ran('rmmod', 'dahdi_dynamic') != 0, 'the driver was unloaded while channels were open')
    inside.take_out()
    asks(not Path(DEVICES[0]).exists(), 'the channel is still there')
    time.sleep(1)
    inside.has_all(pair.west.service.printed(), '/dev/dahdi/1: No such file')
    inside.load()
    took = max(until(site.transport_is_open, f'{site.name} has its card again', BACK) for site in pair.sites)
    pair.are_heard(BACK)
    return f'open {took:.1f} s behind the driver; calls: {pair.west.states()}'


REFUSALS = (
    # (what, the device, the channels of dahdi_cfg, whether --clear was given, what is said)
    ('in use', DEVICES[0], '', True, 'in use by .*e1gw.*'),
    ('no such channel', '/dev/dahdi/99', '', True, 'No such file.*lsdahdi'),
    ('one of a bundle', '/dev/dahdi/chan/002/005', '', True, 'busy.*give its first one'),
    ('without --clear', DEVICES[1], '', False, 'DAHDI keeps time slot 0: --clear'),
    ('single channels', DEVICES[1], 'clear=1-31\nbchan=32-62\n', True, 'channel 32 is one of 64 kbit/s: clear='),
    ('unconfigured', DEVICES[1], 'clear=1-31\n', True, 'No such device or address.*dahdi_cfg'),
)


def refused() -> str:
    """Each refusal of a card says what to do."""
    pair, said = Shared.begun(), list[str]()
    pair.east.end()
    Shared.pair = None
    try:
        for what, device, channels, is_clear, words in REFUSALS:
            if channels:
                inside.unconfigure()
                inside.configure(channels + inside.LAW)
            said.append(inside.matches(what, words, partial(open_device, device, device, DEFAULT, is_clear)))
        for mode, words in (0o660, 'be in the group e1gw'), (0o600, 'e1gw.rules goes to'):
            os.chmod('/dev/dahdi/chan/001/001', mode)
            said.append(inside.matches('as nobody', words, lambda: inside.as_user(
                NOBODY, partial(open_device, DEVICES[0], DEVICES[0], DEFAULT, True))))
        inside.has_all('\n'.join(said), '/dev/dahdi/1: (?!Operation)')
    finally:
        os.chmod('/dev/dahdi/chan/001/001', 0o660)
        inside.unconfigure()
        inside.configure()
        pair.west.end()
    return f'{len(said)} refusals, each with what to do'


def simulated_exchange() -> str:
    """A call to the project's own exchange, which gives back what it hears."""
    Shared.end()
    inside.configured()
    far, west = FarEnd(simulated()), Site('west', 0)
    try:
        until(lambda: west.is_heard() and west.service.ask('seize 1') == 'seize 1: done', 'seized', found=west.status)
        took = until(lambda: west.states() >= {'answered'}, 'answered')
        west.commands('clear', [1])
        until(lambda: west.states() == {'idle'}, 'cleared', found=west.states)
    finally:
        west.end()
        far.close()
    return f'answered after {took:.1f} s, cleared'


def by_the_page() -> str:
    """A person with a card, a call by the commands of docs/START.md, and an exchange."""
    Shared.end()
    inside.unconfigure()
    try:
        return pasted(lambda: FarEnd(simulated()))
    finally:
        inside.unconfigure()
        inside.configure()


LOOP = '''law = "A"
host = "127.0.0.1"
[[circuit]]
number = 1
role = "incoming"
prefill = 160
local_port = 25002
peer_host = "127.0.0.1"
peer_port = 25004
[[circuit]]
number = 2
role = "outgoing"
prefill = 160
local_port = 25004
peer_host = "127.0.0.1"
peer_port = 25002
'''
DIALS, OFFERED = '5551234567 4711', 'offered 5551234567 4711'


def real_call() -> str:
    """libopenr2 calls on circuit 1, and is called on circuit 2: digits, answer and clearing pass both ways over RTP."""
    Shared.end()
    Path('/tmp/loop.toml').write_text(LOOP, encoding='ascii')
    exchange = OpenR2(f'{TOP}/out/exchange', '--answer', '300')
    far, west = FarEnd(openr2(exchange)), Site('loop', 0)
    try:
        until(west.is_heard, 'alignment')
        until(lambda: exchange.found(1, 'idle'), 'circuit 1 is idle at the exchange')
        exchange.command(f'call 1 {DIALS}')
        until(lambda: west.state(1) == 'acked', 'circuit 1 is seized')
        west.commands('seize', [2])
        took = until(lambda: exchange.found(2, OFFERED), 'offered', found=lambda: exchange.events)
        until(lambda: west.state(2) == 'answered', 'answered by the exchange')
        west.commands('answer', [1])
        until(lambda: exchange.found(1, 'answered'), 'the caller is told of the answer')
        exchange.command('hangup 1')
        until(lambda: west.state(1) == 'idle', 'the caller has cleared')
        west.commands('clear', [2])
        until(lambda: exchange.found(2, 'ended'), 'the called exchange has ended the call')
    finally:
        west.end()
        far.close()
        exchange.end()
    return f'{OFFERED} after {took:.1f} s, answered, cleared'


SCENES = (
    Scene('thirty calls', thirty_calls),
    Scene('killed', killed),
    Scene('removed', removed),
    Scene('alarms', alarms),
    Scene('slips', slips),
    Scene('reset', reset),
    Scene('unloaded', unloaded),
    Scene('refused', refused),
    Scene('simulated exchange', simulated_exchange),
    Scene(R2, real_call),
    Scene('START', by_the_page),
)


def tried(scene: Scene) -> bool:
    began = time.monotonic()
    try:
        told, word = scene.does(), 'passed'
    except Exception as fault:      # pylint: disable=broad-exception-caught
        told, word = str(fault), 'failed'
        if not isinstance(fault, SceneFailed):
            traceback.print_exc(file=sys.stdout)
    print(f'{word} {scene.name}: {told} ({time.monotonic() - began:.1f} s)', flush=True)
    return word == 'passed'


def last_lines() -> Iterator[str]:
    """Of what the trunks have said, and of the journal."""
    for path in sorted(Path('/tmp').glob('*.log')):
        yield from (f'  {path.stem}: {line}' for line in path.read_text(encoding='utf-8').splitlines()[-16:])
    journal = subprocess.run(['journalctl', '-q', '-o', 'cat', '-n', '16'], capture_output=True, text=True, check=False)
    yield from (f'  {line}' for line in journal.stdout.splitlines())


def main() -> None:
    inside.load()
    for scene in SCENES:
        if scene.name in sys.argv[1:] and not tried(scene):
            print(*last_lines(), sep='\n', flush=True)
            Shared.end()
    Shared.end()


if __name__ == '__main__':
    main()
