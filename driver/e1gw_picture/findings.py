"""Anomalies of a session in words, with their usual causes."""
from __future__ import annotations

import itertools
from collections.abc import Iterator
from dataclasses import dataclass
from statistics import median

from e1gw_common.g711 import NAMES, OTHER
from e1gw_common.lines import OPEN, REMOTE
from e1gw_common.session import name_of
from .facts import NOT_OPEN, SECOND, Answer, Cell, Facts, Row
from .slopes import Points, Step, points, slope, steps
from .svg import Scale, duration

RATE = 20_000               # parts in a million above which it is no difference of clocks
SHORT = SECOND // 50        # a shorter alarm of the far end is a bit error
MOST_SPANS = 6              # that one anomaly names
NO_FAULT = 'No fault found.'
# The usual cause of each kind, and what to do.
CLOCKS = ('one clock for both, or a prefill that lasts for the longest call; `codec` with the codec that the circuit '
          'has resynchronises the jitter buffer')
HINTS = {
    'never frame': 'cable, loopback, the card\'s mode, octets that are not aligned to slots',
    'never multiframe': 'does the exchange signal by CAS?',
    'far frame': 'what is sent does not arrive intact', 'far multiframe': 'what is sent does not arrive intact',
    'lost frame': 'the device lost or doubled octets, or the line was cut',
    'lost multiframe': 'the device lost or doubled octets, or the line was cut',
    'outage': 'the device, the link or the exchange was away, or no program ran: see the journal of that time',
    'slips': 'the device or this machine stalled: its load, `Nice=`, the device\'s buffers',
    'ones': 'calls stay up and send idle packets meanwhile; seizures are released',
    'stray': 'the sender must send to the `local_port` of the circuit',
    'gap': 'the device lost octets (a slip); `codec` for each call resynchronises its jitter buffer',
    'jump': 'the sender\'s timestamps jumped, or it went silent while they stood still (hold, transfer); if many '
            'circuits have it, the trunk lost octets',
    'rate': 'the trunk runs at another rate than 256,000 octets a second, or the sender at another than 8000 Hz; a '
            'file that is read faster than real time',
    'clock slower': CLOCKS, 'clock faster': CLOCKS,
    'silent came': 'the far end is silent',
    'silent slot': 'the exchange speaks in another time slot, or not at all; is the circuit the same there?',
    'words': 'another codec under this payload type, or a clock other than 8000 Hz',
    'came other': 'the sender has the other law under this payload type: one law at both ends, or G.726',
    'slot other': '`law` is not the trunk\'s: set it as the exchange has it, and the sender\'s payload type with it',
    'order other': 'the sender has the first word in the high bits: a name such as g726 for g726le, or AAL2-G726 for '
                   'G726; it may expect that order, too',
    'not sent': 'no way to the peer (`port_faults`), or the capture is of another interface',
    'undelivered': '`peer_host` and `peer_port`, whether the peer runs and receives there, routes, firewalls',
    'astray': 'most peers receive at the address they send from: set `peer_host` to it',
    'port': 'if the peer receives nothing: most receive at the port they send from',
    'code 1': 'not RTP: keep-alives or scans', 'code 2': 'not RTP: STUN or scans', 'code 3': 'cut, or not RTP',
    'code 4': 'cut, or not RTP', 'code 5': 'cut, or encrypted (SRTP)',
    'code 13': 'its time has a packet already: a second sender, or packets longer than timestamps go on by (SRTP)',
    'code 15': 'the sender\'s packets are too long: at most 200 ms',
    'law': 'the sender has the other law: one law at both ends, or G.726',
    'type': 'another codec at the sender; comfort noise (13); telephone events; RTCP at this port',
    'source': 'a second sender, a stranger that came first, or a sender that restarted (hold, transfer); `codec` with '
              'the codec that the circuit has accepts the next one',
    'late': 'jitter above the prefill, a slower clock, bursts, or timestamps that jumped back: see the drawing',
    'full': 'lost octets of the trunk, a faster clock, bursts, or timestamps that jumped ahead: see the drawing',
    'not open': 'the sender speaks before the call is acknowledged, or after its end; a few at each call are usual',
    'repeated': 'the sender sends each twice (--repeat), or the network doubles them; it does no harm',
    'repeated often': 'the sender sends the same packet again and again',
    'jitter': 'jitter of the network or bursts of the sender; the prefill has to exceed it',
    'lost': 'lost by the network, or never sent',
    'unacknowledged': 'is the circuit incoming there, and its slot the same? No seizure works while there is an alarm',
    'fault': 'signals of the exchange that are not of Q.421, or both ends outgoing',
    'blocked': 'unblock it here, or at the exchange', 'command': 'see the state at that moment'}
HARMLESS = frozenset(('silent came', 'silent slot', 'port', 'not open', 'repeated', 'blocked', 'command'))
CAUSES = {11: 'type', 12: 'source', 14: 'late', 16: 'full', NOT_OPEN: 'not open'}      # of refusals


@dataclass(frozen=True)
class Anomaly:
    """`kind` joins circuits with the same anomaly."""
    kind: str
    circuit: int            # 0: the trunk
    seen: str
    hint: str = ''          # the usual cause; by default that of the kind
    harmless: bool = False

    def why(self) -> str:
        return self.hint or HINTS[self.kind]

    def bad(self) -> bool:
        return not self.harmless and self.kind not in HARMLESS


def times(count: int) -> str:
    return 'once' if count == 1 else f'{count} times'


def first_of(each: list[str], between: str, more: str) -> str:
    """The first of some texts, and how many more there are."""
    return between.join(each[:MOST_SPANS]) + more.format(len(each) - MOST_SPANS) * (len(each) > MOST_SPANS)


# ---- how early datagrams are ----

def _clock(row: Row, parts: list[Points], found: list[Step]) -> Iterator[Anomaly]:
    """A difference of clocks: the longest slope without a step."""
    slopes = []
    for piece in (list(piece) for part in parts for _, piece in itertools.groupby(
            part, lambda point: sum(step.place <= point[0] for step in found))):
        if len(piece) >= 12 and piece[-1][0] - piece[0][0] > 2 * SECOND:
            rate, gone, away = slope(piece)
            if abs(gone) > max(24, 3 * away):
                slopes.append((abs(gone), rate, piece[-1][0] - piece[0][0]))
    if not slopes:
        return
    gone, rate, long = max(slopes)
    if abs(rate) > RATE:
        second = 1 / max(0.001, 1 + rate / 1e6)
        yield Anomaly('rate', row.number, f'a second of the sender is {second:.2f} s of the trunk')
        return
    side, way = ('slower', 'later') if rate < 0 else ('faster', 'earlier')
    yield Anomaly(f'clock {side}', row.number, f'datagrams come ever {way}: by {gone / 8:.0f} ms in {duration(long)}, '
                  f'so the sender\'s clock is {side} than the trunk\'s by {abs(rate):.0f} ppm')


def _steps(facts: Facts, scale: Scale, found: dict[int, list[Step]]) -> Iterator[Anomaly]:
    """Steps of many circuits at one moment are the trunk's, others the sender's."""
    every = sorted(((step.place, number, step.samples) for number, each in found.items() for step in each),
                   key=lambda each: each[:2])
    gaps: list[tuple[int, float, int]] = []     # the place, the samples, and how many circuits show it
    while every:
        place = every[0][0]
        near = [each for each in every if each[0] - place < SECOND / 2 + 2 * facts.width]
        every = every[len(near):]
        talking = sum(any(first <= place < last and state in OPEN for first, last, state in
                          facts.rows[number].states.between(0, facts.place)) for number in found)
        circuits, ahead = len({number for _, number, _ in near}), median(samples for *_, samples in near)
        if circuits > 1 and circuits * 2 >= talking and ahead > 0:
            gaps.append((place, ahead, circuits))
            continue
        for at, number, samples in near:
            yield Anomaly('jump', number, f'at {scale.words(at)} all datagrams come {abs(samples) / 8:.0f} ms '
                          f'{"earlier" if samples > 0 else "later"} from one to the next')
    if len(gaps) == 1:
        place, ahead, circuits = gaps[0]
        yield Anomaly('gap', 0, f'at {scale.words(place)} the datagrams of {circuits} circuits come '
                      f'{ahead / 8:.0f} ms earlier all at once: as much of the trunk was lost')
    elif gaps:
        yield Anomaly('gap', 0, f'{len(gaps)} times, first at {scale.words(gaps[0][0])}, the datagrams of up to '
                      f'{max(circuits for *_, circuits in gaps)} circuits come earlier all at once, by some '
                      f'{sum(ahead for _, ahead, _ in gaps) / 8:.0f} ms in all: as much of the trunk was lost')


def _jitter(row: Row, whole: Cell, parts: list[Points], explained: bool) -> Iterator[Anomaly]:
    """A wide band."""
    wide = max((cell.high - cell.low for cell in row.cells.values() if cell.admitted > 2), default=0)
    if wide > 80 and not explained and parts:
        yield Anomaly('jitter', row.number, f'datagrams come by up to {wide / 8:.0f} ms more or less early, a band in '
                      f'the drawing; the prefill is {row.prefill / 8:g} ms', harmless=14 not in whole.refused)


# ---- datagrams ----

def _wrong_sources(row: Row, scale: Scale) -> str:
    """The sources that were refused, of each call with the one that was right."""
    calls = []
    for call in row.wrong:
        right = 'not known' if call.base is None else f'{call.ssrc:08x}'
        others = [f'{ssrc:08x} came {times(count)} from {scale.words(first)} to {scale.words(last)}'
                  for ssrc, (count, first, last) in call.wrong.items()]
        calls.append(f'in the call whose first datagram had SSRC {right}, {" and ".join(others)}')
    return first_of(calls, '; ', '; and in {} more calls')


def _refused(row: Row, whole: Cell, scale: Scale) -> Iterator[Anomaly]:
    """Refused datagrams, by cause."""
    types = ', '.join(str(kind) for kind in sorted(row.types) if kind != row.payload)
    other_law = {row.payload} | set(row.types) >= {0, 8}
    for code, (count, low, high) in sorted(whole.refused.items()):
        about = {11: f': type {types} came, the circuit has {row.payload}', 12: f': {_wrong_sources(row, scale)}',
                 14: f', by up to {-low / 8:.0f} ms; the prefill is {row.prefill / 8:g} ms',
                 16: f', up to {high / 8:.0f} ms before their turn; the playout holds 400 ms',
                 NOT_OPEN: ': the path was not open'}.get(code, '')
        if code != NOT_OPEN or count > 25:
            yield Anomaly(CAUSES.get(code, f'code {code}'), row.number, f'{count} of {whole.arrived()} packets were '
                          f'discarded as {name_of(code)}{about}', HINTS['law'] if code == 11 and other_law else '')


def _missing(row: Row, whole: Cell) -> Iterator[Anomaly]:
    """Packets that came again, and those that did not come."""
    if again := whole.counts['repetitions']:
        every = again + whole.arrived()
        yield Anomaly('repeated' if again <= every // 2 else 'repeated often', row.number,
                      f'{again} of {every} packets are repetitions')
    every = whole.arrived() + whole.lost
    if whole.lost > max(2, every // 200):
        yield Anomaly('lost', row.number, f'{whole.lost} datagrams are missing by their sequence numbers, of {every}')


def _speech(row: Row, whole: Cell, opened: int, law: str, is_law_right: bool) -> Iterator[Anomaly]:
    """No datagrams, silence, speech in another law, or in another order of words. That the law of the trunk is wrong no
    circuit tells alone: the exchange may send back what came."""
    if opened > SECOND // 2 and whole.arrived() == whole.refused.get(NOT_OPEN, [0])[0]:
        sent = f': {whole.sent} datagrams were sent to {row.peer}, and none came back' if whole.sent and row.peer else (
            ', and no datagram came')
        yield Anomaly('none', row.number, f'the path was open for {duration(opened)}{sent}',
                      f'is that the peer, and does it send to {row.local or "a port of this end"}? Check firewalls '
                      'and `host`')
    for way, words in (
            ('came', 'the datagrams received contain one octet only, as silence does'),
            ('slot', 'the time slot contains one octet only, as silence does, and so do the datagrams sent')):
        if way in whole.heard and whole.heard[way].is_silence():
            yield Anomaly(f'silent {way}', row.number, words)
    if whole.is_uneven():
        count, step = row.mismatch
        yield Anomaly('words', row.number,
                      f'a packet has {count} samples of {row.codec}, and timestamps go on by {step}')
    for way, words in (('came', f'the datagrams received read like {NAMES[OTHER[law]]}, not like {NAMES[law]}'),
                       ('slot', f'the time slot reads like {NAMES[OTHER[law]]}, not like {NAMES[law]}'),
                       ('order', 'the G.726 received is packed as in AAL2 (ITU-T I.366.2), not as in RFC 3551')):
        if (seen := whole.heard.get(way)) and seen.is_other() and not (way == 'slot' and is_law_right):
            yield Anomaly(f'{way} other', row.number, f'{words}, in {seen.other} of {seen.own + seen.other} looks that '
                          'tell: harsh noise')


def _lost_on_the_way(row: Row, whole: Cell) -> Iterator[Anomaly]:
    """Whether what is sent arrives, by a capture."""
    wire = row.wire
    if wire is None:
        return
    to, comes = (', '.join(f'{host}:{port}' for host, port in sorted(seen)) for seen in (wire.went, wire.came))
    if whole.sent and not wire.went:
        yield Anomaly('not sent', row.number, f'{whole.sent} datagrams were made, and none of them is in the capture')
    for reason, count in wire.answers.most_common():
        yield Anomaly('undelivered', row.number, f'the network answers that datagrams to {to or row.peer} do not '
                      f'arrive ({times(count)}): {reason}')
    both = f'datagrams are sent to {to}, and the peer\'s come from {comes}'
    if wire.is_astray():
        yield Anomaly('astray', row.number, f'{both}: another address')
    elif wire.went and wire.came and not set(wire.went) & set(wire.came):
        yield Anomaly('port', row.number, both)


# ---- lines and the trunk ----

def _lines(row: Row, whole: Cell) -> Iterator[Anomaly]:
    """Calls that did not come up, and refused commands."""
    if count := whole.counts['unacknowledged']:
        yield Anomaly('unacknowledged', row.number,
                      f'a seizure was not acknowledged within {row.wait} ms ({times(count)})')
    if faults := whole.counts['faults']:
        yield Anomaly('fault', row.number, f'the line went to fault {times(faults)}')
    elif row.fault:
        yield Anomaly('fault', row.number, f'the line is in fault all the time: {row.fault} came')
    if row.states.value == 'blocked':
        yield Anomaly('blocked', row.number, 'is blocked at the end')
    refused = [command for (_, answer), command in row.commands.items() if answer is Answer.REFUSED]
    if refused:
        words = ', '.join(sorted({f'{command.words}: {command.answer}' for command in refused}))
        count = sum(command.more + 1 for command in refused)
        yield Anomaly('command', row.number, f'commands were refused {times(count)}: {words}')


def _alarms(facts: Facts, scale: Scale) -> Iterator[Anomaly]:
    """Alarms and losses of alignment."""
    never = {'frame': 'no frame was ever found in the octets of the trunk',
             'multiframe': 'no multiframe was ever found in slot 16'}
    ups = {(where, what): sum(last - first for first, last, on in spans.between(facts.start, facts.place)
                              if on and (where == 'here' or last - first > SHORT))
           for (where, what), spans in facts.alarms.items()}
    for (where, what), up in ups.items():
        if what in never and where == 'here' and up >= max(1, facts.place - facts.start):
            yield Anomaly(f'never {what}', 0, never[what])
        elif where == 'there' and up:
            yield Anomaly(f'far {what}', 0, f'{REMOTE[what]} came for {duration(up)}: the far end has no {what} '
                          'alignment')
    for what, places in facts.losses.items():
        if places:
            yield Anomaly(f'lost {what}', 0, f'{what} alignment was lost {times(len(places))}, first at '
                          f'{scale.words(places[0])}')
    if ones := ups['here', 'ones']:
        yield Anomaly('ones', 0, f'AIS (all ones) came for {duration(ones)}')


def _trunk(facts: Facts, scale: Scale) -> Iterator[Anomaly]:
    """Octets that did not come, and datagrams for no circuit."""
    if scale.outages:
        when = [f'from {scale.words(each.place, each.lost)} to {scale.words(each.place)} '
                f'({duration(each.lost * SECOND)})' for each in scale.outages]
        yield Anomaly('outage', 0, f'no octets of the trunk came {first_of(when, ", ", " and {} times more")}')
    slips = [(place, seconds) for place, seconds in facts.slips or () if facts.start <= place]
    if slips:
        yield Anomaly('slips', 0, f'e1gw-watch noted {len(slips)} slip{"s" * (len(slips) > 1)}, first at '
                      f'{scale.words(*slips[0])}: {sum(seconds for _, seconds in slips):.3f} s of the trunk were '
                      'lost')
    for (host, port), count in facts.strays.most_common():
        if count > 5:
            yield Anomaly('stray', 0, f'{count} datagrams came from {host} to port {port}, which no circuit has')


def findings(facts: Facts) -> list[Anomaly]:
    """All anomalies, the trunk's first."""
    scale = Scale(facts.start, facts.place, facts.begin, facts.breaks)
    parts = {n: points(row, facts.width) for n, row in facts.rows.items()}
    found = {n: [step for part in each for step in steps(part)] for n, each in parts.items()}
    out = [*_alarms(facts, scale), *_trunk(facts, scale), *_steps(facts, scale, found)]
    wholes = {n: row.count() for n, row in facts.rows.items()}
    is_law_right = any('slot' in whole.heard and whole.heard['slot'].is_own() for whole in wholes.values())
    for n, row in facts.rows.items():
        whole, clocks = wholes[n], list(_clock(row, parts[n], found[n]))
        out += [*_speech(row, whole, facts.open_for(row), facts.law, is_law_right), *_lost_on_the_way(row, whole),
                *clocks, *_refused(row, whole, scale), *_missing(row, whole),
                *_jitter(row, whole, parts[n], bool(clocks or found[n])), *_lines(row, whole)]
    return out
