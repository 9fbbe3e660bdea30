"""What is seen from outside: the table for people, the text of Prometheus for machines, both made of a status."""
from __future__ import annotations

import time
from typing import Callable, Iterable, Mapping, NamedTuple

from e1gw_common.lines import LOSSES, REMOTE, Alignment, State, circuit_words
from e1gw_common.plain import plain_of
from e1gw_common.prometheus import Family, Samples, text_of
from . import deaf
from .clock import ClockStatus
from .events import BlockNews, SendersGiven
from .status import CircuitStatus, TrunkStatus

NOT_OPEN = 'not open'
BLOCK_WORDS = {BlockNews.BLOCKED: 'blocked by the operator',
               BlockNews.BLOCKING: 'blocking, until their calls have ended'}
OTHER = '*'                 # behind a codec that a command has given
TRANSPORT = 'e1gw_transport'        # of what a transport tells, its own names and kinds
# A number of each circuit's row: its name, and what it is.
CIRCUIT_NUMBERS: tuple[tuple[str, str, Callable[[CircuitStatus], float]], ...] = (
    ('e1gw_circuit_seizures_total', 'Calls begun.', lambda row: row.line.seizures),
    ('e1gw_circuit_answers_total', 'Calls answered.', lambda row: row.line.answers),
    ('e1gw_circuit_unacknowledged_total', 'Seizures that were not acknowledged.', lambda row: row.line.unacknowledged),
    ('e1gw_circuit_faults_total', 'Invalid line signals.', lambda row: row.line.faults),
    ('e1gw_circuit_open_seconds_total', 'Time with the speech path connected.', lambda row: row.line.open),
    ('e1gw_rtp_lost', 'Packets that did not come, by sequence number.', lambda row: row.packets.lost),
    ('e1gw_rtp_jitter_seconds', 'Interarrival jitter (RFC 3550, 6.4.1).',
     lambda row: round(row.packets.jitter_ms / 1000, 6)))


def exposition(status: TrunkStatus, trunk: str = '') -> str:
    """All metrics of a trunk, which `trunk` names."""
    families = [*_of_trunk(status), *crc4_families(status), *_of_circuits(status), *_of_service(status)]
    return text_of(families, {'trunk': trunk} if trunk else {}, {TRANSPORT})


def _of_trunk(status: TrunkStatus) -> list[Family]:
    clock, told = status.clock, status.told
    ends = ('this', told.alarm), ('other', told.remote_alarm)
    found: list[Family] = [
        ('e1gw_trunk_up', '1 where the trunk is open.', told.trunk_up),
        ('e1gw_alarm', 'Alarms: loss of alignment at this end, RAI or distant multiframe alarm of the other.',
         [({'end': end, 'alignment': what}, on) for end, alarms in ends for what, on in alarms.items()]),
        ('e1gw_alignment_losses_total', 'How often alignment was lost.',
         [({'alignment': what}, n) for what, n in told.losses.items()]),
        ('e1gw_trunk_stalled', '1 while no octets come.', clock.stalled),
        ('e1gw_trunk_stalls_total', 'Times without octets.', clock.stalls),
        ('e1gw_trunk_octets_total', 'Octets of the trunk.', told.octets)]
    return found + _of_pair(status) + _of_flow(status)


def _of_pair(status: TrunkStatus) -> list[Family]:
    """What is known of the other machine of a trunk, if there is one."""
    if not (pair := status.pair):
        return []
    return [('e1gw_role', '1 where this machine carries the trunk, 0 where it stands by.', not pair.stands_by),
            ('e1gw_fed', '1 where the standby has what the trunk gave and took.', pair.fed),
            ('e1gw_feed_age_seconds', 'Seconds since the standby had all.', known(pair.feed_age))]


def known(value: float | None) -> Samples:
    """A sample of what is known; none of what is not."""
    return [] if value is None else value


def _of_flow(status: TrunkStatus) -> list[Family]:
    """What is known of the flow of octets, and of the transport of a trunk that is carried."""
    clock, transport = status.clock, plain_of(status.transport)
    return [('e1gw_trunk_gaps_total', 'Slips, at which octets of the trunk were lost.', clock.gaps),
            ('e1gw_trunk_rate_ratio', 'The part of the octets of the last seconds that came.', known(clock.rate)),
            ('e1gw_trunk_rate_ppm', 'The rate relative to this machine\'s clock, over a minute.', known(clock.ppm)),
            (TRANSPORT, 'What the transport of the trunk tells of itself.',
             [({'what': what}, n) for what, n in transport.items() if type(n) is int])]


def crc4_families(status: TrunkStatus) -> list[Family]:
    if not (crc4 := status.crc4):
        return []
    return [
        ('e1gw_crc4_aligned', '1 if CRC multiframe alignment stood at the last count.', known(crc4.aligned)),
        ('e1gw_crc4_submultiframes_total', 'Submultiframes whose CRC-4 was checked.', crc4.submultiframes),
        ('e1gw_crc4_errored_total', 'Errored submultiframes that this end received, and those that the other end '
         'reports by E bits.', [({'end': 'this'}, crc4.errored), ({'end': 'other'}, crc4.far_end_errored)]),
        ('e1gw_crc4_alignment_losses_total', 'How often CRC multiframe alignment was lost.', crc4.multiframes_lost)]


def _of_circuits(status: TrunkStatus) -> list[Family]:
    rows = [({'circuit': row.line.circuit}, row) for row in status.circuits]
    way = {'sent': 'sent', 'admitted': 'received'}
    counts = [(labels, what, n) for labels, row in rows for what, n in row.packets.datagrams.items()]
    return [
        ('e1gw_circuit_state', 'The state of each line: 1 for the one that it is in.',
         [({**labels, 'role': row.line.role, 'state': state}, state is row.line.state) for labels, row in rows
          for state in State if state is not State.UNKNOWN]),
        ('e1gw_circuit_blocked', '1 if the operator has blocked the circuit, also while its call lasts.',
         [(labels, row.blocked is not None) for labels, row in rows]),
        ('e1gw_circuit_deaf', '1 if an answered call has accepted no packet for 2 s.',
         [(labels, row.deaf is not None) for labels, row in rows]),
        *((name, about, [(labels, number(row)) for labels, row in rows]) for name, about, number in CIRCUIT_NUMBERS),
        ('e1gw_rtp_packets_total', 'RTP packets sent, and received and not discarded.',
         [({**labels, 'direction': way[what]}, n) for labels, what, n in counts if what in way]),
        ('e1gw_rtp_discarded_total', 'Packets that were received and discarded, by cause.',
         [({**labels, 'cause': what}, n) for labels, what, n in counts if what not in way]),
        ('e1gw_socket_dropped_total', 'Packets for which the kernel had no room.',
         [(labels, row.socket.dropped) for labels, row in rows if row.socket])]


def _of_service(status: TrunkStatus) -> list[Family]:
    return [
        ('e1gw_commands_total', 'Commands by answer.',
         [({'command': row.command, 'answer': row.answer}, row.count) for row in status.commands]),
        ('e1gw_jitter_buffer_resyncs_total', 'Jitter buffers that were resynchronised.', status.renewed),
        ('e1gw_ended', '1 where something other than the calls has ended.',
         [({'what': what}, why is not None) for what, why in status.ended.items()]),
        ('e1gw_uptime_seconds', 'Seconds since the trunk was opened, 0 while it is not.', status.uptime),
        ('e1gw_build_info', 'The version of e1gw; always 1.', [({'version': status.version}, 1)])]


# ---- the table ----

def _alarms(alarms: Mapping[Alignment, bool], words: Mapping[str, str], good: str) -> str:
    return ', '.join(words[what] for what, on in alarms.items() if on) or good


def is_aligned(status: TrunkStatus) -> bool:
    """Whether this end has alignment, as far as that is known now."""
    told = status.told
    return told.program and told.trunk_up and not (status.fault or status.clock.stalled or any(told.alarm.values()))


def state_of(status: TrunkStatus) -> str:
    """The state of the trunk at this end, in a few words."""
    told = status.told
    if status.fault:
        return status.fault
    if not told.program:
        since = time.strftime('%H:%M:%S', time.gmtime(told.program_since))
        return f'no connection to the program since {since} UTC'
    return 'no trunk' if not told.trunk_up else 'stalled' if status.clock.stalled else _alarms(
        told.alarm, LOSSES, 'aligned')


class HeadLine(NamedTuple):
    """A line above the circuits, and whether it tells of a fault, or of calls that miss packets."""

    text: str
    is_bad: bool = False
    is_poor: bool = False


def head_of(status: TrunkStatus) -> list[HeadLine]:
    """The lines above the circuits."""
    lines = _trunk_lines(status) + _pair_line(status) + _card_line(status) + _satop_line(status) + _crc4_line(status)
    lines += [line for line in (
        HeadLine(deaf.words_of_rows(status.circuits), is_bad=True),
        HeadLine(deaf.words_of_missing(status), is_poor=True), HeadLine(block_words(status.circuits)),
        HeadLine(codec_line(status.circuits))) if line.text]
    if status.waiting:
        lines.append(HeadLine(f'change to what is configured when their calls end: {circuit_words(status.waiting)}'))
    if status.senders == 'any' or any(row.deaf == deaf.NO_PACKETS for row in status.circuits) and status.senders:
        lines.append(HeadLine(SendersGiven(status.senders).words()))
    lines += [HeadLine(f'ended: {what}: {why}', True) for what, why in status.ended.items() if why is not None]
    if status.stale:
        lines.append(HeadLine('the counts of packets are not those of now', True))
    return lines


def _trunk_lines(status: TrunkStatus) -> list[HeadLine]:
    """Those that each trunk has."""
    clock, told, stands_by = status.clock, status.told, bool(status.pair and status.pair.stands_by)
    at, hears = time.strftime('%H:%M:%S', time.gmtime(status.time)), is_aligned(status)     # (which is its other end)
    far = _alarms(told.remote_alarm, REMOTE, 'no alarm') if hears else 'not heard'
    rate = wrong_rate(clock) or ('' if clock.rate is None else f'rate {100 * clock.rate:.2f} %')
    return [
        HeadLine(f'trunk {status.name}, e1gw {status.version}, '
                 + (NOT_OPEN if status.fault else ', '.join(filter(None, (f'up {status.uptime:.0f} s', rate)))),
                 bool(status.fault) and not stands_by or clock.rate_wrong),
        HeadLine(f'{told.octets / 256_000:.1f} s of the trunk at {at} UTC, {state_of(status)}; the other end: {far}',
                 not (stands_by or hears and not any(told.remote_alarm.values()))),
        HeadLine('alignment lost: ' + ', '.join(f'{what} {n}' for what, n in told.losses.items())
                 + f'; stalls {clock.stalls}, slips {clock.gaps} ({clock.gap_seconds:.1f} s)'
                 + ('' if clock.ppm is None or clock.rate_wrong else f', rate {clock.ppm:+.0f} ppm'))]


def states_of(row: CircuitStatus) -> tuple[str, ...]:
    """The state of a circuit; of one that the operator blocks `blocking` or `blocked`, behind a state that is more."""
    state, blocked = row.line.state, row.blocked
    if not blocked:
        return (state,)
    return (blocked,) if state in (State.IDLE, State.BLOCKED) else (state, blocked)


def block_words(rows: Iterable[CircuitStatus]) -> str:
    """Which of these circuits the operator has blocked; nothing without any."""
    its = {what: [row.line.circuit for row in rows if row.blocked is what] for what in BLOCK_WORDS}
    return '; '.join(f'{BLOCK_WORDS[what]}: {circuit_words(circuits)}' for what, circuits in its.items() if circuits)


def wrong_rate(clock: ClockStatus) -> str:
    """The rate over the last seconds if it is wrong; another watcher knows at first only that it is."""
    return 'wrong rate' + ('' if clock.rate is None else f' {100 * clock.rate:.2f} %') if clock.rate_wrong else ''


def codec_word(row: CircuitStatus) -> str:
    """The codec of a circuit, with a mark if it is not that of its configuration."""
    return f'{row.line.codec}{OTHER * row.line.has_other_codec()}'


def codec_line(rows: Iterable[CircuitStatus]) -> str:
    """Which circuits have this mark; nothing without any."""
    its = [row.line.circuit for row in rows if row.line.has_other_codec()]
    return f'codec by command, until the call ends ({OTHER}): {circuit_words(its)}' if its else ''


def _pair_line(status: TrunkStatus) -> list[HeadLine]:
    """The line of the other machine, if there is one."""
    if not (pair := status.pair):
        return []
    why = f': {pair.feed_fault}' if pair.feed_fault else ''
    if pair.differs:
        why += f'; configured otherwise there: circuits {", ".join(map(str, pair.differs))}'
    whose = 'standby,' if pair.stands_by else 'the standby is'
    return [HeadLine(f'two machines: {whose} {"fed" if pair.fed else "not fed"}{why}', not pair.fed)]


def _card_line(status: TrunkStatus) -> list[HeadLine]:
    """The line of a DAHDI card, if there is one."""
    if not (card := status.transport.card):
        return []
    alarms = ', '.join(card.alarms())
    counts = ''.join(f', {name.replace("_", " ")} {count}' for name, count in card.counts().items())
    return [HeadLine(f'card: span {card.span}, {alarms or "no alarm"}{counts}', bool(alarms))]


def _satop_line(status: TrunkStatus) -> list[HeadLine]:
    """The line of SAToP, if it is on."""
    satop = status.transport.satop
    return [HeadLine(satop.words(), bool(satop.satop))] if satop else []


def _crc4_line(status: TrunkStatus) -> list[HeadLine]:
    """The line of CRC-4, if it is on."""
    if not (crc4 := status.crc4):
        return []
    found = {True: 'multiframe alignment', False: 'no multiframe alignment', None: 'not counted yet'}[crc4.aligned]
    given_up = f', of it {crc4.given_up} for 915 errored of 1000' if crc4.given_up else ''
    return [HeadLine(
        f'CRC-4: {found}, lost {crc4.multiframes_lost}{given_up}; errored {crc4.errored} of '
        f'{crc4.submultiframes} submultiframes, the other end reports {crc4.far_end_errored}',
        crc4.aligned is False)]


def _row(status: TrunkStatus, row: CircuitStatus) -> str:
    line, packets = row.line, row.packets
    counts, state = dict(packets.datagrams), NOT_OPEN if status.fault else states_of(row)[-1]
    sent, received = counts.pop('sent'), counts.pop('admitted')
    discarded = '; '.join(filter(None, [', '.join(f'{n} {why}' for why, n in counts.items()), deaf.words_of_row(row)]))
    return (f'{line.circuit:2} {line.role:8} {state:11} {line.sent:4} {line.recognised:3} {line.for_:9.1f} '
            f'{line.seizures:6} {line.answers:8} {line.open:9.1f}  {codec_word(row):8}{line.jitter_buffer_ms:6g} '
            f'{sent:9} {received:9} {packets.lost:5} {packets.jitter_ms:7.1f}  {discarded}').rstrip()


# Times in s, jitter and the depth of its buffer in ms; Tx and Rx are bits a and b of slot 16.
COLUMNS = (' n role     state       TxAB RxAB in state calls answered connected  codec   buffer      sent  received  '
           'lost  jitter  discarded')


def table(status: TrunkStatus) -> str:
    """The state of a trunk for people."""
    rows = (_row(status, row) for row in status.circuits)
    return '\n'.join([*(line.text for line in head_of(status)), COLUMNS, *rows]) + '\n'


def circuit_table(status: TrunkStatus, circuit: int) -> str:
    """The row of one circuit, below its head."""
    rows = [row for row in status.circuits if row.line.circuit == circuit]
    return '\n'.join([COLUMNS, *(_row(status, row) for row in rows), *filter(None, [block_words(rows)])])
