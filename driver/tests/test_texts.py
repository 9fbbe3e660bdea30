"""What is read of a trunk: its table, its line among others, its metrics, events and refusals in words."""
from __future__ import annotations

import argparse
import contextlib
import io
import json
import os
import re
import unittest
from typing import Any
from unittest import mock

from . import support
from e1gw import ctl_all, metrics
from e1gw.addresses import HiddenAddresses
from e1gw.events import (AlarmChanged, BlockNews, Burst, CallsCleared, CardAlarm, CardAlarmChanged, CircuitsBlocked,
                         Connected, Crc4Change, Crc4Changed, Disconnected, Event, Fed, Flows, LineChanged, NotFed,
                         RateChanged, RemoteAlarmChanged, RoleGiven, SatopChanged, SendersGiven, Slip, SlotsChange,
                         SlotsChanged, LogLost, Stalled, TrunkLost, TrunkOpened, WatchEnded, WrongRate)
from e1gw_common.faults import Parser, checked, named, number, options_words, words_of_fault, words_of_refusal
from e1gw_common.lines import Alignment, Role, State
from e1gw_common.plain import plain_of, typed
from e1gw_common.session import CommandRefusal
from e1gw.status import TrunkStatus
from e1gw_tie import status as tie_status
from e1gw_tie.tie import Tie, TieOptions

SAMPLE = re.compile(r'([a-z_0-9]+)(\{(?:[a-z_]+="(?:[^"\\]|\\.)*",?)*\})? (-?[0-9.e+-]+)')
ROW: dict[str, Any] = {
    'circuit': 7, 'role': 'incoming', 'state': 'answered', 'sent': '01', 'recognised': '00', 'for': 12.34,
    'seizures': 5, 'answers': 4, 'unacknowledged': 3, 'faults': 2, 'open': 67.89, 'codec': 'g726-32',
    'jitter_buffer_ms': 40.0, 'datagrams': {'sent': 101, 'admitted': 102, 'Late': 6, 'Full': 8}, 'lost': 9,
    'jitter_ms': 1.2344, 'blocked': None, 'deaf': None, 'speech': None, 'payload': 96, 'configured_codec': 'g726-32',
    'configured_payload': 96,
    'socket': {'waiting': 13, 'dropped': 14}}
IDLE: dict[str, Any] = ROW | {'circuit': 8, 'state': 'idle', 'datagrams': {'sent': 0, 'admitted': 0}, 'socket': None}
# (86,400 s and some: 1970-01-02 00:01:40 UTC)
STATUS: dict[str, Any] = {
    'name': 'west', 'version': '1.2', 'time': 86_500.0, 'uptime': 100.0, 'octets': 512_000, 'trunk_up': True,
    'fault': None, 'program': True, 'program_since': 86_401.0,
    'alarm': {'frame': False, 'multiframe': False}, 'remote_alarm': {'frame': False, 'multiframe': False},
    'losses': {'frame': 21, 'multiframe': 22}, 'clock': {'stalled': False, 'stalls': 23}, 'circuits': [ROW, IDLE],
    'stale': False, 'renewed': 24, 'ended': {'json': None, 'session': None},
    'commands': [{'command': 'seize', 'answer': 'done', 'count': 25}]}
DEEP = 'clock', 'crc4', 'transport', 'circuits'
CRC4 = {'aligned': True, 'submultiframes': 31, 'errored': 32, 'far_end_errored': 33, 'multiframes_found': 34,
        'multiframes_lost': 35, 'given_up': 36}
CARD = {'span': 2, 'recovering': 0, 'loopback': 1, 'yellow': 0, 'red': 1, 'blue': 0, 'not_open': 0, 'bit_errors': 37}
FULL = STATUS | {
    'alarm': {'frame': False, 'multiframe': True}, 'remote_alarm': {'frame': True, 'multiframe': True}, 'stale': True,
    'clock': {'stalled': False, 'stalls': 23, 'gaps': 26, 'gap_seconds': 27.26, 'ppm': -28.6, 'rate': 0.2038,
              'rate_wrong': True}, 'transport': CARD,
    'crc4': CRC4, 'role': 'active', 'fed': False, 'feed_age': 29.5, 'feed_fault': 'its link', 'differs': [3, 4],
    'ended': {'json': 'no room', 'session': None}}

SAMPLES = '''e1gw_trunk_up 1
e1gw_alarm{end="this",alignment="frame"} 0
e1gw_alarm{end="this",alignment="multiframe"} 1
e1gw_alarm{end="other",alignment="frame"} 1
e1gw_alarm{end="other",alignment="multiframe"} 1
e1gw_alignment_losses_total{alignment="frame"} 21
e1gw_alignment_losses_total{alignment="multiframe"} 22
e1gw_trunk_stalled 0
e1gw_trunk_stalls_total 23
e1gw_trunk_octets_total 512000
e1gw_role 1
e1gw_fed 0
e1gw_feed_age_seconds 29.5
e1gw_trunk_gaps_total 26
e1gw_trunk_rate_ratio 0.2038
e1gw_trunk_rate_ppm -28.6
e1gw_transport{what="span"} 2
e1gw_transport{what="recovering"} 0
e1gw_transport{what="loopback"} 1
e1gw_transport{what="yellow"} 0
e1gw_transport{what="red"} 1
e1gw_transport{what="blue"} 0
e1gw_transport{what="not_open"} 0
e1gw_transport{what="bit_errors"} 37
e1gw_crc4_aligned 1
e1gw_crc4_submultiframes_total 31
e1gw_crc4_errored_total{end="this"} 32
e1gw_crc4_errored_total{end="other"} 33
e1gw_crc4_alignment_losses_total 35
e1gw_circuit_state{circuit="7",role="incoming",state="answered"} 1
e1gw_circuit_state{circuit="8",role="incoming",state="idle"} 1
e1gw_circuit_blocked{circuit="7"} 0
e1gw_circuit_deaf{circuit="7"} 0
e1gw_circuit_seizures_total{circuit="7"} 5
e1gw_circuit_answers_total{circuit="7"} 4
e1gw_circuit_unacknowledged_total{circuit="7"} 3
e1gw_circuit_faults_total{circuit="7"} 2
e1gw_circuit_open_seconds_total{circuit="7"} 67.89
e1gw_rtp_lost{circuit="7"} 9
e1gw_rtp_jitter_seconds{circuit="7"} 0.001234
e1gw_rtp_packets_total{circuit="7",direction="sent"} 101
e1gw_rtp_packets_total{circuit="7",direction="received"} 102
e1gw_rtp_packets_total{circuit="8",direction="sent"} 0
e1gw_rtp_packets_total{circuit="8",direction="received"} 0
e1gw_rtp_discarded_total{circuit="7",cause="Late"} 6
e1gw_rtp_discarded_total{circuit="7",cause="Full"} 8
e1gw_socket_dropped_total{circuit="7"} 14
e1gw_commands_total{command="seize",answer="done"} 25
e1gw_jitter_buffer_resyncs_total 24
e1gw_ended{what="json"} 1
e1gw_ended{what="session"} 0
e1gw_uptime_seconds 100.0
e1gw_build_info{version="1.2"} 1'''
TABLE = '''trunk west, e1gw 1.2, up 100 s, wrong rate 20.38 %
2.0 s of the trunk at 00:01:40 UTC, loss of multiframe alignment; the other end: not heard
alignment lost: frame 21, multiframe 22; stalls 23, slips 26 (27.3 s)
two machines: the standby is not fed: its link; configured otherwise there: circuits 3, 4
card: span 2, LOOPBACK, RED, bit errors 37
CRC-4: multiframe alignment, lost 35, of it 36 for 915 errored of 1000; errored 32 of 31 submultiframes, the other end \
reports 33
ended: json: no room
the counts of packets are not those of now
''' + metrics.COLUMNS + '''
 7 incoming answered    01   00       12.3      5        4      67.9  g726-32     40       101       102     9     1.2\
  6 Late, 8 Full
 8 incoming idle        01   00       12.3      5        4      67.9  g726-32     40         0         0     9     1.2
'''


def known(plain: dict[str, Any]) -> TrunkStatus:
    return typed(TrunkStatus, plain)


def samples(text: str) -> dict[str, str]:
    """The samples of a text of Prometheus; each is of a family that was declared before it, and is there once."""
    found, declared = dict[str, str](), set[str]()
    for line in text.splitlines():
        if line.startswith('# TYPE '):
            declared.add(line.split()[2])
        elif not line.startswith('# HELP '):
            name, _, value = line.rpartition(' ')
            assert SAMPLE.fullmatch(line) and name.partition('{')[0] in declared and name not in found, line
            found[name] = value
    return found


class TrunkTextTests(unittest.TestCase):
    def test_json(self) -> None:
        """It has the keys of which it was read, each with its value, and what is read of it is that status."""
        for plain in STATUS, FULL, STATUS | {'transport': {'trunk': 'a', 'satop': 'x', 'received': 1, 'silent': 0}}, \
                STATUS | {'transport': {'trunk': 'a', 'slots': 'clear', 'silent': True, 'slots_lost': 1}}:
            its = plain_of(known(plain))
            self.assertEqual(known(json.loads(json.dumps(its))), known(plain))
            self.assertEqual({key: its[key] for key in plain if key not in DEEP}, {
                key: plain[key] for key in plain if key not in DEEP})
            for key in (key for key in DEEP[:-1] if plain.get(key)):
                self.assertEqual({each: its[key][each] for each in plain[key]}, plain[key])
            self.assertEqual([{key: row[key] for key in ROW} for row in its['circuits']], [ROW, IDLE])

    def test_metrics(self) -> None:
        """Each number is another one. Of a circuit's row that is idle only what differs is looked at."""
        text = metrics.exposition(known(FULL))
        lines = {name: value for name, value in samples(text).items() if 'circuit="8"' not in name.replace(
            'rtp_packets_total{circuit="8"', '').replace('state{circuit="8"', '')}
        others = {name for name in lines if name.startswith('e1gw_circuit_state{') and lines[name] == '0'}
        self.assertEqual(len(others), 2 * 7)
        self.assertEqual([f'{name} {lines[name]}' for name in lines if name not in others], SAMPLES.split('\n'))
        kinds = dict(re.findall(r'^# TYPE (\w+) (\w+)$', text, re.M))
        self.assertEqual([kinds[name] for name in ('e1gw_trunk_up', 'e1gw_ended', 'e1gw_transport',
                                                   'e1gw_trunk_octets_total')],
                         ['gauge', 'gauge', 'untyped', 'counter'])
        self.assertEqual(len(kinds), text.count('\n# HELP ') + 1)

    def test_alerts_and_dashboard_name_what_there_is(self) -> None:
        """Of a trunk, of the standby and of a tie."""
        named = {name for file in ('alerts.yml', 'dashboard.py')
                 for name in re.findall(r'\be1gw_\w+', support.text_of(f'{support.TOP}/dist/package/{file}'))}
        tie = tie_status.status_of(Tie(TieOptions('', None, 0.0, False), '', print))
        text = metrics.exposition(known(FULL)) + tie_status.exposition(tie)
        self.assertLessEqual(named, {*re.findall(r'^# TYPE (\w+)', text, re.M)})

    def test_metrics_of_what_is_not_there(self) -> None:
        few = metrics.exposition(known(STATUS), 'w"\\\n')
        self.assertIn('e1gw_trunk_up{trunk="w\\"\\\\\\n"} 1\n', few)
        for name in ('role', 'fed', 'rate', 'transport', 'crc4'):
            self.assertNotIn(f'\ne1gw_{name}', few.replace('trunk_', ''))
        few = metrics.exposition(known({key: value for key, value in FULL.items() if key != 'program'} | {
            'role': 'standby', 'feed_age': None, 'crc4': CRC4 | {'aligned': None}, 'clock': {
                'stalled': True, 'stalls': 0, 'gaps': 1, 'gap_seconds': 2.0, 'ppm': None}}))
        for line in ('e1gw_trunk_stalled 1', 'e1gw_role 0', 'e1gw_trunk_gaps_total 1'):
            self.assertIn(f'{line}\n', few)
        for name in ('connected', 'feed_age_seconds', 'crc4_aligned', 'rate_ppm'):
            self.assertNotIn(f'\ne1gw_{name}', few.replace('trunk_', ''))

    def test_table(self) -> None:
        self.assertEqual(metrics.table(known(FULL)), TABLE)
        few = metrics.table(known(STATUS | {'circuits': []})).splitlines()
        self.assertEqual(few, ['trunk west, e1gw 1.2, up 100 s', '2.0 s of the trunk at 00:01:40 UTC, aligned; the '
                               'other end: no alarm', 'alignment lost: frame 21, multiframe 22; stalls 23, '
                               'slips 0 (0.0 s)', metrics.COLUMNS])
        self.assertEqual(metrics.circuit_table(known(FULL), 8).splitlines(), [metrics.COLUMNS, TABLE.splitlines()[-1]])

    def test_lines_of_the_table(self) -> None:
        slips = {'stalled': False, 'stalls': 0, 'gaps': 0, 'gap_seconds': 0.0, 'ppm': None}
        rows: tuple[tuple[dict[str, Any], int, str], ...] = (
                ({'fault': 'no card'}, 0, 'trunk west, e1gw 1.2, not open'),
                ({'fault': 'no card'}, 4, TABLE.splitlines()[-2].replace('answered   ', 'not open   ')),
                ({'clock': slips}, 2, 'alignment lost: frame 21, multiframe 22; stalls 0, slips 0 (0.0 s)'),
                ({'remote_alarm': {'frame': True, 'multiframe': True}}, 1, '2.0 s of the trunk at 00:01:40 UTC, '
                 'aligned; the other end: RAI (bit A), distant multiframe alarm (bit y)'),
                ({'role': 'standby', 'fed': True}, 3, 'two machines: standby, fed'),
                ({'role': 'active', 'fed': True, 'differs': []}, 3, 'two machines: the standby is fed'),
                ({'transport': {'packets': 1}}, 3, metrics.COLUMNS),
                ({'transport': CARD | {'red': 0, 'loopback': 0, 'e_bits': 0, 'code_violations': 5}}, 3,
                 'card: span 2, no alarm, code violations 5, bit errors 37'),
                ({'transport': {'satop': 'packets missing', 'received': 7, 'lost': 2, 'malformed_other_size': 3,
                                'malformed_short': 1}}, 3, 'satop: packets missing; received 7, lost 2, refused 4'),
                ({'transport': {'satop': ''}}, 3, 'satop: no fault; received 0, lost 0, refused 0'),
                ({'senders': 'any'}, 3, 'datagrams are received of any sender (--senders any)'),
                ({'senders': 'host'}, 3, metrics.COLUMNS),
                ({'crc4': CRC4 | {'aligned': False, 'given_up': 0}}, 3, 'CRC-4: no multiframe alignment, lost 35; '
                 'errored 32 of 31 submultiframes, the other end reports 33'),
                ({'crc4': CRC4 | {'aligned': None, 'given_up': 0}}, 3, 'CRC-4: not counted yet, lost 35; errored 32 '
                 'of 31 submultiframes, the other end reports 33'))
        for more, at, line in rows:
            self.assertEqual(metrics.table(known(STATUS | more)).splitlines()[at], line)

    def test_state(self) -> None:
        """The first of these that holds."""
        status, stalled = {**STATUS, 'alarm': {'frame': True, 'multiframe': True}}, {'stalled': True}
        steps: tuple[tuple[dict[str, Any], str], ...] = (
            ({}, 'loss of frame alignment (LFA), loss of multiframe alignment'), ({'clock': stalled}, 'stalled'),
            ({'trunk_up': False}, 'no trunk'),
            ({'program': False}, 'no connection to the program since 00:00:01 UTC'), ({'fault': 'no card'}, 'no card'))
        for more, words in steps:
            status |= more
            self.assertEqual(metrics.state_of(known(status)), words)
        others = {key: value for key, value in STATUS.items() if key != 'program'}
        self.assertEqual(metrics.state_of(known(others)), 'aligned')

    def test_line_among_trunks(self) -> None:
        late = ROW | {'circuit': 9, 'datagrams': {'sent': 1, 'admitted': 1, 'Late': 40}}
        rows: tuple[tuple[dict[str, Any], str], ...] = (
                ({}, 'west         1.2      1970-01-02 00:00      1       18        6  aligned'),
                ({'circuits': [ROW, late]}, 'west         1.2      1970-01-02 00:00      2       18       46  aligned'),
                ({'fault': 'no card', 'circuits': []},
                 'west         1.2                            0        0        0  no card'),
                ({'remote_alarm': {'frame': True, 'multiframe': False}, 'circuits': [], 'fed': True},
                 'west         1.2      1970-01-02 00:00      0        0        0  aligned; the other end: RAI (bit '
                 'A)'),
                ({'remote_alarm': {'frame': True, 'multiframe': False}, 'circuits': [], 'trunk_up': False,
                  'role': 'active', 'fed': False, 'ended': {'json': 'no room', 'session': 'x', 'calls': None}},
                 'west         1.2      1970-01-02 00:00      0        0        0  no trunk; ended: json, session; '
                 'not fed'),
                ({'clock': {'rate_wrong': True}, 'circuits': []},
                 'west         1.2      1970-01-02 00:00      0        0        0  aligned; wrong rate'),
                ({'clock': {'stalled': False, 'rate': 0.2, 'rate_wrong': True}, 'circuits': [],
                  'transport': {'satop': 'packets missing'}},
                 'west         1.2      1970-01-02 00:00      0        0        0  aligned; wrong rate 20.00 %; satop: '
                 'packets missing'))
        for more, line in rows:
            self.assertEqual(str(ctl_all.TrunkLine.from_status('west', known(STATUS | more))), line)


class HiddenAddressTests(unittest.TestCase):
    def test_addresses(self) -> None:
        """Each is one word wherever it stands, but for those of this machine; times, versions and words stay."""
        hidden = HiddenAddresses()
        hidden.find_names(['peer_host = "pbx.example"\nhost = "192.0.2.1"', '--feed east.example:7401 localhost:1'])
        for text, without in (
                ('192.0.2.1:5060, 192.0.2.1.', 'host3:5060, host3.'),
                ('pbx.example, mypbx.example', 'host1, mypbx.example'),
                ('[2001:db8::7]:5060', '[host4]:5060'), ('from 2001:db8::7: no', 'from host4: no'),
                ('east.example:7401', 'host2:7401'), ('127.0.0.1:9101 ::1 0.0.0.0', '127.0.0.1:9101 ::1 0.0.0.0'),
                ('14:03:22 1.2.3 face a::bad_word std::c', '14:03:22 1.2.3 face a::bad_word std::c')):
            self.assertEqual(hidden.hide_in(text), without)


class EventAndFaultTextTests(unittest.TestCase):
    def test_each_event(self) -> None:
        rows: list[tuple[Event, str]] = [
            (LineChanged(3, Role.OUTGOING, State.IDLE, State.SEIZED, 0), '3: seized, was idle'),
            (LineChanged(3, Role.OUTGOING, State.IDLE, State.SEIZED, 0, call='a'), '3: seized, was idle, call a'),
            (AlarmChanged(Alignment.FRAME, True, 0), 'alarm: loss of frame alignment (LFA)'),
            (AlarmChanged(Alignment.MULTIFRAME, False, 0), 'alarm over: loss of multiframe alignment'),
            (RemoteAlarmChanged(Alignment.FRAME, True, 0), 'alarm of the other end: RAI (bit A)'),
            (CallsCleared('it is dark', (1, 2)), 'calls cleared, it is dark: circuits 1, 2'),
            (CircuitsBlocked(BlockNews.SEIZED, (1, 2)),
             'seized before the block: blocking, until these calls have ended: circuits 1-2'),
            (Stalled(1.0), 'no octets of the trunk for 1.0 s'), (Flows(2.5), 'octets again after 2.5 s'),
            (Slip(0.5), 'slip: 0.5 s of the trunk were lost'),
            (Burst(0.5), 'burst: 0.5 s of the trunk came too early'),
            (RateChanged(250.0), "rate: +250.0 ppm relative to this machine's clock"),
            (WrongRate(True, 20.38), 'wrong rate: 20.38 % of the octets of the last seconds came'),
            (WrongRate(False, 100.0), 'right rate again: 100.00 % of the octets of the last seconds came'),
            (WatchEnded('json', 'no room'), 'json ended, the calls go on: no room'),
            (RoleGiven('active'), 'this machine is to be active'),
            (SendersGiven('any'), 'datagrams are received of any sender (--senders any)'),
            (Fed('b', 'p'), 'fed by b, program p there'),
            (NotFed('b', 'w'), 'not fed by b: w'),
            (CardAlarmChanged(CardAlarm.NOT_OPEN, True), 'card: NOT OPEN alarm: the span is not started: dahdi_cfg'),
            (CardAlarmChanged(CardAlarm.RED, False), 'card: RED alarm over'),
            (SlotsChanged(SlotsChange.MOVED, 3), 'slots moved by 3: slot 16 found again, speech goes on'),
            (TrunkOpened('/dev/e1', {'waiting': 0}), 'trunk open: /dev/e1'), (TrunkLost('w'), 'trunk lost: w'),
            (LogLost(), 'the log took no write: the next program goes on behind what it has'),
            (Connected('program'), 'connected to the program'),
            (Disconnected('program', 'w'), 'no connection to the program: w'),
            (Crc4Changed(Crc4Change.GIVEN_UP, True, 2),
             'false frame alignment: 915 of 1000 submultiframes errored, 2 times'),
            (Crc4Changed(Crc4Change.LOST_AND_FOUND, True, 1), 'CRC multiframe alignment lost and found again'),
            (Crc4Changed(Crc4Change.ERRORED, False, 0, 500), 'CRC-4 errors over: 0 of 500 submultiframes'),
            (SatopChanged('no packets', True), 'satop: no packets')]
        for event, words in rows:
            self.assertEqual(event.words(), words)

    def test_faults(self) -> None:
        none = FileNotFoundError(2, 'No such file', '/a')
        for fault, what, words in (
                (none, '', '/a: No such file'), (none, 'b', 'b: No such file'),
                (OSError(2, 'No /a', '/a'), '', 'No /a'), (OSError(2, 'No b'), 'b', 'No b'),
                (OSError('odd'), '', 'odd'), (TimeoutError(), '', 'TimeoutError'),
                (OSError(9, 'Is bad', 's'), '', 's: Is bad'), (OSError(9, 's: bad', 's'), '', 's: bad'),
                (OSError(9, 'Bad', 7), '', 'Bad'), (ValueError('c'), '', 'c'), (ValueError('c'), 'b', 'b: c')):
            self.assertEqual(words_of_fault(fault, what), words)
        for fault in (none, OSError('odd')):
            found = named(fault, 'b')
            self.assertEqual((found.errno, found.strerror), (fault.errno or 0, words_of_fault(fault, 'b')))

    def test_refusals(self) -> None:
        for refusal, role, words in (
                (CommandRefusal.NOT_IDLE, Role.INCOMING, 'not idle'),
                (CommandRefusal.WRONG_ROLE, Role.INCOMING, 'wrong role (circuit 3 is incoming; the exchange seizes and '
                 'clears it)'),
                (CommandRefusal.WRONG_ROLE, Role.OUTGOING, 'wrong role (circuit 3 is outgoing; the exchange answers, '
                 'clears back and blocks it)')):
            self.assertEqual(words_of_refusal(refusal, 3, role), words)

    def test_options(self) -> None:
        for path, words in ((os.devnull, f'; its options are in {os.devnull}'), ('', ''),
                            ('/none', '; /none, which has its options, is missing')):
            with mock.patch.dict(os.environ, {'E1GW_OPTIONS': path}):
                self.assertEqual(options_words(), words)
                with self.assertRaises(SystemExit), contextlib.redirect_stderr(io.StringIO()) as said:
                    Parser('a').error('b')
                self.assertEqual(said.getvalue().splitlines()[-1], f'a: error: b; see a --help{words}')
        for read, text, value in ((number(1, 3), '1', 1), (number(1, 3), '3', 3), (number(0, 1, float), '0.5', 0.5),
                                  (checked(int), '7', 7)):
            self.assertEqual(read(text), value)
        for read, text, words in ((number(1, 3), '0', '0 is not 1 to 3'), (number(1, 3), '4', '4 is not 1 to 3'),
                                  (checked(int, 'a number'), 'x', 'x is not a number'),
                                  (checked(int), 'x', r"invalid literal for int\(\) with base 10: 'x'")):
            self.assertRaisesRegex(argparse.ArgumentTypeError, f'^{words}$', read, text)
