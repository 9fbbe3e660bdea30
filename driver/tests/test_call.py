"""e1gw-call: a call that is taken out of a ring, against the whole session."""
from __future__ import annotations

import csv
import io
import os
import re
import shutil
import unittest
from functools import partial
from ipaddress import ip_address
from unittest import mock

from . import support
from .picture_made import GATEWAY, PEER, PROGRESS, MadeSession, PictureSender, packets
from .properties import PropertyCase
from .test_picture_beginning import BEGIN, RingCase
from e1gw_common.call_lines import FIELDS, CallLine, csv_line, moment
from e1gw_common.lines import CircuitConfig, TrunkConfig
from e1gw_common.packets import datagrams
from e1gw_picture.facts import Facts
from e1gw_common.session import OCTETS_A_SECOND, Command, Kind, datagram_record, records_in
from e1gw_common.session_clock import Break, FileNote, SessionClock, breaks_of
from e1gw_tools.call import CallCut, CircuitSide, EndedCall, begin_of
from e1gw_tools.pcap import Announcements, Timed, checksum, configured_ends, packet, packets_of, write_capture

COMMAND = os.path.join(support.TOP, 'bin', 'e1gw-call')
FRAME = 32
SIGNALS = [('00', '10', 'seized'), ('00', '11', 'acked'), ('00', '01', 'answered'), ('10', '01', 'releasing'),
           ('10', '10', 'idle')]       # ITU-T Q.421: a and b, forward and backward
COMMANDS = {3: [('seize', 'done'), ('block', 'wrong role'), ('clear', 'done')],
            4: [('seize', 'done'), ('clear', 'done')]}


class RingCallTests(RingCase):
    """Circuit 3 is in a call from 1.1 to 4.8 s, circuit 4 from 5.6 to 7.3, in a ring of four files of two seconds."""

    def setUp(self) -> None:
        super().setUp()
        noise = support.chance_of(self).randbytes(16_000)
        made = MadeSession(9.0, {3: {'prefill': 320}, 4: {'prefill': 320}}, speech=noise)
        made.call(3, 1.1, 4.8)
        made.call(4, 5.6, 7.3)
        made.events.append((2.0, 'command', 3, Command.BLOCK))
        self.keep(made.plus(PictureSender(3, 1.25, 4.7, jitter=0.03, payloads=packets(noise)),
                            PictureSender(4, 5.8, 7.2)), 2.0)
        lines = [('west', n, 'outgoing', *(moment(BEGIN + each) for each in times), 'gateway', 'pcma', 1, 2, 0, 0,
                  f'1f-{n}-1') for n, *times in ((3, 1.12, 1.7, 4.83), (4, 5.6, 6.2, 7.4))]
        self.write('ring/calls.csv', ''.join(f'{csv_line(line)}\n' for line in (FIELDS, *lines)))

    def taken(self, name: str, status: int = 0) -> str:
        """What the command says of a call."""
        done, told, said = support.ran(COMMAND, name, self.ring, '-o', self.path('out'), '--program', support.program())
        self.assertEqual(done, status, said)
        self.assertTrue(all(os.stat(path).st_mode & 0o777 == 0o640 for path in told.split()))
        return PROGRESS.sub('', said)

    def test_a_call(self) -> None:
        """Of each call the speech, packets and signals are those of the whole session, octet for octet."""
        answers = support.run('replay', '--config', self.config, given=b''.join(self.records))
        for circuit, begin in (3, 1.1), (4, 5.6):
            self.assertEqual(self.taken(f'1f-{circuit}-1'), '')
            wave = support.octets_of(self.path(f'out/1f-{circuit}-1.wav'))[58:]
            slots = [b''.join(each.body for each in records_in(octets) if each.kind is Kind.TRUNK)[circuit::FRAME]
                     for octets in (b''.join(self.records), answers)]
            first, count = round((begin - 1) * 8000), len(wave) // 2 - 2     # (two frames at its end may be cut)
            self.assertGreater(count, 20_000)
            self.assertIn((wave[:2 * count:2], wave[1:2 * count:2]), [tuple(slot[at:at + count] for slot in slots)
                                                                      for at in (first - 1, first, first + 1)])
            rows = list(csv.reader(support.text_of(self.path(f'out/1f-{circuit}-1.csv')).splitlines()))[1:]
            self.assertEqual([tuple(row[1:4]) for row in rows if row[3]], SIGNALS)
            self.assertEqual([tuple(row[4:]) for row in rows if row[4]], COMMANDS[circuit])
            self.assertEqual(rows[0][0], moment(BEGIN + begin))
            self.packets(circuit, answers)
            page = support.text_of(self.path(f'out/1f-{circuit}-1.html'))
            self.assertIn(f'west: call 1f-{circuit}-1', page)
            self.assertNotIn(f'circuit {7 - circuit}', page)
            whole, *parts = re.findall(r'(\d+) sent, (\d+) received', page)
            self.assertEqual([sum(map(int, each)) for each in zip(*parts)], [*map(int, whole)])
            self.assertEqual({*re.findall(r'<audio [^>]*src="([^"#]*)', page)}, {f'1f-{circuit}-1.wav'})

    def packets(self, circuit: int, answers: bytes) -> None:
        """Those of the capture have their places of the whole session: what went, behind the octets of its record."""
        wanted = list[tuple[int, bytes, bool]]()
        for went, octets in (False, b''.join(self.records)), (True, answers):
            place, held = 0, list[bytes]()
            for record in records_in(octets):
                held += [record.body] * (record.kind is Kind.DATAGRAM and record.circuit == circuit)
                if record.kind is Kind.TRUNK:
                    wanted += [(place + len(record.body) * went, body, went) for body in held]
                    place, held = place + len(record.body), []
        with open(self.path(f'out/1f-{circuit}-1.pcap'), 'rb') as file:
            found = [each for each in datagrams(file) if each.target == 5000 + 2 * circuit]
        self.assertEqual(sorted((round((each.time - BEGIN) * OCTETS_A_SECOND), each.body, each.source_host == GATEWAY)
                                for each in found), sorted(wanted))
        self.assertEqual([each.time for each in found], sorted(each.time for each in found))

    def test_what_is_not_kept_any_more(self) -> None:
        files = sorted(name.removesuffix('.e1gw') for name in os.listdir(self.ring) if name.endswith('.e1gw'))
        for gone, said in ((0, 'its begin is not kept any more: 0.9 s are missing'),
                           (1, 'its begin is not kept any more: 2.9 s are missing')):
            for ending in ('.e1gw', '.json', '.state'):
                if os.path.exists(path := os.path.join(self.ring, files[gone] + ending)):
                    os.unlink(path)
            self.assertIn(said, self.taken('1f-3-1', 1))
            self.assertIn(said, support.text_of(self.path('out/1f-3-1.html')))
        shutil.rmtree(self.path('out'))
        for name, said in (('1f-3-2', 'no line has 1f-3-2'), ('1f-3-1', 'nothing any more of 1f-3-1, which ended at')):
            os.unlink(os.path.join(self.ring, f'{files[2]}.e1gw')) if name == '1f-3-1' else None
            self.assertIn(said, self.taken(name, 1))
            self.assertFalse(os.path.exists(self.path('out')))

    def test_another_configuration(self) -> None:
        """That of another circuit does not matter, that of this one does."""
        for circuit, status in (7, 0), (4, 1):
            self.write('west.toml', support.config_text({3: {'prefill': 320}, 4: {'prefill': 320},
                                                         circuit: {'prefill': 480}}))
            said = self.taken('1f-4-1', status)
            self.assertRegex(said, 'circuit 4 begins as new.*--config names' if status else '^$')


class CallCutTests(unittest.TestCase):
    """What is written of a call: its speech, and the ends of its packets."""

    def test_silence_where_octets_are_missing(self) -> None:
        """Both directions of 1.5 s of the trunk, an outage of 2 s, and a slip of 0.25 at which the clock was set. One
        direction ends early."""
        given, answered = (CircuitSide(3, 0, went, 'A') for went in (False, True))
        given.speech, answered.speech = bytearray(b'\1' * 16_000), bytearray(b'\2' * 15_000)
        facts = Facts()
        facts.breaks = [Break(OCTETS_A_SECOND, 2.0, 2.0), Break(OCTETS_A_SECOND * 3 // 2, 3600.0, 0.25)]
        call, reading = EndedCall('1f-3-1', 'west', 3, 0.5, 2.0), mock.Mock(facts=facts, given=given, answered=answered)
        speech = CallCut(call, reading, OCTETS_A_SECOND // 2, 2 * OCTETS_A_SECOND, TrunkConfig())._speech()
        self.assertEqual(bytes(speech), b'\1\2' * 4000 + b'\xd5\xd5' * 16_000 + b'\1\2' * 4000 + b'\xd5\xd5' * 2000
                         + b'\1\2' * 3000 + b'\1\xd5' * 1000)

    def test_addresses_and_ports(self) -> None:
        """Those of the configuration; for names and any address those for examples (RFC 5737, RFC 3849)."""
        for host, peer, ends in (
                ('192.0.2.10', '198.51.100.20', ('192.0.2.10', '198.51.100.20')),
                ('0.0.0.0', 'pbx.example', ('192.0.2.1', '192.0.2.2')), ('::1', 'pbx.example', ('::1', '2001:db8::2')),
                ('::', '2001:db8::9', ('2001:db8::1', '2001:db8::9'))):
            config = TrunkConfig('A', host, (CircuitConfig(3, local_port=24006, peer_host=peer, peer_port=34006),))
            found = (its := partial(configured_ends, config))(3)
            here, there = (ip_address(each).packed for each in ends)
            self.assertEqual(found, ((here, 24006), (there, 34006)))
            self.assertEqual(configured_ends(config, 4), ((GATEWAY, 5008), (PEER, 5008)))
            datagram, file = b'\x80\x60' + bytes(10) + b'speech!', io.BytesIO()
            (record,) = records_in(datagram_record(3, datagram))
            write_capture(packets_of([Timed(n, record, went) for n, went in enumerate((True, False))], 3,
                                     Announcements('A', {3: ('g726-32', 96)}, its)), file)
            told, went, came = datagrams(io.BytesIO(file.getvalue()))
            self.assertEqual([(each.source_host, each.target, each.body) for each in (went, came)],
                             [(here, 34006, datagram), (there, 24006, datagram)])
            version = 4 if len(here) == 4 else 6
            self.assertTrue(told.body.decode(errors='replace').endswith(
                f'\r\nc=IN IP{version} {ends[0]}\r\nt=0 0\r\nm=audio 24006 RTP/AVP 0 8 96\r\n'
                'a=rtpmap:96 G726-32/8000\r\n'
                f'm=audio 34006 RTP/AVP 0 8 96\r\nc=IN IP{version} {ends[1]}\r\na=rtpmap:96 G726-32/8000\r\n'))

    def test_checksums(self) -> None:
        """RFC 1071, section 3: the sum of its example is ddf2. One over IPv6 with its pseudo-header is nothing."""
        self.assertEqual(checksum(bytes.fromhex('0001f203f4f5f6f7')), 0xFFFF - 0xDDF2)
        hosts = [ip_address(each).packed for each in ('::1', '2001:db8::9')]
        octets = packet((hosts[0], 24006), (hosts[1], 34006), b'odd')
        self.assertEqual((octets[4:7], octets[8:40]), (bytes([0, 11, 17]), b''.join(hosts)))
        self.assertEqual(checksum(b''.join(hosts) + bytes([0, 0, 0, 11, 0, 0, 0, 17]) + octets[40:]), 0)


class EndedCallTests(unittest.TestCase):
    def test_of_its_lines(self) -> None:
        """Seizure or answer of the first one, the end of the last one, which comes first."""
        line = CallLine('west', '3', 'outgoing', '2027-01-15T08:00:01.000Z', '2027-01-15T08:00:02.000Z',
                        '2027-01-15T08:00:30.000Z', 'gateway', 'pcma', '1', '2', '0', '0', '1f-3-1')
        bare, later = line._replace(seized='', answered=''), line._replace(seized='', ended='2027-01-15T08:01:00.000Z')
        for lines, begin, end in (([line], 1, 30), ([later, line], 1, 60), ([later], 2, 60), ([bare], 30, 30)):
            self.assertEqual(EndedCall.from_lines(lines), EndedCall('1f-3-1', 'west', 3, BEGIN + begin, BEGIN + end))

    def test_where_it_began(self) -> None:
        """Of all calls of a line the one that its times are of, though they are somewhat late."""
        second = OCTETS_A_SECOND
        states = [(n * second, (n + 1) * second, state) for n, state in enumerate(
            ('idle', 'seized', 'acked', 'answered', 'releasing', 'idle', 'acked', 'blocked', 'fault', 'idle'))]
        for first, last, begin in ((1.1, 4.2, 1), (3.5, 3.9, 1), (6.2, 7.1, 6), (5.9, 6.1, 6), (4.0, 7.0, 6),
                                   (7.2, 9.0, 6), (10.5, 12.0, None)):
            found = begin_of(states, round(first * second), round(last * second))
            self.assertEqual(found, begin and begin * second, first)


class SessionTimeTests(PropertyCase):
    def test_a_boot_between_two_files(self) -> None:
        """Their clocks do not compare: the outage is by the time of the day."""
        (found,) = breaks_of([FileNote(0, 1.8e9, 100.0, ()), FileNote(OCTETS_A_SECOND, 1.8e9 + 63.0, 30.0, ())])
        self.assertEqual((found.place, found.is_outage, round(found.lost, 6)), (OCTETS_A_SECOND, True, 62.0))

    def test_a_place_and_its_time(self) -> None:
        """Of each place the time leads back to it, and the time of an outage to its end."""
        st = self.st

        def check(begin: float, lost: list[tuple[int, float]], place: int) -> None:
            breaks, at = list[Break](), 0
            for octets, seconds in lost:
                at += octets
                breaks.append(Break(at, seconds, seconds))
            clock = SessionClock(begin, tuple(breaks))
            self.assertEqual(clock.place(clock.second(place)), place)
            for each in breaks:
                self.assertEqual(clock.place(clock.second(each.place) - each.seconds / 2), each.place)
        self.holds(check, st.sampled_from((0.0, 1_800_000_000.0)),
                   st.lists(st.tuples(st.integers(1, 10**7), st.integers(1, 100).map(float)), max_size=4),
                   st.integers(0, 10**8))
