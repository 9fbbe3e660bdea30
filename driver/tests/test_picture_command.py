"""e1gw-picture as it is run: what it takes, what it writes, what it says, and captures."""
from __future__ import annotations

import contextlib
import io
import json
import os
import re
import shutil
import struct
import subprocess
from unittest import mock

from .support import FolderCase, program, text_of

from .picture_made import (BEGIN, COMMAND, PEER, MadeSession, PictureSender, apart, icmp, page_of, pcap, recorded,
                           udp)

from e1gw_picture import main, progress
from e1gw_common.packets import BadCapture, Datagram, datagrams
from e1gw_common.session import OCTETS_A_SECOND, Kind, records_in, trunk_record
from e1gw_common.session_files import RecordedSession

COUNTS = re.compile(r'(\d+) sent, (\d+) received, (\d+) discarded')


def udp6(source: int, target: int, body: bytes) -> bytes:
    """The same over IPv6 (RFC 8200)."""
    return (struct.pack('>IHBB', 6 << 28, 8 + len(body), 17, 64) + bytes(32)
            + struct.pack('>HHHH', source, target, 8 + len(body), 0) + body)


def pcapng(packets: list[tuple[float, bytes]]) -> bytes:
    """The same with times in nanoseconds, in blocks."""
    def block(kind: int, body: bytes) -> bytes:
        body += bytes(-len(body) % 4)
        return struct.pack('<II', kind, len(body) + 12) + body + struct.pack('<I', len(body) + 12)
    out = [block(0x0A0D0D0A, struct.pack('<IHHq', 0x1A2B3C4D, 1, 0, -1)),
           block(1, struct.pack('<HHI', 101, 0, 0) + struct.pack('<HHBxxx', 9, 1, 9) + struct.pack('<HH', 0, 0))]
    for time, octets in packets:
        unit = round(time * 1e9)
        out.append(block(6, struct.pack('<5I', 0, unit >> 32, unit & 0xFFFFFFFF, len(octets), len(octets)) + octets))
    return b''.join(out)


def found_in(capture: bytes) -> list[Datagram]:
    return list(datagrams(io.BytesIO(capture)))


class PictureCommandTests(FolderCase):
    """The command line, with a call that has twenty datagrams: circuit 3 is seized at 0.05 s and cleared at 1 s."""

    def setUp(self) -> None:
        super().setUp()
        made = MadeSession(1.2, {3: {'prefill': 320}})
        made.call(3, 0.05, 1.0)
        self.records = list(made.plus(PictureSender(3, 0.2, 0.5999)).given())
        self.config, self.octets = self.write('trunk.toml', made.config()), b''.join(self.records)
        self.given = self.write('given.rec', self.octets)

    def kept(self, *files: tuple[str, bytes, dict[str, object]]) -> str:
        """A folder with files of a ring and their .json."""
        folder = self.path('ring')
        os.makedirs(folder, exist_ok=True)
        for name, octets, about in files:
            self.write(f'ring/west-{name}.e1gw', octets)
            both = {'config': self.config, 'time': BEGIN, 'place': 0, 'begins': 'start'}
            self.write(f'ring/west-{name}.json', json.dumps(both | about))
        return folder

    def test_words(self) -> None:
        page, said = page_of('--config', self.config, self.given)
        self.assertEqual((said, '20 received, 0 discarded' in page), ('', True))
        page_of('--config', self.config, '-o', self.path('page.html'), self.given)
        self.assertEqual(text_of(self.path('page.html')), page)
        for words, found in ((['--circuits', '3'], '<h1>e1gw: a session</h1>'),
                             (['--begin', '2023-11-14T22:13:20Z'], '2023-11-14 22:13:20 UTC'),
                             (['--begin', str(BEGIN)], '2023-11-14 22:13:20 UTC'),
                             (['--circuits', '4-6'], '0 sent, 0 received, 0 discarded')):
            with self.subTest(words):
                self.assertIn(found, page_of('--config', self.config, *words, '-', given=self.octets)[0])

    def test_cut_session_is_drawn_up_to_there(self) -> None:
        page, said = page_of('--config', self.config, '-', given=self.octets[:-100])
        self.assertIn('20 received, 0 discarded', page)
        for text in page, said:
            self.assertIn('what was before it is drawn', text)

    def test_kept_session(self) -> None:
        for begins, note in (('start', ''), ('middle', 'begins in the middle')):
            page, said = page_of(self.kept(('20231114T221320Z', self.octets, {'begins': begins})))
            self.assertIn('2023-11-14 22:13:20 UTC', page)
            self.assertEqual((note in page, note in said, bool(said)), (True, True, bool(note)))

    def test_slips_that_the_driver_noted(self) -> None:
        folder = self.kept(('20231114T221320Z', self.octets, {'place': 1000}))
        page, _ = page_of(folder)
        self.assertEqual(('>slips</text>' in page, 'e1gw-watch noted' in page), (True, False))
        self.kept(('20231114T221320Z', self.octets, {'place': 1000, 'slips': [[129000, 0.25], [257000, 0.5]]}))
        page, _ = page_of(folder)
        self.assertIn('e1gw-watch noted 2 slips, first at 22:13:20.500: 0.750 s of the trunk were lost', page)
        self.assertIn('22:13:21.250: 0.500 s were lost', page)     # (1.25 s, of which 0.25 are missing)
        self.assertNotIn('>slips</text>', page_of('--config', self.config, self.given)[0])

    def test_kept_in_several_files(self) -> None:
        """An earlier session of the same trunk, then two files of this one, the first packed where zstd is there. One
        that is being packed is there twice."""
        folder = self.kept(('20231114T220000Z', b'nonsense', {}), ('20231114T221320Z', self.octets[:7000], {}),
                           ('20231114T221321Z', self.octets[7000:], {'begins': 'middle'}))
        for name, keeps in (('20', '--rm'), ('21', '-k')) if shutil.which('zstd') else ():
            subprocess.run(['zstd', '-q', keeps, f'{folder}/west-20231114T2213{name}Z.e1gw'], check=True)
        page, said = page_of(folder)
        self.assertEqual((said, '20 received, 0 discarded' in page), ('', True))

    def test_an_outage_between_two_files(self) -> None:
        """The trunk was away for 62 s, behind 0.6 s of it: each file has its own time, and a grey gap is where no
        octets came."""
        parts, place = ([], []), 0                              # type: tuple[list[bytes], list[bytes]], int
        for record in self.records:
            parts[place >= 153_600].append(record)
            place += (len(record) - 4) * (record[0] == Kind.TRUNK)
        page, said = page_of(self.kept(
            ('20231114T221320Z', b''.join(parts[0]), {'place': 7000, 'monotonic': 100.0}),
            ('20231114T221321Z', b''.join(parts[1]), {'place': 160_600, 'time': BEGIN + 62.6, 'monotonic': 162.6,
                                                      'begins': 'middle'})))
        self.assertEqual(said, '')
        for words in ('<b>the trunk</b>no octets of the trunk came from 22:13:20.600 to 22:14:22.600 (62.00 s)',
                      '<td>22:13:20.050</td><td>seize</td>', '<td>22:14:23.000</td><td>clear</td>',
                      '<td>22:13:20.600</td><td>22:14:22.600</td><td>62.00 s</td>'):
            self.assertIn(words, page)
        # (the answer comes at 0.58 s)
        self.assertRegex(page, r'<td>22:13:20.5\d\d</td><td>22:14:23.000</td><td>62.4\d s</td><td>answered</td>')
        gaps = re.findall(r'<rect x="([\d.]+)" y="[\d.]+" width="([\d.]+)" height="[\d.]+" class="outage"><title>'
                          r'no octets of the trunk: 22:13:20.600 to 22:14:22.600, 62.00 s</title>', page)
        # The trunk, the circuits, the packets of circuit 3: 1.2 s of the trunk and an outage, which takes half of that,
        # so 0.6 of 1.8 on 1000 pixels, from a third on.
        self.assertEqual(gaps, [('459.3', '333.3')] * 3)
        places = [float(x) for x in re.findall(r'<path d="M([\d.]+) [\d.]+l4 -6h-8z" class="c-done">', page)]
        self.assertEqual([x < 459.3 for x in places], [True, False])
        self.assertGreater(places[1], 459.3 + 333.3)

    def test_a_long_session_says_how_far_it_is_read(self) -> None:
        """After two seconds: on a terminal each second, and the last line is taken away; elsewhere once. By a clock of
        the test's own, which goes half a second for each second of the trunk."""
        for is_terminal, told in ((True, ['4.00', '6.00', '8.00']), (False, ['4.00'])):
            place, said = 0.0, io.StringIO()
            with self.subTest(is_terminal), contextlib.redirect_stderr(said):
                reading = progress.Progress(RecordedSession(['1', '2']), is_terminal, lambda: place / 2)
                for tenth in range(95):
                    place = tenth / 10
                    reading.read(round(place * OCTETS_A_SECOND))
                reading.end()
                found = re.findall(r'picture: (\d+\.\d\d) s of the trunk read, file 0 of 2', said.getvalue())
                self.assertEqual(found, told)
                self.assertEqual(said.getvalue().endswith('\r\x1b[K'), is_terminal)
        with mock.patch.object(progress, 'SOON', 0.0), contextlib.redirect_stderr(said := io.StringIO()):
            main.drawn(main.parser().parse_args(['--config', self.config, '--program', program(), self.given]))
        self.assertRegex(said.getvalue(), ' of the trunk read; it goes on\n$')

    def test_what_cannot_be(self) -> None:
        config, given, nothing = self.config, self.given, self.path('nothing')
        bad = self.write('bad.toml', 'law = "A"\nhost = ""\n')
        for words, status, said in (
                (['--config', config], 2, 'the following arguments are required: SESSION'),
                ([given], 1, 'no configuration'),
                (['--config', config, nothing], 1, 'No such file'),
                (['--config', nothing, given], 1, 'No such file'),
                (['--config', bad, given], 1, f'e1gw-picture: config 5 OutOfRange at 0: {bad}:2: host is '),
                (['--config', config, '--program', nothing, given], 1, 'No such file'),
                (['--config', config, '--capture', config, given], 1, 'no local_port'),
                (['--last', '5 parsecs', given], 2, 'is not a time such as'),
                (['--circuits', '0-3', given], 2, '1 to 30'),
                (['--circuits', 'x', given], 2, 'is not a list of circuits'),
                (['--begin', 'noon', given], 2, 'is not a time such as'),
                (['--config', config, '-o', nothing + '/x', given], 1, 'No such file')):
            with self.subTest(words):
                page, line = page_of(*words, status=status)
                self.assertEqual((page, said in line, 'Traceback' in line), ('', True, False), line)

    def test_closed_output(self) -> None:
        reads, writes = os.pipe()
        os.close(reads)
        done = subprocess.run([COMMAND, '--program', program(), '--config', self.config, self.given], stdout=writes,
                              stderr=subprocess.PIPE, check=False)
        os.close(writes)
        # (a slow machine is told how far it is)
        said = [line for line in done.stderr.splitlines() if not line.endswith(b'of the trunk read; it goes on')]
        self.assertEqual((done.returncode, said), (1, []))

    def test_octets_where_a_session_is_wanted(self) -> None:
        """The page says it, with the command that makes a session of them; the status is 1."""
        pair = b'\x9b' + b'\xd5' * 15 + b'\x0b' + b'\xd5' * 15 + b'\xdf' + b'\xd5' * 15 + b'\x99' + b'\xd5' * 15
        raw = self.write('trunk.raw', pair * 100)
        config = self.write('trunk.toml', 'law = "A"\n')
        page, said = page_of('--config', config, raw, status=1)
        for text in (page, said):
            self.assertIn('the session failed: fault 1 BadKind', text)
            self.assertIn(f'e1gw-records --from-raw {raw}', text)


class PictureCaptureTests(FolderCase):
    """Datagrams of a capture."""

    def test_forms_of_captures(self) -> None:
        packets = [(BEGIN + 0.25, udp(5004, 5006, b'one')), (BEGIN + 0.5, udp6(5006, 5004, b'two'))]
        found = [(BEGIN + 0.25, 5004, 5006, b'one'), (BEGIN + 0.5, 5006, 5004, b'two')]
        ether = [(time, bytes(12) + (b'\x08\x00' if octets[0] >> 4 == 4 else b'\x86\xDD') + octets)
                 for time, octets in packets]
        vlan = [(time, octets[:12] + b'\x81\x00\x00\x05' + octets[12:]) for time, octets in ether]
        for octets in (pcap(packets), pcapng(packets), pcap(ether, 1), pcap(vlan, 1)):
            self.assertEqual([each[:4] for each in found_in(octets)], found)
            self.assertEqual([each[:4] for each in found_in(octets[:-1])], found[:1])

    def test_what_icmp_answers(self) -> None:
        sent = udp(24006, 24106, b'one')
        for kind, code, answer in ((3, 3, 'nobody listens at that port'), (3, 1, 'there is no way to that host'),
                                   (3, 13, 'a firewall forbids it'), (11, 0, 'it goes round in a circle')):
            found = found_in(pcap([(BEGIN, icmp(sent, kind, code))]))
            self.assertEqual([(each.source, each.target, each.body, each.answer) for each in found],
                             [(24006, 24106, b'', answer)])
        for packet in (icmp(sent, 0, 0), icmp(sent, 3, 4), icmp(sent)[:-7], icmp(sent[:9] + b'\x06' + sent[10:])):
            self.assertEqual(found_in(pcap([(BEGIN, packet)])), [])
        # ICMPv6, destination unreachable, port unreachable (RFC 4443, 3.1).
        about = udp6(24006, 24106, b'two')[:48]
        packet = struct.pack('>IHBB', 6 << 28, 8 + len(about), 58, 64) + bytes(32) + bytes([1, 4]) + bytes(6) + about
        (one,) = found_in(pcap([(BEGIN, packet)]))
        self.assertEqual((one.source, one.target, one.answer), (24006, 24106, 'nobody listens at that port'))

    def test_what_is_no_capture(self) -> None:
        for octets in (b'', b'RIFF', b'\x0A\x0D\x0D\x0A' + struct.pack('<I', 5) + b'\x4D\x3C\x2B\x1A'):
            with self.assertRaises(BadCapture):
                found_in(octets)
        other = [(0.0, b'\x45' + bytes(30)), (0.0, b''), (0.0, udp(1, 2, b'')[:27])]
        self.assertEqual(found_in(pcap(other)), [])

    def split(self, name: str) -> None:
        """Takes a session with a trouble: its records, those but its datagrams, and a capture of these."""
        text, self.given = recorded(name)
        self.config = self.write('trunk.toml', text)
        self.bare, self.capture = apart(text, self.given)

    def joined(self, capture: bytes, *words: str, status: int = 0) -> tuple[str, str]:
        """The page of the session without its datagrams and a capture, and what is said."""
        return page_of('--config', self.config, '--capture', self.write('call.pcap', capture), *words, '-',
                       status=status, given=self.bare)

    def test_with_a_session(self) -> None:
        for name in ('hold', 'jump', 'jitter'):
            with self.subTest(name):
                self.split(name)
                joined = self.joined(self.capture)[0]
                wanted, found = (COUNTS.findall(page)[0] for page in (
                    page_of('--config', self.config, '-', given=self.given)[0], joined))
                self.assertEqual(wanted[0], found[0])
                # A microsecond of the capture's times can put a datagram into the frame before.
                self.assertAlmostEqual(int(wanted[1]), int(found[1]), delta=3)
                self.assertIn('2023-11-14 22:13:20 UTC', joined)

    def test_short_records(self) -> None:
        """Records of half a millisecond, as a device gives them: few octets of answers for as many pieces."""
        self.split('hold')
        wanted = COUNTS.findall(self.joined(self.capture)[0])
        self.bare = b''.join(trunk_record(record.body[at:at + 128]) if record.kind is Kind.TRUNK else record.encode()
                             for record in records_in(self.bare) for at in range(0, len(record.body), 128))
        self.assertEqual(COUNTS.findall(self.joined(self.capture)[0]), wanted)

    def test_where_datagrams_go(self) -> None:
        self.split('hold')
        packets = [(each.time, udp(each.source, each.target, each.body, (each.source_host, each.target_host)))
                   for each in found_in(self.capture)]
        self.assertNotIn('are sent to', self.joined(pcap(packets))[0])
        moved = [(time, packet[:20] + struct.pack('>H', 40000) + packet[22:]
                  if packet[12:16] == PEER else packet) for time, packet in packets]
        self.assertIn('datagrams are sent to 192.0.2.2:24106, and the peer&#x27;s come from 192.0.2.2:40000',
                      self.joined(pcap(moved))[0])
        came = pcap([each for each in packets if each[1][12:16] == PEER])
        self.assertIn('datagrams were made, and none of them is in the capture',
                      self.joined(came, '--begin', str(BEGIN))[0])

    def test_one_way_needs_a_begin(self) -> None:
        self.split('hold')
        came = pcap([(each.time, udp(each.source, each.target, each.body)) for each in found_in(self.capture)
                     if each.target == 24006])
        self.assertIn('--begin', self.joined(came, status=1)[1])
        self.assertIn('WrongSource', self.joined(came, '--begin', str(BEGIN))[0])
