"""The ends of an emulated circuit, and what `e1gw satop` sends and counts."""
from __future__ import annotations

import shutil
import socket
import subprocess
import unittest
from typing import Sequence

from . import support
from .picture_made import pcap, udp
from .support import SECONDS
from e1gw import satop
from e1gw.satop import SatopSeen, counts_of
from e1gw_common.addresses import host_and_port
from e1gw_testing.ports import free_port
from e1gw.udp_tables import unheard

FIELDS = [f'pwsatop.{name}' for name in ('cw.rbit', 'cw.lbit', 'cw.rsv', 'cw.frag', 'cw.length', 'payload.len',
                                         'cw.seqno')]
RTP_FIELDS = [f'rtp.{name}' for name in ('version', 'marker', 'p_type', 'seq', 'timestamp', 'ssrc', 'payload')]
NOTED = '_ws.malformed or _ws.expert'
PORT = 5000                 # in the file; the packets' own ports are whatever was free


def told_of(counts: Sequence[dict[str, int]], heard_by_none: Sequence[int] = ()) -> list[tuple[int, str, bool]]:
    """What changes with each of these counts, of a second each: its words, and whether it holds."""
    seen, told = SatopSeen(), list[tuple[int, str, bool]]()
    for at, each in enumerate(counts):
        before, seen = seen, seen.updated(each, [*heard_by_none, *[0] * len(counts)][at])
        told += [(at, what.words, False) for what in before.holding if what not in seen.holding]
        told += [(at, what.words, True) for what in seen.holding if what not in before.holding]
    return told


class SatopEndTests(unittest.TestCase):
    def test_ends(self) -> None:
        self.assertEqual([*map(host_and_port, ('127.0.0.1:5000', '[::1]:5001'))], [('127.0.0.1', 5000), ('::1', 5001)])
        for bad in '', ':5000', 'a:0', 'a:65536', 'b:x', 'b:\u0661':
            with self.assertRaises(ValueError):
                host_and_port(bad)

    def test_addresses(self) -> None:
        self.assertEqual(satop.addresses_of(('127.0.0.1', 5000), ('192.0.2.1', 5001)),
                         ['127.0.0.1:5000', '192.0.2.1:5001'])
        self.assertEqual(satop.addresses_of(('::1', 5000), ('::1', 5001)), ['[::1]:5000', '[::1]:5001'])
        with self.assertRaisesRegex(OSError, '^.Errno -9. 127.0.0.1:5000: '):
            satop.addresses_of(('127.0.0.1', 5000), ('::1', 5001))

    def test_an_address_that_is_not_here(self) -> None:
        for near, can in ('127.0.0.9', True), ('192.0.2.9', False):
            self.assertEqual(satop.can_send([f'{near}:5000', '127.0.0.1:5001', '--size']), can, near)
            self.assertEqual(satop.is_here(f'{near}:5000'), can, near)

    def test_counts(self) -> None:
        self.assertEqual(counts_of('satop received=1000 sent=999 malformed_short=0'),
                         {'received': 1000, 'sent': 999, 'malformed_short': 0})
        for line in ('received=1', 'satop received=-1', 'satop received', 'satop: no socket', 'satop received=1.5'):
            self.assertIsNone(counts_of(line), line)

    def test_missing_packets(self) -> None:
        """They are missing from the first tick on, until packets come and no tick."""
        self.assertEqual(
            told_of([{'received': received, 'ticks': ticks} for received, ticks in (
                (5, 0), (9, 0), (9, 80), (9, 1080), (40, 1100), (1040, 1100), (2040, 1100))]),
            [(2, 'packets missing', True), (5, 'packets missing', False)])

    def test_packets_that_are_refused(self) -> None:
        """A thousand come a second: that they are missing is said only while none come. A few strange ones among good
        ones are no condition."""
        size, missing = 'packets of another size (size=)', 'packets missing'
        self.assertEqual(
            told_of([{'received': received, 'ticks': ticks, 'malformed_other_size': refused}
                     for received, ticks, refused in ((0, 1000, 0), (0, 2000, 900), (0, 3000, 1900), (0, 4000, 1900),
                                                      (990, 4100, 2000), (1990, 4100, 2000))]),
            [(0, missing, True), (1, missing, False), (1, size, True), (3, size, False), (3, missing, True),
             (5, missing, False)])
        for count, word in (('no_rtp_header', 'without RTP header (rtp=)'), ('no_control_word', 'perhaps RTP (rtp=)')):
            (_, words, _), = told_of([{'ticks': 1000, f'malformed_{count}': 1000}])
            self.assertIn(word, words)

    def test_packets_from_another_port(self) -> None:
        """As many datagrams without a socket as there are ticks, and not those of before, nor much fewer or more."""
        for found, is_told in ((5000, 5950), True), ((5000, 5300), False), ((5000, 7000), False), ((1000,), False):
            told = told_of([{'ticks': 1000 * at} for at in range(1, 1 + len(found))], found)
            self.assertEqual([words for _, words, _ in told if 'source port' in words] != [], is_told, found)

    def test_datagrams_without_a_socket(self) -> None:
        """A socket that is joined to a peer takes none of another port (udp(7)); the kernel counts those."""
        with socket.socket(socket.AF_INET, socket.SOCK_DGRAM) as here, socket.socket(
                socket.AF_INET, socket.SOCK_DGRAM) as stranger, socket.socket(
                socket.AF_INET6, socket.SOCK_DGRAM) as far, socket.socket(socket.AF_INET, socket.SOCK_DGRAM) as peer:
            for each in here, stranger, peer:
                each.bind(('127.0.0.1', 0))
            here.connect(peer.getsockname())
            for line, place in (stranger, here.getsockname()), (far, ('::1', free_port(kind=socket.SOCK_DGRAM))):
                before = unheard()
                for _ in range(50):
                    line.sendto(b'x', place)
                self.assertGreaterEqual(unheard() - before, 50, place)


class DissectedTests(support.FolderCase):
    """What `e1gw satop` sends, which tshark's dissectors read: SAToP (RFC 4553), and RTP before it. (What it plays of
    all that comes to its socket is proved.)"""

    def sent(self, octets: bytes, count: int, *options: str) -> list[bytes]:
        """The packets of these octets."""
        with socket.socket(socket.AF_INET, socket.SOCK_DGRAM) as line:
            line.bind(('127.0.0.1', 0))
            line.settimeout(SECONDS)
            ends = [f'127.0.0.1:{port}' for port in (free_port(kind=socket.SOCK_DGRAM), line.getsockname()[1])]
            with subprocess.Popen([support.program(), 'satop', *ends, *options], stdin=subprocess.PIPE,
                                  stdout=subprocess.DEVNULL, stderr=subprocess.DEVNULL) as process:
                assert process.stdin
                process.stdin.write(octets)
                process.stdin.flush()
                return [line.recv(2048) for _ in range(count)]

    def tshark(self, packets: list[bytes], dissector: str, *words: str) -> list[list[str]]:
        """What tshark writes of these packets, a row each."""
        path = self.write('satop.pcap', pcap([(at / 1000, udp(PORT, PORT, each)) for at, each in enumerate(packets)]))
        run = subprocess.run(['tshark', '-r', path, '-d', f'udp.port=={PORT},{dissector}', *words], check=True,
                             stdout=subprocess.PIPE, stderr=subprocess.DEVNULL, timeout=SECONDS)
        return [line.split('\t') for line in run.stdout.decode().splitlines()]

    def fields(self, packets: list[bytes], dissector: str, names: list[str]) -> list[list[str]]:
        return self.tshark(packets, dissector, '-T', 'fields', *(word for name in names for word in ('-e', name)))

    def test_dissected(self) -> None:
        """LEN is that of the control word and the payload, below 64 octets (RFC 4553, 4.3). RTP's header has the number
        of the control word, and a timestamp of 8000 a second (4.3.2)."""
        if not shutil.which('tshark'):
            self.skipTest('tshark is not installed')
        octets = bytes(range(256)) * 20
        for size, length, front in (256, 0, 0), (32, 36, 0), (1280, 0, 0), (256, 0, 12):
            count = len(octets) // size
            sent = self.sent(octets, count, '--size', str(size), *['--rtp', '97'] * bool(front))
            bare = [each[front:] for each in sent]
            self.assertEqual((self.tshark(bare, 'pwsatopcw', '-Y', NOTED), b''.join(each[4:] for each in bare)),
                             ([], octets))
            rows = [[int(each, 0) for each in row] for row in self.fields(bare, 'pwsatopcw', FIELDS)]
            silent = [row[0] for row in rows]           # (bit R is set once no packet has come for 100 ms)
            numbers = [(rows[0][6] + at) % 65536 for at in range(count)]
            self.assertEqual(rows, [[r, 0, 0, 0, length, size, n] for r, n in zip(sorted(silent), numbers)])
            rtp = self.fields(sent, 'rtp', RTP_FIELDS) if front else []
            self.assertEqual(rtp, [['2', '0', '97', str(n), str((int(rtp[0][4]) + 8 * at) % 2 ** 32), rtp[0][5], row[6]]
                                   for at, (n, row) in enumerate(zip(numbers, rtp))])
            self.assertEqual([bytes.fromhex(row[6].replace(':', '')) for row in rtp], bare if front else [])
