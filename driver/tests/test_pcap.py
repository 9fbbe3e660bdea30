"""e1gw-pcap over captures whose octets are written out here (the format of libpcap, RFC 768, RFC 791, RFC 2974)."""
import json
import os
import re
import shutil
import struct
import subprocess
import sys
import tempfile
import unittest

from .support import TOP

PCAP = os.path.join(TOP, 'bin', 'e1gw-pcap')
HEAD = bytes.fromhex('D4C3B2A1 0200 0400 00000000 00000000 FFFF0000 65000000')
ANNOUNCED = 9875    # the port of announcements
DAY = 1_800_000_000


def ran(*words: str, given: bytes = b'') -> subprocess.CompletedProcess[bytes]:
    return subprocess.run([sys.executable, '-B', PCAP, *words], input=given, capture_output=True)


def record(kind: bytes, circuit: int, body: bytes) -> bytes:
    return kind + bytes([circuit]) + struct.pack('>H', len(body)) + body


def datagram(sequence: int, timestamp: int, circuit: int = 1, kind: int = 8, payload: bytes = b'\xD5') -> bytes:
    return record(b'D', circuit, struct.pack('>BBHII', 0x80, kind, sequence, timestamp % 2**32, 7) + payload)


def trunk(ms: int) -> bytes:
    return record(b'T', 0, bytes(256)) * ms


def packets_in(capture: bytes) -> list[tuple[float, bytes, bytes]]:
    """The time, the IP header and what follows it, of each packet."""
    found, at = [], len(HEAD)
    while at < len(capture):
        second, micro, size, _ = struct.unpack_from('<4I', capture, at)
        found.append((second + micro / 1e6, capture[at + 16:at + 36], capture[at + 36:at + 16 + size]))
        at += 16 + size
    return found


def datagrams_in(capture: bytes) -> list[tuple[float, bytes, bytes]]:
    """Those that are no announcements."""
    return [each for each in packets_in(capture) if struct.unpack_from('>H', each[2], 2) != (ANNOUNCED,)]


def announced_in(capture: bytes) -> list[tuple[float, str]]:
    """The time and the SDP of each announcement."""
    return [(time, body[8:].partition(b'application/sdp\0')[2].decode()) for time, _, body in packets_in(capture)
            if struct.unpack_from('>H', body, 2) == (ANNOUNCED,)]


class CaptureTests(unittest.TestCase):
    def test_one_packet(self) -> None:
        made = ran(given=datagram(1, 0)).stdout
        sdp = ('v=0\r\no=- 1 0 IN IP4 192.0.2.1\r\ns=circuit 1\r\nc=IN IP4 192.0.2.1\r\nt=0 0\r\n'
               'm=audio 5002 RTP/AVP 0 8\r\n').encode()
        # at 0 s: 149 octets of IP (header checksum 5856), UDP from and to 9875, SAP of hash 1; 41 octets of IP (header
        # checksum F6C0), UDP from and to 5002, no checksum
        self.assertEqual(made, HEAD + bytes.fromhex(
            '00000000 00000000 95000000 95000000 45000095 00000000 40115856 C0000201 E0027FFE 26932693 00810000'
            '20000001 C0000201') + b'application/sdp\0' + sdp + bytes.fromhex(
            '00000000 00000000 29000000 29000000 45000029 00000000 4011F6C0 C0000201 C0000202 138A138A 00150000'
            '80080001 00000000 00000007 D5'))
        back = ran('--back', given=made)
        self.assertEqual((back.stdout, back.stderr), (datagram(1, 0), b''))

    def test_times_without_a_trunk_follow_timestamps(self) -> None:
        made = ran(given=datagram(1, 0) + datagram(2, 8000) + datagram(3, 12000)).stdout
        self.assertEqual([time for time, *_ in datagrams_in(made)], [0, 1, 1.5])

    def test_times_by_the_trunk(self) -> None:
        """What came stands before the octets that follow it, what the gateway wrote behind them; timestamps do not
        matter."""
        given = (trunk(20) + datagram(1, 0) + trunk(35) + datagram(2, 160) + datagram(3, 320) + trunk(1)
                 + datagram(4, 480))
        with tempfile.NamedTemporaryFile() as file:
            file.write(given)
            file.flush()
            both = datagrams_in(ran('--begin', str(DAY), '--in', file.name, given=given).stdout)
        came = [round(time - DAY, 6) for time, head, _ in both if head[12:16] == bytes([192, 0, 2, 2])]
        went = [round(time - DAY, 6) for time, head, _ in both if head[12:16] == bytes([192, 0, 2, 1])]
        self.assertEqual((came, went), ([0.020, 0.055, 0.055, 0.056], [0.021, 0.056, 0.056, 0.056]))

    def test_a_kept_session(self) -> None:
        """The date of its .json, the octets that are missing, and its configuration; a folder is read, too."""
        with tempfile.TemporaryDirectory() as folder:
            config = os.path.join(folder, 'west.toml')
            ring = os.path.join(folder, 'ring')
            os.mkdir(ring)
            with open(config, 'w', encoding='ascii') as file:
                file.write('law = "A"\n[[circuit]]\nnumber = 4\ncodec = "g726-32"\npayload = 96\n')
            for name, place, time in (('west-20270115T080000Z', 1000, DAY),
                                      ('west-20270115T080001Z', 129_000, DAY + 32.3)):
                with open(os.path.join(ring, f'{name}.e1gw'), 'wb') as file:
                    file.write(trunk(100) + datagram(place % 65536, 0, 4, 96) + trunk(400))
                with open(os.path.join(ring, f'{name}.json'), 'w', encoding='ascii') as file:
                    json.dump({'time': time, 'monotonic': time - DAY + 5, 'place': place, 'config': config,
                               'begins': 'middle', 'slips': [[place + 30_000, 31.8]] * (place > 1000)}, file)
            done = ran('--in', ring)
        self.assertEqual([round(time - DAY, 3) for time, *_ in datagrams_in(done.stdout)], [0.1, 32.4])
        ((_, sdp),) = announced_in(done.stdout)
        self.assertIn('m=audio 5008 RTP/AVP 0 8 96\r\na=rtpmap:96 G726-32/8000\r\n', sdp)
        self.assertEqual(done.stderr, b'')

    def test_another_codec(self) -> None:
        """A K record changes what is announced, before the next packet; what nobody knows is said once."""
        given = (datagram(1, 0) + trunk(10) + record(b'K', 1, bytes([2, 97])) + trunk(10) + datagram(2, 160, 1, 97)
                 + trunk(10) + datagram(3, 320, 1, 97) + datagram(4, 480, 1, 98) * 2 + trunk(1))
        with tempfile.NamedTemporaryFile() as file, tempfile.NamedTemporaryFile('w', suffix='.toml') as config:
            file.write(given)
            file.flush()
            config.write('law = "mu"\n')
            config.flush()
            done = ran('--config', config.name, '--in', file.name)
        told = [(round(time, 3), re.findall(r'(?:m|a)=(.*)\r', sdp)) for time, sdp in announced_in(done.stdout)]
        self.assertEqual(told, [(0, ['audio 5002 RTP/AVP 0 8']),
                                (0.02, ['audio 5002 RTP/AVP 0 8 97', 'rtpmap:97 G726-16/8000'])])
        self.assertRegex(done.stderr.decode(), r'^\S+: circuit 1: the codec of payload type 98 is unknown\n')
        self.assertIn('unknown; --config names', ran(given=datagram(1, 0, 1, 96)).stderr.decode())

    @unittest.skipUnless(shutil.which('tshark'), 'no tshark')
    def test_tshark_knows_jitter_and_codec(self) -> None:
        """Without a word more. Packets that come 15 and 25 ms apart by turns have a jitter of 5 (RFC 3550, 6.4.1)."""
        given = b''.join(trunk(15 if n % 2 else 25) + datagram(n, 160 * n, 4, 96, bytes(80)) for n in range(400))
        with tempfile.NamedTemporaryFile() as file, tempfile.NamedTemporaryFile('w', suffix='.toml') as config, \
                tempfile.NamedTemporaryFile() as capture:
            file.write(given + trunk(1))
            file.flush()
            config.write('law = "A"\n[[circuit]]\nnumber = 4\ncodec = "g726-32"\npayload = 96\n')
            config.flush()
            capture.write(ran('--config', config.name, '--in', file.name).stdout)
            capture.flush()
            said = subprocess.run(['tshark', '-r', capture.name, '-q', '-z', 'rtp,streams'], capture_output=True,
                                  text=True, check=True).stdout
        row = next(line.split() for line in said.splitlines() if '192.0.2.2' in line)
        self.assertIn('G726-32', row[7].upper(), said)
        self.assertEqual(row[-1], '5.000', said)

    def test_repetitions_are_counted(self) -> None:
        # each again behind the next one, as by --repeat 1
        first = [datagram(n, 160 * n) for n in range(4)]
        given = b''.join(first[:2] + first[:1] + first[2:3] + first[1:2] + first[3:] + first[2:3])
        run = ran(given=given)
        self.assertEqual(run.stderr, b'e1gw-pcap: 3 of 7 packets are repetitions\n')
        back = ran('--back', given=run.stdout)
        self.assertEqual((back.stdout, back.stderr), (given, run.stderr))

    def test_times_past_the_last_second_that_a_capture_can_tell(self) -> None:
        step = 2**31 - 1
        steps = 2**32 * 8000 // step + 2
        given = b''.join(datagram(at % 65536, at * step) for at in range(steps))
        made = ran(given=given)
        self.assertEqual((made.returncode, made.stderr), (0, b''))
        self.assertEqual(int(packets_in(made.stdout)[-1][0]), 2**32 - 1)

    def test_a_false_length(self) -> None:
        ended = ran('--back', given=HEAD + struct.pack('<IIII', 0, 0, 2**31, 2**31))
        self.assertEqual((ended.returncode, ended.stdout), (1, b''))
        self.assertIn(b'2147483648 octets', ended.stderr)

    def test_what_is_no_capture(self) -> None:
        self.assertEqual(ran('--back', given=b'RIFF' + bytes(40)).returncode, 1)

    def test_what_cannot_be_read(self) -> None:
        """The file and the cause are named, and nothing is written, which would look like a capture."""
        with tempfile.TemporaryDirectory() as folder:
            missing, bad = os.path.join(folder, 'missing'), os.path.join(folder, 'bad')
            with open(bad, 'wb') as file:
                file.write(b'law = "A"')
            for words, said in (([missing], f'{missing}: No such file or directory'),
                                ([bad], f'{bad}: fault 1 BadKind in the record at octet 0'),
                                (['--back', bad], f'{bad}: not a capture: neither pcap nor pcapng'),
                                ([folder], f'{folder} holds no session (files of NAME.e1gw)')):
                ended = ran(*words)
                self.assertEqual((ended.returncode, ended.stdout, ended.stderr.decode()),
                                 (1, b'', f'e1gw-pcap: {said}\n'))
