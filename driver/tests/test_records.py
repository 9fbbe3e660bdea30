"""e1gw-records over sessions whose octets are written out here."""
import os
import shutil
import subprocess
import sys
import tempfile
import unittest

from .support import FolderCase, TOP

RECORDS = os.path.join(TOP, 'bin', 'e1gw-records')
IDLE = 0xD5
FAS, NFAS = 0x9B, 0xDF


def ran(*words: str, given: bytes = b'') -> subprocess.CompletedProcess[bytes]:
    return subprocess.run([sys.executable, '-B', RECORDS, *words], input=given, capture_output=True)


def trunk(frames: int, slot: int, speech: bytes) -> bytes:
    """Frames with speech in one slot."""
    out = bytearray([IDLE]) * (32 * frames)
    out[0::64], out[32::64] = bytes([FAS]) * len(out[0::64]), bytes([NFAS]) * len(out[32::64])
    out[slot::32] = speech
    return bytes(out)


class PrintedRecordTests(unittest.TestCase):
    def test_a_line_for_each_record(self) -> None:
        given = bytes.fromhex('54000002D5D5 4301000101 4401000D 8088 0001 0000000A 00000007 D5 4B01000204 60'
                              '5201000243 02 52010002 4B00')
        self.assertEqual(ran(given=given).stdout.decode().splitlines(), [
            'T    2 octets, from place 0 on', 'C  1 Seize',
            'D  1 13 octets: payload type 8, sequence 1, timestamp 10, ssrc 7, marker',
            'K  1 g726-32, payload type 96', 'R  1 C refused: 2 NotIdle', 'R  1 K done'])

    def test_cut_in_two(self) -> None:
        first, second, rest = (bytes.fromhex(text) for text in ('4301000101', '54000100' + 256 * 'D5', '4301000102'))
        given = first + second + first + second + rest
        self.assertEqual(ran('--until', '1', given=given).stdout, first + second)
        self.assertEqual(ran('--from', '1', given=given).stdout, first + second + rest)
        self.assertEqual(ran('--until', '0', given=given).stdout, b'')
        self.assertEqual(ran('--from', '0', given=given).stdout, given)
        self.assertEqual(ran('--from', 'x').returncode, 2)

    def test_no_rtp(self) -> None:
        self.assertEqual(ran(given=bytes.fromhex('4401000100')).stdout, b'D  1 1 octets, not RTP: short\n')

    def test_a_session_that_ends_inside_a_record(self) -> None:
        ended = ran(given=bytes.fromhex('54000002D5'))
        self.assertEqual((ended.returncode, ended.stdout), (1, b''))
        self.assertIn(b'4 Truncated', ended.stderr)


class KeptSessionTests(FolderCase):
    """Files that a driver keeps."""

    def setUp(self) -> None:
        super().setUp()
        self.kept = self.path('west-20261125T101500Z.e1gw')
        with open(self.kept, 'wb') as file:
            file.write(bytes.fromhex('54000002D5D5 540000010B'))
        self.write(self.kept.replace('.e1gw', '.json'), '{"place": 256000, "begins": "middle"}')

    def test_places_are_those_of_the_trunk(self) -> None:
        lines = ['T    2 octets, from place 256000 on', 'T    1 octets, from place 256002 on']
        self.assertEqual(ran(self.kept).stdout.decode().splitlines(), lines)
        with open(self.kept, 'rb') as file:
            self.assertIn('from place 0 on', ran(given=file.read()).stdout.decode())
        self.assertEqual(ran('--from', '0', self.kept).stdout, bytes.fromhex('54000002D5D5 540000010B'))

    @unittest.skipUnless(shutil.which('zstd'), 'no zstd')
    def test_compressed(self) -> None:
        subprocess.run(['zstd', '-q', '--rm', self.kept], check=True)
        self.assertIn('from place 256002 on', ran(f'{self.kept}.zst').stdout.decode())
        for path in f'{self.kept}.zst', self.kept:      # (also by the name that it had)
            self.assertEqual(ran('--to-raw', path).stdout, b'\xd5\xd5\x0b')


class RawOctetTests(unittest.TestCase):
    def test_octets_to_records_and_back(self) -> None:
        octets = bytes(range(256)) * 2 + b'end'
        made = ran('--from-raw', given=octets).stdout
        self.assertEqual(made, b'T\0\1\0' + octets[:256] + b'T\0\1\0' + octets[256:512] + b'T\0\0\3end')
        self.assertEqual(ran('--to-raw', given=made).stdout, octets)

    def test_a_size_that_no_record_has(self) -> None:
        self.assertEqual(ran('--from-raw', '--size', '65536').returncode, 2)


class RawSessionTests(unittest.TestCase):
    """Octets of a trunk where a session is wanted: the command that is named makes a session of them."""

    def words_of(self, octets: bytes) -> str:
        with tempfile.TemporaryDirectory() as folder:
            path = os.path.join(folder, 'trunk.raw')
            with open(path, 'wb') as file:
                file.write(octets)
            ended = ran('--circuit', '3', path)
            self.assertEqual((ended.returncode, ended.stdout, ran(path).stderr), (1, b'', ended.stderr))
            return ended.stderr.decode().replace(path, 'FILE')

    def test_what_is_recognised(self) -> None:
        octets = trunk(40, 3, bytes(40))
        turned = bytes(int(f'{octet:08b}'[::-1], 2) for octet in octets)
        later = (int.from_bytes(octets, 'big') >> 3).to_bytes(len(octets), 'big')
        for given, command in ((octets, 'e1gw-records --from-raw FILE'),
                               (turned, 'e1gw-records --from-raw --reverse FILE'), (later, 'e1gw align < FILE | e1gw')):
            self.assertIn(f'no session: {command}', self.words_of(given))
        self.assertNotIn('no session', self.words_of(bytes(4096)))
        session = ran('--from-raw', '--reverse', given=turned).stdout
        self.assertEqual(session, ran('--from-raw', given=octets).stdout)


class CircuitSpeechTests(unittest.TestCase):
    SPEECH = bytes(range(200))

    def heard(self, circuit: int, octets: bytes, *words: str) -> bytes:
        given = ran('--from-raw', '--size', '100', given=octets).stdout
        return ran('--circuit', str(circuit), *words, given=given).stdout

    def test_a_wave_file(self) -> None:
        wave = self.heard(3, trunk(200, 3, self.SPEECH))
        # RIFF: the form WAVE, its chunks fmt (A-law, one channel, 8000 octets a second, 8 bits), fact and data
        self.assertEqual(wave[:58], b'RIFF' + (250).to_bytes(4, 'little') + b'WAVE' + bytes.fromhex(
            '666D7420 12000000 0600 0100 401F0000 401F0000 0100 0800 0000') + b'fact\4\0\0\0\xC8\0\0\0data\xC8\0\0\0')
        self.assertEqual(wave[58:], self.SPEECH)

    def test_octets_of_a_trunk_at_once(self) -> None:
        octets = trunk(200, 3, self.SPEECH)
        turned = bytes(int(f'{octet:08b}'[::-1], 2) for octet in octets)
        wave = self.heard(3, octets)
        self.assertEqual(ran('--from-raw', '--circuit', '3', given=octets).stdout, wave)
        self.assertEqual(ran('--from-raw', '--reverse', '--circuit', '3', given=turned).stdout, wave)
        for words in (('--from-raw', '--to-raw'), ('--reverse',), ('--to-raw', '--circuit', '3')):
            self.assertEqual(ran(*words).returncode, 2, words)

    def test_circuit_16_is_slot_17(self) -> None:
        self.assertEqual(self.heard(16, trunk(200, 17, self.SPEECH), '--law', 'mu')[20:22], b'\7\0')
        self.assertEqual(self.heard(16, trunk(200, 17, self.SPEECH))[58:], self.SPEECH)

    def test_a_session_that_begins_inside_a_frame(self) -> None:
        self.assertEqual(self.heard(30, trunk(200, 31, self.SPEECH)[40:])[58:], self.SPEECH[2:])

    def test_frames_are_found_again(self) -> None:
        octets = trunk(100, 1, bytes(100)) + b'\xD5' * 5 + trunk(100, 1, bytes([7]) * 100)
        self.assertTrue(self.heard(1, octets).endswith(bytes([7]) * 90))

    def test_no_frame(self) -> None:
        ended = ran('--circuit', '1', given=ran('--from-raw', given=b'\xD5' * 4096).stdout)
        self.assertEqual((ended.returncode, ended.stdout), (1, b''))
        self.assertIn(b': no frame was found', ended.stderr)
