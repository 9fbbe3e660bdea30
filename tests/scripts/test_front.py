"""What bin/e1gw says before it runs the program, here one that copies its input."""
import os
import shutil
import subprocess

from . import FolderCase
from e1gw_common.programs import TOP

WAV = b'RIFF\0\0\0\0WAVEfmt \0\1\2\3'


class Front(FolderCase):
    def setUp(self) -> None:
        super().setUp()
        os.mkdir(os.path.join(self.top, 'bin'))
        shutil.copy(os.path.join(TOP, 'bin', 'e1gw'), os.path.join(self.top, 'bin'))
        self.write('scripts/build', '#!/bin/sh\necho "${0%/*}/program"\n', 0o755)
        self.write('scripts/program', '#!/bin/sh\ncat\n', 0o755)

    def ran(self, octets: bytes, redirected: str, command: str = 'encode') -> tuple[bytes, str]:
        """What comes out, and what is said, where these octets come in so."""
        path = os.path.join(self.top, 'in')
        with open(path, 'wb') as file:
            file.write(octets)
        done = subprocess.run(['bash', '-c', redirected, path, os.path.join(self.top, 'bin', 'e1gw'), command],
                              capture_output=True, check=True)
        return done.stdout, done.stderr.decode()

    def test_a_wav_file_is_told_of_and_encoded(self) -> None:
        out, said = self.ran(WAV, '"$1" "$2" < "$0"')
        self.assertEqual((out, said.count('\n')), (WAV, 1))
        self.assertIn('looks like a WAV file', said)

    def test_nothing_is_said_and_nothing_is_taken(self) -> None:
        for octets, redirected, command, out in (
                (b'\xd5' * 9, '"$1" "$2" < "$0"', 'encode', b'\xd5' * 9),
                (b'RIF', '"$1" "$2" < "$0"', 'encode', b'RIF'),
                (b'', '"$1" "$2" < "$0"', 'encode', b''), (WAV, 'cat "$0" | "$1" "$2"', 'encode', WAV),
                (WAV, '{ head -c 8 > /dev/null; "$1" "$2"; } < "$0"', 'encode', None),
                (WAV, '"$1" "$2" < "$0"', 'decode', WAV)):
            with self.subTest(redirected=redirected, command=command, octets=octets):
                came, said = self.ran(octets, redirected, command)
                self.assertEqual(said, '')
                self.assertEqual(came, WAV[8:] if out is None else out)

    def test_a_closed_input(self) -> None:
        done = subprocess.run(['bash', '-c', '"$0" encode <&-', os.path.join(self.top, 'bin', 'e1gw')],
                              capture_output=True)
        self.assertNotIn(b'WAV', done.stderr)
