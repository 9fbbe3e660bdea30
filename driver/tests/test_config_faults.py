"""e1gw-config --check: the faults of e1gw.toml(5), each at its key and line, and those of sockets."""
from __future__ import annotations

import contextlib
import io
import resource
import socket
from unittest import mock

from . import support
from e1gw_tools.config import main

ONE = 'law = "A"\n[[circuit]]\nnumber = 1\n'

# what is said of a text: the first line, the line in the file, and words of the explanation
FAULTS = [
    ('law = A', 'config 1 Syntax at 0', 1, 'not TOML'),
    ('law = "A"\nlaw = "A"', 'config 1 Syntax at 0', 2, 'not TOML'),
    (ONE + 'ssrc = 9223372036854775808', 'config 1 Syntax at 0', None, '64 bits'),
    ('law = "A"\nlax = "A"', 'config 2 UnknownKey at 0', 2, 'lax is not a key here'),
    (ONE + '\nname = "x"', 'config 2 UnknownKey at 1', 5, 'number, role, codec'),
    ('', 'config 3 Missing at 0', None, '"A" or "mu"'),
    ('law = "A"\n[[circuit]]', 'config 3 Missing at 1', 2, 'a whole number from 1 to 30'),
    (ONE + 'codec = "g726-32"', 'config 3 Missing at 1', 2, '96 to 127'),
    (ONE + 'local_port = 24002', 'config 3 Missing at 1', 2, 'both or none'),
    (ONE + 'peer_port = ""', 'config 3 Missing at 1', 2, 'local_port'),
    ('law = "A"\n[[circuit]]\nnumber = "1"', 'config 4 WrongType at 1', 3, 'a whole number'),
    ('law = "A"\n[circuit]\nnumber = 1', 'config 4 WrongType at 0', 2, '[[circuit]]'),
    ('law = "A"\n[[circuit]]\nnumber = 31', 'config 5 OutOfRange at 1', 3, 'from 1 to 30'),
    (ONE + 'payload = 9', 'config 5 OutOfRange at 1', 4, '8, or a whole number from 96 to 127'),
    (ONE + 'ssrc = 4294967296', 'config 5 OutOfRange at 1', 4, '4294967295'),
    (ONE + 'ptime = 25', 'config 5 OutOfRange at 1', 4, '10, 20 or 30'),
    (ONE + '[[circuit]]\nnumber = 1', 'config 6 Twice at 2', 5, 'table 1'),
    ('law = "mu"\n[[circuit]]\nnumber = 1\ncodec = "pcma"', 'config 7 LawCodec at 1', 4, 'not G.711 in the law'),
    (' ' * 65537, 'config 8 TooLong at 0', None, '65536'),
]


class CheckCase(support.FolderCase):
    def checked(self, *words: str) -> tuple[object, list[str]]:
        """The status of e1gw-config --check, and the lines that it prints."""
        with contextlib.redirect_stdout(io.StringIO()) as out, self.assertRaises(SystemExit) as ended, \
                mock.patch('sys.argv', ['e1gw-config', '--check', *words]):
            main()
        return ended.exception.code, out.getvalue().splitlines()

    def checked_text(self, text: str, *words: str) -> tuple[object, list[str]]:
        """The same of a file with a text."""
        self.write('trunk.toml', text)
        status, lines = self.checked(path := self.path('trunk.toml'), *words)
        return status, [line.replace(path, 'FILE') for line in lines]


class FaultTests(CheckCase):
    def test_faults(self) -> None:
        for text, told, line, words in FAULTS:
            with self.subTest(text[:60]):
                status, lines = self.checked_text(text)
                self.assertEqual((status, lines[0]), (2, told))
                self.assertTrue(lines[1].startswith(f'  FILE:{line}: ' if line else '  FILE: '), lines[1])
                self.assertIn(words, lines[1])

    def test_no_fault(self) -> None:
        self.assertEqual(self.checked_text('\ufeff' + ONE, '--no-sockets'), (0, ['the configuration has no fault']))

    def test_no_file(self) -> None:
        status, lines = self.checked('/')
        self.assertEqual((status, lines[0]), (2, 'cannot read the configuration'))
        self.assertTrue(lines[1].startswith('  /: '), lines)


def dotted(parts: int) -> str:
    return '.'.join(['a'] * parts)


# Texts that take the reader of TOML long or beyond its limits, with the line that e1gw says: keys of more than 80 parts
# and values more than 80 deep are not TOML to it, nor is a number that 64 bits do not hold.
HOSTILE = [
    (dotted(80) + ' = 1', 'config 2 UnknownKey at 0', 'not a key here'),
    (dotted(81) + ' = 1', 'config 1 Syntax at 0', '80 parts'),
    (dotted(30_000) + ' = 1', 'config 1 Syntax at 0', '80 parts'),
    (f'[{dotted(30_000)}]', 'config 1 Syntax at 0', '80 parts'),
    (f'a = {{{dotted(30_000)} = 1}}', 'config 1 Syntax at 0', '80 parts'),
    (' . '.join(['"a"'] * 10_000) + ' = 1', 'config 1 Syntax at 0', '80 parts'),
    ('a = ' + '[' * 80 + ']' * 80, 'config 2 UnknownKey at 0', 'not a key here'),
    ('a = ' + '[' * 81 + ']' * 81, 'config 1 Syntax at 0', '80 deep'),
    ('a = ' + '{a = ' * 80 + '1' + '}' * 80, 'config 2 UnknownKey at 0', 'not a key here'),
    ('a = ' + '{a = ' * 5_000, 'config 1 Syntax at 0', '80 deep'),
    ('a = ' + f'{{{dotted(80)} = ' * 80 + '1' + '}' * 80, 'config 2 UnknownKey at 0', 'not a key here'),
    (ONE + 'ssrc = ' + '9' * 5_000, 'config 1 Syntax at 0', 'digits'),
    (ONE + 'ssrc = 0x' + 'f' * 5_000, 'config 1 Syntax at 0', '64 bits'),
    (ONE + 'ssrc = 1e400', 'config 1 Syntax at 0', 'too large'),
    ('#' + '.' * 300 + '\n' + ONE + 'role = "' + '.' * 300 + '"', 'config 5 OutOfRange at 1', '"outgoing"'),
    ('a = "' + '\\"' * 30_000, 'config 1 Syntax at 0', 'not TOML'),
    ('"' + 'a' * 60_000 + '" = 1', 'config 2 UnknownKey at 0', 'aaa.. is not a key'),
    ('"\\u001b[31m" = 1', 'config 2 UnknownKey at 0', r"'\x1b[31m' is not a key"),
    ('a = """' + '[.' * 30_000, 'config 1 Syntax at 0', 'not TOML'),
    ('"' * 60_000, 'config 1 Syntax at 0', 'not TOML'),
]


class HostileTests(CheckCase):
    def test_in_words_and_soon(self) -> None:
        """Each takes well below a second of processor where little else runs, and never the minute of a square."""
        for text, told, words in HOSTILE:
            with self.subTest(text[:40]):
                before = resource.getrusage(resource.RUSAGE_SELF)
                status, lines = self.checked_text(text, '--no-sockets')
                after = resource.getrusage(resource.RUSAGE_SELF)
                self.assertEqual((status, lines[0], len(lines)), (2, told, 2))
                self.assertIn(words, lines[1])
                self.assertLess(len(lines[1]), 400)
                self.assertLess(after.ru_utime + after.ru_stime - before.ru_utime - before.ru_stime, 5)


class SocketTests(CheckCase):
    def test_a_port_in_use(self) -> None:
        """The status is 1, of several files each is named, and --no-sockets opens none."""
        with socket.socket(socket.AF_INET, socket.SOCK_DGRAM) as held:
            held.bind(('127.0.0.1', 0))
            text = ONE + f'local_port = {held.getsockname()[1]}\npeer_port = 9'
            status, lines = self.checked_text(text)
            self.assertEqual((status, lines[:2]), (1, ['the configuration has no fault', 'socket 1']))
            self.assertRegex(lines[2], r'^  FILE: port \d+ is in use')
            self.assertEqual(self.checked_text(text, '--no-sockets'), (0, lines[:1]))
            other = self.write('other.toml', ONE)
            self.assertEqual(self.checked_text(text, other)[1], ['2 configurations have no fault', *lines[1:]])
        self.assertEqual(self.checked_text(text), (0, [lines[0], '1 sockets can be opened']))

    def test_sockets_that_cannot_be_opened(self) -> None:
        ports = 'local_port = 24002\npeer_port = 9'
        for text, words in (('host = "192.0.2.1"\n' + ONE + ports, 'not an address of this machine'),
                            (f'{ONE}{ports}\npeer_host = "::1"', 'different address families'),
                            (f'{ONE}{ports}\npeer_host = "nobody.invalid"', 'has no address')):
            with self.subTest(words):
                status, lines = self.checked_text(text)
                self.assertEqual((status, lines[1]), (1, 'socket 1'))
                self.assertIn(words, lines[2])
