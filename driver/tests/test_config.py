"""e1gw-config: what it writes is a configuration to the program, and no two trunks have a port in common."""
from __future__ import annotations

import contextlib
import io
import re
import socket
import tomllib
from typing import Any
from unittest import mock

from . import support
from e1gw_tools.config import main, options_text, parser, plan_of, text_of
from e1gw_tools.config_ports import is_bound


class ConfigCase(support.FolderCase):
    def setUp(self) -> None:
        """No port of the machine is bound, whatever runs beside."""
        super().setUp()
        self.bound = set[int]()
        patched = mock.patch('e1gw_tools.config.is_bound', lambda host, port, kind=None: port in self.bound)
        patched.start()
        self.addCleanup(patched.stop)

    def made(self, *words: str) -> tuple[object, str, str]:
        """The status of e1gw-config, what it writes, and what it says."""
        with contextlib.redirect_stdout(io.StringIO()) as out, contextlib.redirect_stderr(io.StringIO()) as said, \
                mock.patch('sys.argv', ['e1gw-config', *words]), self.assertRaises(SystemExit) as ended, \
                contextlib.chdir(self.folder):
            main()
        return ended.exception.code, out.getvalue(), said.getvalue()

    def table(self, name: str) -> dict[str, Any]:
        """A file that was written, which the program takes, with a line for each of thirty circuits."""
        status, listed, said = support.ran(support.program(), 'check', '--config', self.path(name))
        self.assertEqual((status, len(listed.splitlines()), said), (0, 30, ''))
        return tomllib.loads(support.text_of(self.path(name)))


class ConfigTests(ConfigCase):
    def test_thirty_circuits_of_each_codec(self) -> None:
        """The second one is on ports of its own: the next even ones (RFC 3550, 11)."""
        for words, law, codec, payload in (('', 'A', 'pcma', None), ('--law mu', 'mu', 'pcmu', None),
                                           ('--codec g726-32', 'A', 'g726-32', 96),
                                           ('--codec g726-16 --payload 101', 'A', 'g726-16', 101)):
            with self.subTest(words=words):
                self.assertEqual(self.made('--write', 'one', '--plain', '--over', *words.split())[0], 0)
                table, kind = self.table('one.toml'), {'payload': payload} if payload else {}
                self.assertEqual((table['law'], table['host']), (law, '127.0.0.1'))
                self.assertEqual(table['circuit'][1], kind | {
                    'number': 2, 'role': 'outgoing', 'codec': codec, 'ptime': 20, 'prefill': 320, 'local_port': 24004,
                    'peer_host': '127.0.0.1', 'peer_port': 34004})
                self.assertEqual([each['number'] for each in table['circuit']], list(range(1, 31)))
        self.assertEqual(tomllib.loads(self.made()[1])['law'], 'A')

    def test_both_ends_of_a_tie(self) -> None:
        """On each circuit one end seizes, and each sends to the port of the other."""
        self.assertEqual(self.made('--write', 'west', '--tie', 'east', '--role', 'odd', '--host', '192.0.2.10',
                                   '--peer', '198.51.100.20', '--first-peer', '25002', '--codec', 'g726-32')[0], 0)
        west, east = self.table('west.toml'), self.table('east.toml')
        self.assertEqual((west['host'], east['host']), ('192.0.2.10', '198.51.100.20'))
        for here, there in zip(west['circuit'], east['circuit']):
            self.assertEqual({here['role'], there['role']}, {'outgoing', 'incoming'})
            self.assertEqual((here['peer_host'], here['peer_port']), (east['host'], there['local_port']))
            self.assertEqual((there['peer_host'], there['peer_port']), (west['host'], here['local_port']))
        self.assertEqual([each['role'] for each in west['circuit'][:2]], ['outgoing', 'incoming'])

    def test_trunks_of_a_machine_never_clash(self) -> None:
        ports, addresses = set(), set()
        for trunk in range(1, 65):
            plan = plan_of(parser().parse_args([]), trunk)
            ports |= {circuit['local_port'] + more for circuit in tomllib.loads(text_of(plan))['circuit']
                      for more in (0, 1)}
            addresses.add(options_text('rack', plan.trunk, '').partition('--http ')[2].split()[0])
        self.assertEqual((len(ports), len(addresses)), (64 * 30 * 2, 64))

    def test_firewalls_of_the_documents_have_all_ports(self) -> None:
        """Those of RTP and the odd ones behind them, of the first trunk and of the second."""
        page, ranges = support.text_of(f'{support.TOP}/docs/OPERATING.md'), []
        for trunk in ('1', '2'):
            table = tomllib.loads(self.made('--trunk', trunk)[1])
            ports = [circuit['local_port'] for circuit in table['circuit']]
            ranges.append(f'{min(ports)}-{max(ports) + 1}')
        self.assertEqual(set(re.findall(r'udp [sd]port ([\d-]+)', page)), {ranges[0]})
        self.assertEqual(set(re.findall(r'with `--trunk 2` ([\d-]+)', page)), {ranges[1]})
        self.assertEqual(page.count(ranges[0]), 3)

    def test_clashes(self) -> None:
        """One port, and all of two trunks with the same number. The example of the package has none."""
        for name, *words in (('rack1',), ('rack2', '--first-local', '24060'), ('west',), ('example',)):
            self.made('--write', name, '--trunk', '1', *words)
        for other, status, said in (
                ('rack2', 2, 'rack2.toml, circuit 1: 127.0.0.1:24060 is also the port of rack1.toml, circuit 30'),
                ('west', 2, 'west.toml: the ports of 30 circuits, of circuit 1 127.0.0.1:24002, are also those of '
                            'rack1.toml; e1gw-config --trunk N gives each trunk its own'),
                ('example', 0, '2 configurations have no fault')):
            with self.subTest(other):
                self.assertEqual(self.made('--check', 'rack1.toml', f'{other}.toml', '--no-sockets')[:2],
                                 (status, f'{said}\n'))

    def test_what_is_refused(self) -> None:
        self.made('--write', 'old')
        self.write('bad.toml', 'law = "A"\ncodecc = 1\n')
        self.write('all.toml', 'law = "A"\n[[circuit]]\nnumber = 1\npeer_host = "0.0.0.0"\n')
        for words, told in ((['--law', 'mu', '--codec', 'pcma'], 'not G.711 in the law'),
                            (['--first-local', '65500', '--first-peer', '9002'], 'local_port'),
                            (['--write', 'old'], 'old.toml, ./old.options: already there; nothing was written (--over'),
                            (['--peer', '239.0.0.1'], 'circuit 1: peer_host 239.0.0.1 is a multicast address'),
                            (['--check', 'all.toml'], 'all.toml: circuit 1: peer_host 0.0.0.0 is the address of no'),
                            (['--tie', 'east'], '--tie needs --write'),
                            (['--trunk', '65'], '--trunk: 65 is not 1 to 64'),
                            (['--check', 'none.toml'], 'none.toml: No such file'),
                            (['--check', 'bad.toml'], 'bad.toml:2: codecc is not a key here')):
            with self.subTest(words=words):
                status, said, fault = self.made(*words)
                self.assertEqual((status, told in said + fault), (2, True), said + fault)


class FreePortTests(ConfigCase):
    def ports(self, name: str) -> tuple[int, int]:
        """The port of circuit 1 of a configuration that was written, and that of its metrics."""
        http = re.findall(r'--http \S+:(\d+)', support.text_of(self.path(f'{name}.options')))
        return tomllib.loads(support.text_of(self.path(f'{name}.toml')))['circuit'][0]['local_port'], int(http[0])

    def test_the_first_that_no_file_names(self) -> None:
        """A tie has those of two trunks on one machine; files that are written over keep theirs."""
        for name, words, ports in (('west', '--tie east', (24002, 9101)), ('box', '', (24202, 9103)),
                                   ('rack', '--trunk 1', (24002, 9101)), ('far', '--first-local 24002', (24002, 9104)),
                                   ('box', '--over', (24202, 9103)), ('one', '--host 192.0.2.1', (24402, 9105))):
            with self.subTest(name):
                self.assertEqual(self.made('--write', name, *words.split())[0], 0)
                self.assertEqual(self.ports(name), ports)
        self.assertEqual(self.ports('east'), (34002, 9102))

    def test_peers_of_this_machine_have_theirs(self) -> None:
        """A softswitch at the ports that the first trunk would have; nobody needs to run yet."""
        self.write('sip.toml', 'law = "A"\n[[circuit]]\nnumber = 1\nlocal_port = 9002\npeer_port = 24060\n')
        self.made('--write', 'west')
        self.assertEqual(self.ports('west'), (24102, 9102))

    def test_the_first_that_nobody_has_bound(self) -> None:
        """One of RTP, one of metrics; those of a trunk that is written over are its own."""
        self.bound = {24060, 9102}
        self.made('--write', 'west')
        self.assertEqual(self.ports('west'), (24202, 9103))
        self.bound |= {24202, 9103}
        for self.bound in self.bound, set[int]():       # (it keeps them where earlier ones are free by now)
            self.assertEqual(self.made('--write', 'west', '--over')[0], 0)
            self.assertEqual(self.ports('west'), (24202, 9103))

    def test_no_trunk_left(self) -> None:
        self.bound = {9100 + trunk for trunk in range(1, 65)}
        status, said, fault = self.made('--write', 'west')
        self.assertEqual((status, said, fault), (
            2, '', 'e1gw-config: no trunk of 1 to 64 has free ports; --trunk takes one as it is\n'))

    def test_what_is_bound(self) -> None:
        """A socket of another one; a port of another machine is nobody's here."""
        for kind in (socket.SOCK_DGRAM, socket.SOCK_STREAM):
            with self.subTest(kind), socket.socket(socket.AF_INET, kind) as held:
                held.bind(('127.0.0.1', 0))
                port = held.getsockname()[1]
                if kind is socket.SOCK_STREAM:
                    held.listen()
                self.assertTrue(is_bound('127.0.0.1', port, kind))
                self.assertFalse(is_bound('192.0.2.1', port, kind))


class NumberTests(ConfigCase):
    def test_numbers_at_random(self) -> None:
        """RFC 3550, 5.1 and 8.1: no two SSRCs are the same, of a trunk, of a tie and of the next trunk; with --plain
        there are none, and each time the same octets."""
        self.made('--write', 'west', '--tie', 'east')
        self.made('--write', 'box')
        tables = [self.table('west.toml'), *(tomllib.loads(support.text_of(self.path(f'{name}.toml')))
                                             for name in ('east', 'box'))]
        circuits = [each for table in tables for each in table['circuit']]
        self.assertEqual(len({each['ssrc'] for each in circuits}), 90)
        self.assertGreater(len({each['sequence'] for each in circuits}), 60)
        self.assertGreater(max(each['ssrc'] for each in circuits), 1 << 24)
        self.assertNotEqual(self.made()[1], self.made()[1])
        plain = self.made('--plain')[1]
        self.assertEqual((plain, 'ssrc' in plain), (self.made('--plain')[1], False))
