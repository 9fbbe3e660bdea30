"""An operator, a network and a machine that are evil or unlucky. Each of these has ended calls, or let none come up."""
from __future__ import annotations

import os
import re
import select
import signal
import socket
import unittest

from . import support
from .support import octets_in
from .keepers import CIRCUITS, KeeperCase
from e1gw.watcher.commands import MOST_CLIENTS
from e1gw.watcher.http_pages import MOST_READERS
from e1gw_common.web import MOST_VISITORS
from e1gw.log_folder import RECORDS_ROOM, LogFiles
from e1gw_tie.site import STRANGERS

OWN = 20                    # descriptors of a tie itself
FLOODED = range(11, 31)     # circuits
LONGEST = bytes(65_507)     # a datagram of IPv4
READ = 4                    # multiframes: 2,048 octets


class FloodTests(KeeperCase):
    def test_long_datagrams_at_many_ports(self) -> None:
        """Those of one read of the trunk filled the log before its next state. It ended, untold, and whatever came
        later was lost when the program was killed."""
        self.write('trunk.toml', self.peers.config().replace(']]\n', ']]\nprefill = 160\n'))
        self.speech_to = '127.0.0.1'
        self.starts()
        self.calls()
        self.step(40)
        before, count = self.logged(), 7
        with socket.socket(socket.AF_INET, socket.SOCK_DGRAM) as other:
            for _ in range(count):
                self.flooded(other)
        self.assertTrue(self.octets_logged().endswith(octets_in(b''.join(self.given[-READ:]))))
        os.kill(self.program, signal.SIGKILL)
        self.goes_on()              # (the service counts octets, and may not have seen all of them: it had its stalls)
        self.assertLessEqual({*CIRCUITS} - {*FLOODED}, self.peers_heard(count * READ))
        self.assertGreater(self.logged() - before, RECORDS_ROOM)
        self.step(20)
        self.assertEqual(self.device.exchange.signals, self.up())
        self.ends()

    def octets_logged(self) -> bytes:
        """Those of the trunk that the log has, up to the last one."""
        files = LogFiles(self.places.log)
        self.addCleanup(files.close)
        pairs = sorted(filter(None, map(files.pair, (0, 1))), key=lambda pair: pair.turn)
        return b''.join(octets_in(pair.records) for pair in pairs)

    def flooded(self, other: socket.socket) -> None:
        """One read of the trunk, before and while which their sockets are full."""
        with support.stopped(self.keeper.pid, self.program):
            waiting = self.send(READ)
            self.fill(other)
        while not select.select([self.device.line], [], [], 0)[0]:
            self.fill(other)
        self.take(waiting)

    def fill(self, other: socket.socket) -> None:
        """More than their sockets have room for."""
        for port, circuit in self.peers.circuits.items():
            for _ in range(4 if circuit in FLOODED else 0):
                other.sendto(LONGEST, ('127.0.0.1', port))


class UnitLimitTests(unittest.TestCase):
    def value(self, unit: str, key: str) -> int:
        """A number in a unit."""
        found = re.findall(rf'^{key}=(\d+)$', support.text_of(f'{support.TOP}/dist/system/{unit}@.service'), re.M)
        return int(found[0]) if found else -1

    def test_descriptors_for_all_who_may_connect(self) -> None:
        """Visitors of its pages could use up those of a tie, which then found neither its trunk nor the other site."""
        self.assertGreater(self.value('e1gw-tie', 'LimitNOFILE'), MOST_VISITORS + 2 * STRANGERS + OWN)
        self.assertGreater(self.value('e1gw-watch', 'LimitNOFILE'), MOST_VISITORS + MOST_READERS + MOST_CLIENTS + OWN)

    def test_units_never_give_up(self) -> None:
        """A name server, or an address, that was away for three minutes at the start left a trunk down for good."""
        for unit in 'e1gw-trunk', 'e1gw-watch', 'e1gw-tie':
            self.assertEqual(self.value(unit, 'StartLimitIntervalSec'), 0, unit)
