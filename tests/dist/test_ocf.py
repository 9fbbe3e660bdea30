"""The agent of Pacemaker, with a systemd and a trunk of the test's own."""
import os
import re
import socket
import subprocess
import tempfile
import threading
import unittest

from e1gw_common.programs import TOP

AGENT = os.path.join(TOP, 'dist', 'ocf', 'e1gw')
RUNNING, NOT_RUNNING, ACTIVE = 0, 7, 8          # the numbers of OCF
FUNCTIONS = '''OCF_SUCCESS=0 OCF_ERR_GENERIC=1 OCF_NOT_RUNNING=7 OCF_RUNNING_MASTER=8 OCF_FAILED_MASTER=9
ocf_promotion_score() { :; }
ocf_log() { :; }
'''
# What systemctl says of the unit, one word each time, the last one for ever.
SYSTEMCTL = '''#!/bin/sh
state=$(head -1 "$STATES")
[ "$(wc -l < "$STATES")" = 1 ] || sed -i 1d "$STATES"
echo "$state"
[ "$state" = active ]
'''


class AgentTests(unittest.TestCase):
    def setUp(self) -> None:
        folder = tempfile.TemporaryDirectory()
        self.addCleanup(folder.cleanup)
        self.folder = folder.name
        self.write('ocf-shellfuncs', FUNCTIONS)
        for name in 'sleep', 'setsid', 'crm_resource', 'ip', 'systemctl':
            os.chmod(self.write(name, SYSTEMCTL if name == 'systemctl' else '#!/bin/sh\n'), 0o755)
        with open(AGENT, encoding='utf-8') as file:
            self.agent = self.write('agent', file.read().replace('/run/e1gw/$OCF_RESKEY_trunk/', f'{self.folder}/'))
        self.asked = list[str]()
        self.watcher = self.listens('control')

    def write(self, name: str, text: str) -> str:
        path = os.path.join(self.folder, name)
        with open(path, 'w', encoding='utf-8') as file:
            file.write(text)
        return path

    def listens(self, name: str) -> socket.socket:
        """A socket at which the trunk is active, and moves."""
        its = socket.socket(socket.AF_UNIX)
        self.addCleanup(its.close)
        its.bind(os.path.join(self.folder, name))
        its.listen(8)
        threading.Thread(target=self.answer, args=(its,), daemon=True).start()
        return its

    def answer(self, listener: socket.socket) -> None:
        while True:
            try:
                line = listener.accept()[0]
            except OSError:
                return
            self.asked.append(asked := line.recv(100).decode().strip())
            line.sendall(b'active, fed\n' if asked == 'role' else f'{asked}: done\n'.encode())
            line.close()

    def does(self, action: str, *states: str) -> int:
        """The status of an action while systemd says these of the unit."""
        around = {'PATH': f'{self.folder}:{os.environ["PATH"]}', 'OCF_FUNCTIONS_DIR': self.folder,
                  'HA_RSCTMP': self.folder, 'OCF_RESKEY_trunk': 'west', 'OCF_RESOURCE_INSTANCE': 'west',
                  'OCF_RESKEY_addresses': 'eth9 192.0.2.100/24',
                  'STATES': self.write('states', ''.join(f'{state}\n' for state in states))}
        return subprocess.run(['sh', self.agent, action], env={**os.environ, **around},
                              capture_output=True, timeout=60, check=False).returncode

    def test_a_service_that_systemd_begins_again(self) -> None:
        """It was killed; its program carries the trunk, which no monitor ends, and a demotion moves."""
        again = 'deactivating', 'activating', 'activating', 'active'
        self.assertEqual([self.does('monitor', *again), self.does('demote', *again)], [ACTIVE, 0])
        self.assertEqual(self.asked, ['role', 'role', 'move'])

    def test_no_watcher_answers(self) -> None:
        """The holder has a role, and is asked itself."""
        os.mkdir(os.path.join(self.folder, 'west-987'))
        self.listens('west-987/hold')
        os.unlink(os.path.join(self.folder, 'control'))
        self.write('west-987/holder', '{"role": "active", "trunk": "x"}')
        self.assertEqual([self.does(each, 'active') for each in ('monitor', 'promote', 'demote')], [ACTIVE, 0, 0])
        self.assertEqual(self.asked, ['take', 'release'])

    def test_a_unit_that_is_not_there(self) -> None:
        """One failure is counted, by the monitor: three of them ban a machine."""
        for states in (('inactive',), ('failed',), ('activating', 'failed'), ('activating',)):
            with self.subTest(states):
                self.assertEqual([self.does(each, *states) for each in ('monitor', 'demote')], [NOT_RUNNING, 0])
        self.assertEqual((self.does('monitor', 'active'), self.asked), (ACTIVE, ['role']))


class ExampleTests(unittest.TestCase):
    def test_what_they_need(self) -> None:
        """Where failures ban a machine they are forgotten again: both were banned for ever, and nobody carried the
        trunk. Each machine has a fence device: without one crm refuses a configuration that wants fencing."""
        for words, machines in (('cat west.crm', 'west-a west-b'), ('sh rack.sh', 'rack-a rack-b rack-c')):
            text = subprocess.run(words.split(), cwd=os.path.dirname(AGENT), capture_output=True, text=True,
                                  check=True).stdout
            self.assertRegex(text, r'rsc_defaults [^\n]*\bmigration-threshold=3 failure-timeout=\d+min\b')
            self.assertEqual(re.findall(r'stonith:[\w \\\n]+ pcmk_host_list=(\S+)', text), machines.split())
