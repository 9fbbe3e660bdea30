"""Marked packets: what the unit asks of nftables, and what is on the wire in a namespace of its own."""
import os
import shutil
import subprocess
import sys
import tempfile
import unittest

from e1gw_common.programs import TOP

DSCP = os.path.join(TOP, 'dist', 'system', 'dscp')
UNIT = r'sys.slice/system-e1gw\x2dtrunk.slice/e1gw-trunk@t1.service'
EF = 46 << 2                # RFC 3246: 101110, before the two bits of ECN

# Two datagrams to this process: the type of service with which each arrived, by IPv4 and by IPv6.
HEARD = '''
import socket, struct
for family, host, level, wants, kind in (
        (socket.AF_INET, '127.0.0.1', socket.IPPROTO_IP, socket.IP_RECVTOS, socket.IP_TOS),
        (socket.AF_INET6, '::1', socket.IPPROTO_IPV6, socket.IPV6_RECVTCLASS, socket.IPV6_TCLASS)):
    ear, mouth = socket.socket(family, socket.SOCK_DGRAM), socket.socket(family, socket.SOCK_DGRAM)
    ear.settimeout(10)
    ear.setsockopt(level, wants, 1)
    ear.bind((host, 0))
    mouth.sendto(bytes(172), ear.getsockname()[:2])
    told = ear.recvmsg(512, 64)[1]
    print(next((data[0] for of, what, data in told if (of, what) == (level, kind)), None))
'''

# In a cgroup with the name of a unit: marked, not marked from another cgroup, and not marked when it is cleared.
NAMESPACE = r'''
mount -t cgroup2 none /sys/fs/cgroup || exit 77
unit='/sys/fs/cgroup/{unit}'
mkdir -p "$unit" && ip link set lo up || exit 77
inside() {{ sh -c 'echo $$ > "$0/cgroup.procs" && exec "$@"' "$unit" "$@"; }}
inside env DSCP="$1" {dscp} set t1 || exit
inside {python} -c "$HEARD"
{python} -c "$HEARD"
inside {dscp} clear t1
inside {python} -c "$HEARD"
rmdir "$unit" "${{unit%/*}}" "${{unit%/*/*}}"
'''


def ran(words: list[str], **more: str) -> subprocess.CompletedProcess[str]:
    return subprocess.run(words, env={**os.environ, **more}, capture_output=True, text=True, timeout=60, check=False)


def has_namespaces() -> bool:
    return os.geteuid() == 0 and all(map(shutil.which, ('nft', 'ip', 'unshare')))


class Marks(unittest.TestCase):
    def test_nothing_asked_for(self) -> None:
        """Without DSCP nothing is done, also where there is no nft."""
        for word in ('set', 'clear'):
            done = ran([DSCP, word, 't1'], PATH='/nowhere:/usr/bin:/bin', DSCP='')
            self.assertEqual((done.returncode, done.stdout, done.stderr), (0, '', ''))

    def test_refused(self) -> None:
        for words, mark in ((['set'], 'ef'), (['mark', 't1'], 'ef'), (['set', 't1; flush ruleset'], 'ef'),
                            (['set', 't1'], 'ef; flush ruleset'), (['set', ''], 'ef')):
            with self.subTest(words=words, mark=mark):
                done = ran([DSCP, *words], DSCP=mark)
                self.assertEqual((done.returncode, done.stdout), (2, ''))
                self.assertIn('packets are not marked', done.stderr)

    def test_help(self) -> None:
        self.assertIn('DSCP', ran([DSCP, '--help']).stdout)

    def heard(self, mark: str) -> subprocess.CompletedProcess[str]:
        with tempfile.TemporaryDirectory() as folder:
            path = os.path.join(folder, 'namespace')
            with open(path, 'w', encoding='ascii') as file:
                file.write(NAMESPACE.format(unit=UNIT, dscp=DSCP, python=sys.executable))
            done = ran(['unshare', '-n', '-m', 'sh', path, mark], HEARD=HEARD)
        if done.returncode == 77:
            self.skipTest(f'no cgroup v2 here: {done.stderr}')
        return done

    @unittest.skipUnless(has_namespaces(), 'wants root, nft, ip and unshare')
    def test_on_the_wire(self) -> None:
        done = self.heard('ef')
        self.assertEqual((done.stdout.split(), done.stderr), ([str(EF)] * 2 + ['0'] * 4, ''))

    @unittest.skipUnless(has_namespaces(), 'wants root, nft, ip and unshare')
    def test_no_mark(self) -> None:
        """What nft does not know is refused, and named."""
        done = self.heard('best')
        self.assertEqual(done.returncode, 1)
        self.assertIn('DSCP=best', done.stderr)
