"""The scripts of the package that dpkg runs: what they ask systemd for; and what its units do at a reload."""
import os
import re
import subprocess
import tempfile
import unittest

from e1gw_common.programs import TOP

RUNS = '/run/systemd/system'        # is there where systemd runs


def run(script: str, words: tuple[str, ...], units: str) -> tuple[list[str], str]:
    """What a script of the package asks of systemd, with commands in its place that say what they were given, and in
    which these units run; and what the script prints."""
    with tempfile.TemporaryDirectory() as folder:
        said = os.path.join(folder, 'said')
        for name in ('deb-systemd-invoke', 'systemctl', 'systemd-sysusers', 'rmdir', 'udevadm'):
            with open(os.path.join(folder, name), 'w', encoding='ascii') as file:
                file.write(f'#!/bin/sh\necho {name} "$@" >> {said}\n'
                           f'case "$*" in *list-units*) printf %s "{units}" ;; esac\n')
            os.chmod(file.name, 0o755)
        with open(os.path.join(TOP, 'debian', script), encoding='ascii') as file:
            text = file.read()
        if RUNS not in text:
            raise AssertionError(f'{script} does not look whether systemd runs')
        done = subprocess.run(['sh', '-c', text.replace(RUNS, folder), script, *words], check=True, timeout=20,
                              stdout=subprocess.PIPE, text=True,
                              env={**os.environ, 'PATH': f'{folder}:{os.environ["PATH"]}'})
        if not os.path.exists(said):
            return [], done.stdout
        with open(said, encoding='ascii') as file:
            return file.read().split(), done.stdout


def asked(script: str, *words: str) -> list[str]:
    """What a script of the package asks of systemd while none of its units runs."""
    return run(script, words, '')[0]


def purged(folder: str) -> str:
    """What a purge says, if this folder is the root of the machine."""
    with open(os.path.join(TOP, 'debian', 'e1gw.postrm'), encoding='ascii') as file:
        text = file.read()
    for path in ('/var/lib', '/etc/'):
        text = text.replace(f' {path}', f' {folder}{path}')
    return subprocess.run(['sh', '-c', text, 'postrm', 'purge'], check=True, timeout=20, capture_output=True,
                          text=True).stdout


class Units(unittest.TestCase):
    def units(self) -> list[str]:
        return [name.replace('@.', '@*.') for name in sorted(os.listdir(os.path.join(TOP, 'dist', 'system')))
                if name.endswith('.service')]

    def test_removal_stops_all(self) -> None:
        """Each kind of unit is stopped. (The package of ties goes before that of the trunks that they command.)"""
        tie, *trunk = self.units()
        self.assertEqual((tie, trunk), ('e1gw-tie@*.service', ['e1gw-trunk@*.service', 'e1gw-watch@*.service']))
        self.assertEqual(asked('e1gw-tie.prerm', 'remove'), ['deb-systemd-invoke', 'stop', tie])
        self.assertEqual(asked('e1gw.prerm', 'remove'), ['deb-systemd-invoke', 'stop', *trunk])

    def test_upgrade_stops_none(self) -> None:
        for script in 'e1gw.prerm', 'e1gw.postrm', 'e1gw-tie.prerm', 'e1gw-tie.postrm':
            self.assertEqual(asked(script, 'upgrade', '0.2.0'), [])
        self.assertNotIn('stop', asked('e1gw.postinst', 'configure', '0.1.0'))

    def test_a_reload_is_asked_for(self) -> None:
        """The unit that is reloaded asks the holder for it, and fails where it is refused; a signal would say nothing,
        and there may be no watcher to ask."""
        found = {}
        for name in (unit.replace('@*', '@') for unit in self.units()):
            with open(os.path.join(TOP, 'dist', 'system', name), encoding='utf-8') as unit:
                found[name] = re.findall('(?m)^ExecReload=(.*)$', unit.read())
        self.assertEqual(found, {'e1gw-tie@.service': [], 'e1gw-watch@.service': [], 'e1gw-trunk@.service': [
            """/bin/sh -c 'exec /usr/bin/e1gw-ctl "$$RUNTIME_DIRECTORY/%i-$$(id -u)/hold" reload'"""]})

    def test_an_update_names_what_runs_on(self) -> None:
        """Only where there was a version before, and only while units run."""
        running = 'e1gw-tie@west.service loaded active running\ne1gw-trunk@west.service loaded active running\n'
        said = run('e1gw.postinst', ('configure', '0.0.9'), running)[1]
        self.assertIn('before: e1gw-tie@west.service e1gw-trunk@west.service', said)
        self.assertIn('systemctl reload e1gw-trunk@west.service \n', said)
        self.assertIn('systemctl restart e1gw-tie@west.service \n', said)
        self.assertNotIn('reload', run('e1gw.postinst', ('configure', '0.0.9'), running.splitlines()[0])[1])
        self.assertEqual(run('e1gw.postinst', ('configure', '0.0.9'), '')[1], '')
        self.assertEqual(run('e1gw.postinst', ('configure', ''), running)[1], '')

    def test_purge_says_what_is_left(self) -> None:
        """Recordings with their size, and each other thing that stays; nothing where nothing does."""
        left = {'/var/lib/e1gw': '/var/lib/e1gw', '/etc/e1gw': 'keys',
                '/etc/systemd/system/multi-user.target.wants/e1gw-trunk@west.service': 'west.service'}
        with tempfile.TemporaryDirectory() as folder:
            self.assertNotIn('recordings', purged(folder))
            for path in left:
                os.makedirs(os.path.dirname(folder + path), exist_ok=True)
                if path.endswith('.service'):
                    os.symlink('/lib/systemd/system/e1gw-trunk@.service', folder + path)
                else:
                    os.mkdir(folder + path)
            with open(f'{folder}/var/lib/e1gw/west-1', 'wb') as file:
                file.write(bytes(3 << 20))
            said = purged(folder)
        for word in (*left.values(), 'recordings of calls, with speech: 3.'):
            self.assertIn(word, said)

    def test_cards_that_are_there_are_given(self) -> None:
        """By events of `add`: those of `change` would take links away."""
        said = asked('e1gw.postinst', 'configure')
        self.assertLess(said.index('--reload'), said.index('--subsystem-match=dahdi_channels'))
        self.assertIn('--action=add', said)

    def test_units_are_read_anew(self) -> None:
        for script, word in (('e1gw.postinst', 'configure'), ('e1gw.postrm', 'remove'),
                             ('e1gw-tie.postinst', 'configure'), ('e1gw-tie.postrm', 'remove')):
            self.assertIn('daemon-reload', asked(script, word))
