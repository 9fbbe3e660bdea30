"""Codecs that are given by command: each ends with its call."""
from __future__ import annotations

import os
import signal
import subprocess
import sys
import unittest
from types import SimpleNamespace
from typing import Any, cast
from unittest import mock

from . import support
from .limits import LONG
from .test_trunk import aligned, call
from .world import World, config_of
from e1gw.ctl_codec import save_codecs, with_codec
from e1gw_common.lines import IN_CALL, Line, Role, State
from e1gw.watcher.codecs import CodecWatch, codecs_over


class CodecsOverTests(unittest.TestCase):
    def test_what_is_over(self) -> None:
        """Another codec than the configuration's, in no call, unless it was given between calls and none was since."""
        for state in State:
            for codec, payload in ('pcma', 8), ('g726-32', 96), ('pcma', 9):
                for seizures in None, 4, 5:
                    line = Line(3, Role.OUTGOING, codec, payload, state=state, seizures=5)
                    given = {} if seizures is None else {3: seizures}
                    is_over = state not in IN_CALL and (codec, payload) != ('pcma', 8) and seizures != 5
                    self.assertEqual(codecs_over([line], given), [3] * is_over, line)

    def test_when_one_was_given(self) -> None:
        """In a call nothing has to be known of it."""
        lines = {n: Line(n, state=state, seizures=n) for n, state in ((1, State.IDLE), (2, State.ANSWERED))}
        noted = mock.Mock()
        watch = CodecWatch(cast(Any, SimpleNamespace(lines=lines)), cast(Any, None), lambda n: False, noted)
        for n in lines:
            watch.on_given(n)
        self.assertEqual((watch.given, noted.call_count), ({1: 1}, 1))


class CodecOfACallTests(unittest.TestCase):
    def test_one_trunk(self) -> None:
        """In a call, and before one, also if program and watcher die: it is marked, and ends with the call."""
        world = World(config_of(range(1, 3)))
        self.addCleanup(world.__exit__)

        def codecs() -> list[str]:
            return [row['codec'] for row in world.recent_status()['circuits'][:2]]
        aligned(world)
        call(world, 1)
        for n in 1, 2:
            self.assertEqual(world.ask(f'codec {n} g726-32 96'), f'codec {n}: done')
        self.assertRegex(world.ask('status'),
                         r'\ncodec by command, until the call ends \(\*\): 1-2\n(.*\n)+.* g726-32\*')
        self.assertEqual(world.ask('codec 1 pcma 8 x'),
                         'codec: refused: it wants a circuit, a codec and a payload type')
        os.kill(world.watcher(), signal.SIGKILL)        # (e1gw-trunk starts another one)
        world.connected()
        world.kill('trunk')
        world.connected()
        self.assertEqual(codecs(), ['g726-32'] * 2)
        self.assertEqual(world.ask('clear 1'), 'clear 1: done')
        world.until(lambda: codecs() == ['pcma', 'g726-32'])
        world.until(lambda: world.state(1) == 'idle')
        call(world, 2)
        self.assertEqual(codecs()[1], 'g726-32')
        self.assertEqual(world.ask('clear 2'), 'clear 2: done')
        world.until(lambda: codecs() == ['pcma'] * 2)
        support.until(lambda: '(*)' not in world.ask('status'))


ONE = """# west
law = "A"
[[circuit]]
number = 11
prefill = 160
[[circuit]]     # the first
number = 1      # here
codec = "pcma"  # for the PBX
payload = 8
"""


class SavedCodecTests(support.FolderCase):
    def test_text(self) -> None:
        """Of one circuit, with or without keys of its own; all else stays as it is written."""
        self.assertEqual(with_codec(ONE, 1, 'g726-32', 96), ONE.replace('"pcma"', '"g726-32"').replace('= 8', '= 96'))
        self.assertEqual(with_codec(ONE, 11, 'g726-16', 97), ONE.replace(
            'number = 11\n', 'number = 11\npayload = 97\ncodec = "g726-16"\n'))
        for text in ONE.replace('number = 1 ', 'number = 0x1 '), 'law = "A"\n', ONE.replace('codec =', '"codec" ='):
            with self.assertRaises(ValueError):
                with_codec(text, 1, 'g726-32', 96)

    def test_file(self) -> None:
        """Its mode stays, and one that cannot be edited is as it was."""
        path = self.write('west.toml', ONE)
        os.chmod(path, 0o640)
        with self.assertRaises(ValueError):
            save_codecs(path, [1, 2], 'g726-32', 96)
        self.assertEqual(support.text_of(path), ONE)
        for codec, payload in ('g726-32', 96), ('pcma', 8):
            save_codecs(path, [11, 1], codec, payload)
        self.assertEqual((support.text_of(path), os.stat(path).st_mode & 0o777), (ONE.replace(
            'number = 11\n', 'number = 11\npayload = 8\ncodec = "pcma"\n'), 0o640))


class IdleReloadTests(unittest.TestCase):
    def test_one_trunk(self) -> None:
        """Another codec for all circuits: one in a call has it once that has ended, also if the watcher dies meanwhile,
        and no call ends."""
        world = World(config_of(range(1, 3)), within={'holder.lifecycle.RELOADED': LONG})
        self.addCleanup(world.__exit__)

        def rows() -> list[tuple[str, str]]:
            return [(row['state'], row['codec']) for row in world.recent_status()['circuits'][:2]]
        aligned(world)
        call(world, 1)
        text = support.text_of(world.config)
        world.configure(text.replace('"pcma"', '"g726-32"').replace('payload = 8', 'payload = 96'))
        self.assertEqual(world.ask('reload when-idle'), 'reload: circuits 2 are configured otherwise; circuits 1 '
                         'change when their calls end\nreload: done')
        world.connected()
        world.until(lambda: rows() == [('answered', 'pcma'), ('idle', 'g726-32')])
        support.until(lambda: bool(world.status_at_once()['waiting'] == [1]))
        self.assertIn('\nchange to what is configured when their calls end: 1\n', world.ask('status'))
        os.kill(world.watcher(), signal.SIGKILL)
        world.connected()
        self.assertEqual(world.ask('clear 1'), 'clear 1: done')
        world.until(lambda: not world.recent_status()['waiting'] and rows() == [('idle', 'g726-32')] * 2)
        self.assertEqual(world.ask('reload').splitlines()[-2:], [
            'reload: nothing to do: this program and this configuration run', 'reload: done'])

    def test_a_codec_that_is_saved(self) -> None:
        """In a call, which goes on: the file has it, and so has the circuit behind that call."""
        world = World(config_of(range(1, 3)), within={'holder.lifecycle.RELOADED': LONG})
        self.addCleanup(world.__exit__)
        aligned(world)
        call(world, 1)
        words = [sys.executable, '-B', support.launcher('ctl'), world.path('ctl'), *'codec 1 g726-32 96 save'.split()]
        done = subprocess.run(words, capture_output=True, text=True, check=False)
        self.assertEqual((done.stdout.splitlines(), done.returncode, done.stderr), (
            ['codec 1: done', 'reload: circuits 1 change when their calls end', 'reload: done'], 0, ''))
        support.until(lambda: bool(world.status_at_once()['waiting'] == [1]))
        self.assertEqual(world.state(1), 'answered')
        self.assertEqual(world.ask('clear 1'), 'clear 1: done')
        world.until(lambda: [('g726-32', 'g726-32'), ('pcma', 'pcma')] == [
            (row['codec'], row['configured_codec']) for row in world.recent_status()['circuits'][:2]])
