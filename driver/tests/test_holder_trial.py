"""What a holder has done by a process of its own: what it answers of a version, and of a state."""
from __future__ import annotations

import json
import os
import shutil
import socket
import tomllib
import unittest
from typing import Any
from unittest import mock

from . import support
from .support import config_text
from e1gw import trial
from e1gw.holder.job import Job
from e1gw.holder.job_types import JobAnswer, JobRequest, answer_in, request_in
from e1gw.holder.note import HolderNote, HeldLineNote, note_in
from e1gw.holder.version import Tried
from e1gw.log_folder import LogFiles

CONFIG = config_text({1: {'role': 'incoming', 'local_port': 5000, 'peer_port': 5002, 'peer_host': 'localhost'},
                      2: {'role': 'outgoing'}})


class TrialTests(support.FolderCase):
    def setUp(self) -> None:
        super().setUp()
        self.file = os.open(support.program(), os.O_RDONLY)
        self.addCleanup(os.close, self.file)
        self.config = self.write('trunk.toml', CONFIG)
        self.enterContext(mock.patch.multiple('e1gw.holder.job', SECONDS=support.SECONDS, PATIENCE=support.SECONDS))

    def asked(self, **more: Any) -> JobRequest:
        return JobRequest('try', program=self.file, config=self.config, senders='host', wait=200, log=self.path('log'),
                          seconds=support.SECONDS)._replace(**more)

    def answer(self, **more: Any) -> JobAnswer:
        """By a process of its own."""
        return Job(self.asked(**more), [self.file]).wait_for_answer()

    def tried(self) -> Tried:
        found = self.answer()
        assert found.tried, found
        return found.tried

    def test_tried(self) -> None:
        """Names are addresses, and the pieces are what the program takes with its ports and without."""
        found = self.tried()
        self.assertEqual(found.ports, {1: ('127.0.0.1', 5000)})
        self.assertIn(f'peer_host = "{socket.gethostbyname("localhost")}"', found.config())
        for lacking in list[int](), [1]:
            path = self.write('pieces.toml', found.config(lacking))
            self.assertEqual(support.ran(support.program(), 'check', '--config', path)[0], 0)
        self.assertEqual('local_port' in found.config([1]), False)
        version = support.run('--version').decode().split()[1]
        self.assertEqual((found.name, found.is_proved), (version, True))

    def test_one_without_proof(self) -> None:
        """Its version says so, by the name that it was built by."""
        path = shutil.copy(support.program(), self.path('e1gw.unproved'))
        with open(path, 'rb') as file:
            self.file = file.fileno()
            found = self.tried()
        self.assertEqual((found.name[-12:], found.is_proved), (', not proved', False))

    def test_refused(self) -> None:
        """For good, or until something is back."""
        refused: tuple[tuple[str | bytes, str], ...] = (
            ('x = 1', 'x is not a key here'), ('[' * 100, 'deep'), ('#' * 70_000, '65536 octets'),
            (CONFIG.replace('localhost', '224.0.0.1'), 'multicast'), (b'\xff', 'not understood'))
        for text, words in refused:
            self.config = self.write('trunk.toml', text)
            self.assertRegex(self.answer().refused, words)
        os.unlink(self.config)
        self.assertEqual(self.answer(), JobAnswer(later=f'{self.config}: No such file or directory'))
        os.mkfifo(self.config)
        self.assertEqual(self.answer(), JobAnswer(later=f'{self.config} is no file'))
        self.config = path = self.write('no-program', CONFIG)
        with open(path, 'rb') as file:
            self.file = file.fileno()
            self.assertEqual(self.answer(), JobAnswer(later=f'{path}: Permission denied'))

    def test_a_name_that_is_not_found(self) -> None:
        """It may be later: a name server is away, or answers nothing."""
        with mock.patch('socket.getaddrinfo', side_effect=OSError(2, 'Name or service not known')):
            self.assertEqual(trial.answer(self.asked()), JobAnswer(later='localhost: Name or service not known'))
        with mock.patch('threading.Thread.start'), mock.patch('threading.Thread.join'):
            self.assertRegex(trial.answer(self.asked()).later, 'names are not looked up within .*: localhost')

    def test_one_that_dies(self) -> None:
        """Nothing waits for it."""
        job = Job(JobRequest('x'))
        self.assertEqual(job.wait_for_answer(), JobAnswer(later="'x'"))
        with mock.patch('e1gw.holder.job.PYTHON', 'import os; os.kill(os.getpid(), 9)'):
            self.assertEqual(Job(JobRequest('try')).wait_for_answer(), JobAnswer(later='it is not tried to its end'))
        with mock.patch.multiple('e1gw.holder.job', PYTHON='import time; time.sleep(900)', PATIENCE=0.2):
            self.assertEqual(Job(JobRequest('try')).wait_for_answer(), JobAnswer(later='it is not tried to its end'))
        with mock.patch('os.posix_spawn', side_effect=OSError(11, 'Resource temporarily unavailable')):
            self.assertEqual(Job(JobRequest('try')).wait_for_answer(),
                             JobAnswer(later='Resource temporarily unavailable'))

    def test_states(self) -> None:
        """A log begins with one, and one is saved of a log; whole."""
        state = self.path('state')
        self.write('plain.toml', CONFIG.replace('localhost', '127.0.0.1'))
        support.run('replay', '--config', self.path('plain.toml'), '--save', state)
        self.assertEqual(self.answer(what='load', state=state), JobAnswer())
        log = LogFiles(self.path('log'))
        last = log.last()
        assert last
        self.assertEqual((last.place, last.state, last.records), (0, support.octets_of(state), b''))
        log.close()
        new = self.path('new')
        text = support.text_of(self.path('plain.toml'))
        self.assertEqual(self.answer(what='save', state=new, config=text), JobAnswer())
        self.assertEqual(support.octets_of(new), support.octets_of(state))
        self.assertRegex(self.answer(what='save', state=self.path('x/y'), config=text).later, 'cannot save')

    def test_what_a_reload_ends(self) -> None:
        """More than three calls want force."""
        before = Tried('law = "A"\n', {}, {n: ('h', n) for n in range(1, 5)}, 'host', '')
        version = before._replace(ports={})
        for new, calls, force, words in (
                ((), (), False, ''),
                ((1, 2), (1, 2, 3), False, 'it ends 2 calls .circuits 1, 2.; it takes the ports of 1 calls'),
                ((1, 2, 3, 4), (1, 2, 3, 4), True, 'it ends 4 calls'),
                ((1, 2, 3, 4), (1, 2, 3), False, 'it ends 3 calls')):
            self.assertRegex(trial.describe_effects(force, before, version, frozenset(new), frozenset(calls)),
                             f'^{words}')
        with self.assertRaisesRegex(trial.TrialRefused, 'it would end 4 calls .*: reload --when-idle waits'):
            trial.describe_effects(False, before, version, frozenset((1, 2)), frozenset((1, 2, 3, 4)))

    def test_what_waits(self) -> None:
        """Circuits in a call keep their table until its end if that is asked, and if they have its codec already; law
        and host wait for nothing. If neither program nor configuration is new, nothing follows."""
        def text(*codecs: str, host: str = '127.0.0.1', prefill: int = 0) -> str:
            tables = {n: {'codec': codec, 'payload': 96 if codec != 'pcma' else 8} for n, codec in enumerate(codecs, 1)}
            return f'host = "{host}"\n' + config_text({**tables, 3: {**tables[3], 'prefill': prefill}})
        before = trial.in_pieces(tomllib.loads(text('pcma', 'pcma', 'pcma')), 'host', '')

        def check(_: object, __: object, config: str, log: object) -> trial.Checked:
            its = {table['number']: table for table in tomllib.loads(config)['circuit']}
            was = {n: tomllib.loads(circuit[1])['circuit'][0] for n, circuit in before.circuits.items()}
            return trial.Checked(frozenset(n for n in its if its[n] != was[n]), frozenset((1, 2)),
                                 {1: ('g726-32', 96), 2: ('pcma', 8), 3: ('pcma', 8)} if log is None else {})
        self.enterContext(mock.patch.multiple(trial, check=check, version_name=lambda _: ''))

        def found(config: str, **more: Any) -> tuple[list[int], str, str, bool]:
            path = self.write('new.toml', config)
            asked = self.asked(**{'config': path, 'before': before, 'program_before': self.file} | more)
            its = trial.try_version(asked)
            assert its.tried
            self.assertEqual([n for n in before.circuits if its.tried.circuits[n] == before.circuits[n]],
                             [*its.tried.wait] or ([1, 2, 3] if its.runs else []))
            return [*its.tried.wait], its.told, its.changes, its.runs
        coded, waits = text('g726-32', 'g726-32', 'pcma', prefill=160), 'circuits 1-2 change when their calls end'
        self.assertEqual(found(coded), ([1], 'it ends 1 calls (circuits 2)', 'circuits 2-3 are configured otherwise; '
                                        'circuits 1 change when their calls end', False))
        self.assertEqual(found(coded, when_idle=True), (
            [1, 2], '', f'circuits 3 are configured otherwise; {waits}', False))
        with self.assertRaisesRegex(trial.TrialRefused, 'wait for no call'):
            found(text('g726-32', 'pcma', 'pcma', host='127.0.0.2'), when_idle=True)
        self.assertEqual(found(text('pcma', 'pcma', 'pcma')), ([], '', '', True))
        for prefill in 0, 80:
            table = {'number': 1, 'codec': 'g726-32', 'payload': 96, **({'prefill': prefill} if prefill else {})}
            then = trial.in_pieces({'host': '127.0.0.1', 'circuit': [table]}, 'host', '')
            self.assertEqual(trial.has_codec(before, then, 1, {1: ('g726-32', 96)}), not prefill)

    def test_the_same_program(self) -> None:
        """By its file."""
        copy = shutil.copy2(support.program(), self.path('copy'))
        for path, is_same in (support.program(), True), (copy, False):
            with open(path, 'rb') as other:
                asked = self.asked(program_before=other.fileno())
                self.assertEqual(trial.is_same_file(asked), is_same)

    def test_what_can_begin(self) -> None:
        self.assertEqual(self.answer(what='begin'), JobAnswer())


class TwoVersionsTests(unittest.TestCase):
    """After an update a holder of the version before starts the job, and either of two holders may become the other:
    what they say to each other stays as it is here."""

    TRIED = ('{"head": "law = \\"A\\"\\n", "circuits": {"1": ["its", "bare"]}, "ports": {"1": ["10.0.0.1", 5000]}, '
             '"senders": "host", "name": "1.0"}')
    VERSION = Tried('law = "A"\n', {1: ('its', 'bare')}, {1: ('10.0.0.1', 5000)}, 'host', '1.0')

    def test_requests(self) -> None:
        asked = request_in(b'{"what": "try", "x": 1, "program": 5, "before": %s, "seconds": 10.0}' %
                           self.TRIED.encode())
        self.assertEqual(asked, JobRequest('try', 10.0, 5, before=self.VERSION))
        self.assertEqual(request_in(asked.spell()), asked)
        self.assertEqual(request_in(b'{"what": "begin", "before": null}'), JobRequest('begin'))

    def test_answers(self) -> None:
        """What is not there has no word."""
        self.assertEqual(answer_in(b'{"tried": %s, "told": ""}' % self.TRIED.encode()), JobAnswer(tried=self.VERSION))
        self.assertEqual(json.loads(JobAnswer(refused='why').spell()), {'refused': 'why'})
        self.assertEqual(json.loads(JobAnswer().spell()), {})
        whole = JobAnswer(tried=self.VERSION, told='it ends 1 calls (circuits 2)', changes='another law', runs=True)
        self.assertEqual(answer_in(whole.spell()), whole)
        self.assertEqual([JobAnswer(refused='a').why_not, JobAnswer(later='b').why_not, whole.why_not], ['a', 'b', ''])
        for octets in b'', b'[', b'[]', b'3', b'{"tried": {}}', b'{"tried": 3}':
            self.assertRaises(ValueError, answer_in, octets)

    def test_notes(self) -> None:
        """Of a holder that this process was."""
        was = note_in('{"child": 7, "line": {}, "files": {"lock": 4}, "kept": {"lock": [1, 2]}}')
        self.assertEqual(was, HolderNote(7, HeldLineNote(), 0, {'lock': 4}, {'lock': (1, 2)}))
        whole = HolderNote(7, HeldLineNote(9, ['::1:1', '::1:2'], 'why'), 8, {'lock': 4}, {'lock': (1, 2)})
        self.assertEqual(note_in(whole.spell()), whole)
        self.assertEqual(json.loads(whole.spell())['line'],
                         {'pid': 9, 'words': ['::1:1', '::1:2'], 'why': 'why'})
