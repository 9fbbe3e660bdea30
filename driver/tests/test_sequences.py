"""Any sequence of what may happen to a trunk in service with thirty calls: to its program, its holder, its watcher, its
line, its folder and its machine. What is heard is what one uncut replay of all records gives; all of it is kept, once,
each call has one line, and no line changes its state."""
from __future__ import annotations

import contextlib
import csv
import glob
import itertools
import json
import os
import shutil
import signal
import subprocess
from typing import Any, Callable

from . import support
from .keepers import CIRCUITS, NO_EFFECT
from .support import octets_in
from .test_watcher import WatcherCase, events_in
from e1gw_common.session import Codec, Kind, codec_record, records_in
from e1gw_common.session_files import by_time, open_session, octets_of, read_about

HELD = 12                   # multiframes that a device holds which nobody reads
NAMELESS = 35               # a signal of real time: it could not be told, and no program followed
MORE, PAIRS = 5, 12         # events by chance behind all of them; pairs of them
SIGNALS = NAMELESS, signal.SIGKILL, signal.SIGSTOP, signal.SIGTERM, signal.SIGSEGV


class KeptCase(WatcherCase):
    """A trunk of which all is kept."""

    keeps: tuple[str, ...] = ()
    limits: dict[str, Any] = {}
    part = 0                    # which half of the events happens

    def begins_all(self) -> None:
        """With all that may be wanted of a trunk, in a folder that can be full (if the test may mount one)."""
        mounts = ['mount', '-t', 'tmpfs', '-o', 'size=72M', 'tmpfs', self.memory]
        self.is_small = not subprocess.run(mounts, stderr=subprocess.DEVNULL, check=False).returncode
        if self.is_small:
            self.addCleanup(os.system, f'umount -l {self.memory}')
        self.right = support.text_of(self.config)
        self.before = 0                         # octets before the trunk began last
        self.ended, self.signals = 0, itertools.islice(itertools.cycle(SIGNALS), 3 * self.part, None)
        self.within = {'holder.decisions.DEATHS': 1 << 30}      # (no program waits)
        self.starts_holder_of('--state', self.path('its-state'))
        self.watches_all()
        self.device.accept()
        self.goes_on()
        self.calls()
        self.settles()
        self.all_known()
        self.ask('codec 1 g726-16 1')           # (it is refused)
        support.until(lambda: 'command' in [event['event'] for event in self.events()])
        self.changes = len(self.states())

    def starts_holder_of(self, *options: str) -> None:
        self.options += options
        self.starts_holder()

    def watches_all(self) -> None:
        self.watches('--session', self.path('ring'), *self.keeps, **self.limits)

    def all_known(self) -> dict[str, Any]:
        """The status, once all calls are known."""
        return self.known(lambda status: {row['state'] for row in status['circuits']} == {'answered'})

    def all_read(self) -> None:
        """Until the watcher has read all of the log. (Of two programs that begin meanwhile it would miss the first.)"""
        given = len(octets_in(b''.join(self.given)))

        def has_read() -> bool:
            with contextlib.suppress(OSError, EOFError):        # (a watcher that only begins does not answer yet)
                return bool(json.loads(self.ask('status json'))['octets'] >= given - self.before)
            return False
        support.until(has_read)

    def events(self) -> list[dict[str, Any]]:
        return events_in(self.path('events'))

    def states(self) -> list[dict[str, Any]]:
        return [event for event in self.events() if event['event'] == 'state']

    def under_way(self, does: Callable[[], object]) -> None:
        """Does something while two multiframes are under way, and two more come."""
        waiting = self.send(2)
        does()
        self.take(waiting + self.send(2))


class SequenceCase(KeptCase):
    """What may happen to it."""

    # ---- to the program ----

    def program_dies(self) -> None:
        number = next(self.signals)
        if self.chance.randrange(2):
            return self.dies(number)
        self.killed(number)

    def end_is_asked_for(self) -> None:
        """A client's record E closes its connection alone."""
        with self.client() as line:
            line.sendall(b'E\0\0\0')
            self.assertEqual(line.recv(1), b'')

    def client_asks(self) -> None:
        """Another codec of a circuit in a call, or what is refused."""
        circuit, codec = self.chance.choice(CIRCUITS), self.chance.choice((*Codec,))
        self.given.append(codec_record(circuit, codec, self.chance.choice((1, 96))))
        with self.client() as line:
            line.sendall(self.given[-1])
            self.assertEqual(len(line.recv(6)), 6)

    # ---- to the holder ----

    def signals_come(self) -> None:
        """They end nothing."""
        for number in (signal.SIGPIPE, signal.SIGXFSZ, signal.SIGWINCH, signal.SIGCHLD, signal.SIGUSR1):
            self.keeper.send_signal(number)

    def reloaded(self) -> None:
        """Also if clients who say nothing have all places."""
        clients = [self.client() for _ in range(self.chance.choice((0, 8)))]
        before = self.program
        self.under_way(lambda: self.keeper.send_signal(signal.SIGHUP))
        self.goes_on()
        self.assertNotEqual(self.program, before)
        for line in clients:
            line.close()

    def reload_is_refused(self) -> None:
        self.write('trunk.toml', f'{self.right}x = 1\n')
        self.assertRegex(self.asks('reload'), 'refused: the trunk goes on as it was: .*trunk.toml')
        self.write('trunk.toml', self.right)
        os.kill(self.program, 0)

    def holder_is_replaced(self) -> None:
        before = self.program
        self.under_way(lambda: self.keeper.send_signal(signal.SIGUSR2))
        self.awaits('the holder was replaced: (?=program)')
        self.goes_on()
        self.assertEqual(self.program, before)

    def holder_stands_still(self) -> None:
        with support.stopped(self.keeper.pid):
            self.step(200)

    def holder_dies(self) -> None:
        """Its program ends with it, or has died before."""
        self.settles()
        if self.chance.randrange(2):
            with contextlib.suppress(ProcessLookupError):
                os.kill(self.keeper.pid, signal.SIGSTOP)
                os.kill(self.program, signal.SIGKILL)
        self.kill_holder()
        self.starts_holder()
        self.goes_on_all()

    def holder_dies_unkept(self) -> None:
        """Where nobody keeps descriptors; the configuration of now may be one that is refused."""
        self.write('trunk.toml', f'{self.right}x = 1\n' if self.chance.randrange(2) else self.right)
        self.kill_holder()
        self.manager.forget()
        line = self.device.line
        self.starts_holder()
        self.device.accept()
        line.close()
        self.write('trunk.toml', self.right)
        self.goes_on_all()

    def holder_dies_in_a_reload(self) -> None:
        self.settles()
        self.keeper.send_signal(signal.SIGHUP)
        self.step(self.chance.randrange(40))
        self.kill_holder()
        self.starts_holder()
        self.goes_on_all()

    def trunk_ends(self) -> None:
        """In order, and the next holder begins with its state."""
        self.ends_all()
        self.before = len(octets_in(b''.join(self.given)))
        self.assertTrue(os.path.exists(self.path('its-state')))
        self.device.line.close()
        self.starts_holder()
        self.watches_all()
        self.device.accept()
        self.goes_on_all()
        support.until(lambda: not os.path.exists(self.path('its-state')))

    # ---- to the watcher ----

    def watcher_stands_still(self) -> None:
        """While the program dies."""
        with support.stopped(self.watchers[-1].pid):
            self.step(100)
            self.dies()
            self.step(100)

    def watcher_dies(self) -> None:
        """And the program, perhaps, while none is there."""
        support.until(self.is_told)
        self.watchers[-1].kill()
        self.watchers[-1].wait()
        if self.chance.randrange(2):
            self.dies()
        self.watches_all()
        self.all_known()

    def is_told(self) -> bool:
        """Whether it was told that the trunk is open, and by the end of this noted: (a kill between tells it twice.)"""
        note = self.note()
        return bool(note and note.held.holder == self.state())

    def watcher_ends(self) -> None:
        self.watchers[-1].terminate()
        self.assertEqual(self.watchers[-1].wait(support.SECONDS), 0)
        self.watches_all()
        self.all_known()

    def operator_asks_between_programs(self) -> None:
        """The next program is given it."""
        with support.stopped(self.keeper.pid):
            os.kill(self.program, signal.SIGKILL)
            support.until(lambda: support.state_of(self.program) == 'Z')
            line = support.connected(self.path('ctl'))
            line.sendall(b'codec 3 g726-32 96\n')
        self.goes_on()
        self.assertEqual(line.recv(100), b'codec 3: done\n\n')
        line.close()
        self.given.append(codec_record(3, Codec.G726_32, 96))

    # ---- to the line, the folder and the machine ----

    def trunk_is_lost(self) -> None:
        """It is opened again."""
        self.device.line.close()
        self.device.accept()
        self.goes_on_all()

    def folder_is_gone(self) -> None:
        gone = os.path.join(self.memory, 'gone')
        os.rename(self.places.folder, gone)         # (at once: files are put there meanwhile)
        shutil.rmtree(gone)
        self.goes_on_all()

    def folder_is_full(self) -> None:
        """Room for the log, and for what is noted, is held."""
        if self.is_small:
            full = os.path.join(self.memory, 'full')
            with open(full, 'wb', buffering=0) as file, contextlib.suppress(OSError):
                while True:
                    file.write(bytes(4096))
            self.dies()
            self.reloaded()
            os.unlink(full)

    def machine_stands_still(self) -> None:
        with support.stopped(self.keeper.pid, self.program, self.watchers[-1].pid):
            waiting = self.send(HELD)
        self.take(waiting)

    # ---- all of it ----

    def happens(self) -> list[Callable[[], None]]:
        return [*[self.program_dies] * len(SIGNALS), self.end_is_asked_for, self.client_asks, self.signals_come,
                self.reloaded, *[self.reload_is_refused] * 2, self.holder_is_replaced, self.holder_stands_still,
                self.holder_dies, self.holder_dies_unkept, self.holder_dies_in_a_reload, self.trunk_ends,
                self.watcher_stands_still, self.watcher_dies, self.watcher_ends, self.operator_asks_between_programs,
                self.trunk_is_lost, self.folder_is_gone, self.folder_is_full, self.machine_stands_still]

    def ends_all(self) -> None:
        """All that was given is kept, and each call has a line."""
        self.all_known()
        self.ends()
        self.assertEqual(self.watchers[-1].wait(support.SECONDS), 0)
        self.ended += 1
        found, given = parted(self.kept_of(self.path('ring'))), parted(b''.join(self.given))
        self.assertTrue(found == given, f'{len(found[0])} octets kept of {len(given[0])}, {found[1]} of {given[1]}')
        rows = list(csv.DictReader(support.text_of(self.path('calls.csv')).splitlines()))
        self.assertEqual(sorted(int(row['circuit']) for row in rows), sorted([*CIRCUITS] * self.ended))
        self.assertEqual({row['by'] for row in rows}, {'stop'})

    def kept_of(self, path: str) -> bytes:
        is_kept = os.path.exists(path) and (not os.path.isdir(path) or os.listdir(path))
        files = open_session(path).files if is_kept else []
        return b''.join(piece for file in files for piece in octets_of(file))

    def happen(self) -> None:
        done: list[str] = []
        with self.subTest(done=done):
            self.begins_all()
            its = self.happens()[self.part::2]
            for event in (*its, *self.chance.choices(its, k=MORE)):
                done.append(event.__name__)
                self.all_read()
                event()
                self.step(self.chance.randrange(1, 30))
            self.assertNotIn('begin anew', self.read_log())
            self.assertIn(f'the program ended by signal {NAMELESS if not self.part else 15}', self.read_log())
            self.as_uncut()
            self.ends_all()
            self.assertEqual(self.states()[self.changes:], [])


class SequenceTests(SequenceCase):
    def test_any_sequence(self) -> None:
        self.happen()


class RingSequenceTests(SequenceCase):
    """The other half, with a ring, in files of a second of the trunk and of each program, which replay from their
    states."""

    keeps = '--keep', '1h'
    limits = {'recording_ring.FEWEST': 3600}
    part = 1

    def happens(self) -> list[Callable[[], None]]:
        """Without an end in order, behind which places are counted again."""
        return [event for event in super().happens() if event != self.trunk_ends]

    def test_any_sequence(self) -> None:
        self.happen()

    def ends_all(self) -> None:
        super().ends_all()
        fronts = sorted((path.removesuffix('.json') for path in glob.glob(self.path('ring/*.json'))), key=by_time)
        places, octets = [read_about(f'{front}.e1gw').place or 0 for front in fronts], b''.join(self.uncut()[0])
        given = octets_in(b''.join(self.given))
        for front, begin, end in zip(fronts, places, [*places[1:], len(given)]):
            load = ('--load', f'{front}.state') if begin else ()
            its = octets_in(support.run('replay', '--config', self.config, *load,
                                        given=b''.join(octets_of(f'{front}.e1gw'))))
            self.assertEqual(its, octets[begin:end], begin)
        self.assertGreater(len(fronts), len(SIGNALS))


class SequencePairTests(SequenceCase):
    """Each two of them, the second one at once behind the first: some by chance, and with the seed 0 all. All that was
    sent has its answer, so nothing is silent; and no call ends, also as the watcher tells it."""

    def test_pairs(self) -> None:
        acts = [*dict.fromkeys(act for act in self.happens() if act != self.trunk_ends)]
        pairs = [*itertools.product(acts, acts)]
        self.chance.shuffle(pairs)
        self.begins_all()
        for first, second in pairs[:None if support.seed() == '0' else PAIRS]:
            with self.subTest(first=first.__name__, second=second.__name__):
                first()
                second()
                self.step(20)
                self.assertEqual(self.device.exchange.signals, self.up())
        self.all_known()
        self.as_uncut()
        self.assertEqual((self.states()[self.changes:], self.called()), ([], []))
        self.ends()


def parted(octets: bytes) -> tuple[bytes, list[tuple[int, bytes]]]:
    """The octets of the trunk in a session, and the operator's records with their places among those."""
    trunk, others = bytearray(), []
    for record in records_in(octets):
        if record.kind is Kind.TRUNK:
            trunk += record.body
        elif record.encode() != NO_EFFECT:
            others.append((len(trunk), record.encode()))
    return bytes(trunk), others
