"""A DAHDI card: what is asked of its driver, how a channel is set up, and what becomes of its alarms. scripts/dahdi has
the driver itself; the numbers here are those that gcc prints of dahdi/user.h of DAHDI 2.11.1."""
from __future__ import annotations

import errno
import os
import subprocess
import tempfile
import unittest
from dataclasses import replace
from pathlib import Path
from unittest import mock

from e1gw import card_opening, dahdi
from e1gw.dahdi import (BUFFERS, NUMBER, PARAMETERS, SPAN, Alarm, Blocks, CardFault, DahdiChannel, Request, SpanFacts,
                        channel_facts, span_facts)
from e1gw.events import Event
from e1gw_common.fault_words import name_of_process
from e1gw_common.plain import plain_of
from e1gw.watcher.card import CardWatch


def at(octets: bytes, *values: tuple[int, int]) -> bytes:
    """The octets with numbers of 32 bits at these places."""
    changed = bytearray(octets)
    for place, value in values:
        changed[place:place + 4] = NUMBER.pack(value)
    return bytes(changed)


class FakeChannel(DahdiChannel):
    """The first channel of an E1 span. `asked` are the requests that change it, and what was written."""

    def __init__(self, file: int = -1) -> None:
        super().__init__(file)
        self.asked: list[tuple[str, bytes]] = []
        self.signalling, self.place, self.channels, self.alarms, self.bundle = 128, 1, 31, 0, True
        self.events: list[int] = []
        self.is_away = False

    def ask(self, request: Request, octets: bytes) -> bytes:
        if self.is_away:
            raise OSError(errno.ENODEV, os.strerror(errno.ENODEV))
        if request is Request.GET_PARAMETERS:
            return at(octets, (0, 1), (4, 3), (8, self.place), (12, self.signalling))
        if request is Request.SPAN_STATUS:
            return at(octets, (0, 3), (64, self.alarms), (76, 5), (108, 7), (112, 9), (124, self.channels))
        if request is Request.GET_EVENT:
            return NUMBER.pack(self.events.pop(0) if self.events else 0)
        self.asked.append((request.name, octets))
        return octets

    def is_bundle(self, span: int) -> bool:
        return self.bundle

    def write(self, octets: bytes) -> None:
        self.asked.append(('write', octets))


class RequestTests(unittest.TestCase):
    def test_numbers(self) -> None:
        self.assertEqual({each.name: int(each) for each in Request}, {
            'GET_PARAMETERS': 0xc088da05, 'GET_EVENT': 0x8004da08, 'SPAN_STATUS': 0xc13ada0a,
            'SET_BUFFERS': 0x4018da1b, 'AUDIO_MODE': 0x4004da20})

    def test_facts(self) -> None:
        """Each field from its offset in the header."""
        facts = channel_facts(at(bytes(PARAMETERS.size), (0, 5), (4, 2), (8, 4), (12, 128)))
        self.assertEqual((facts.number, facts.span, facts.place, facts.signalling), (5, 2, 4, 128))
        octets = at(bytes(SPAN.size), (0, 2), (64, 1 << 3 | 1 << 8), (76, 5), (108, 7), (112, 9), (124, 31))
        span = span_facts(octets[:4] + b'X/1\0y' + octets[9:])
        self.assertEqual((span.number, span.name, span.alarms, span.channels), (2, 'X/1', Alarm.RED, 31))
        self.assertEqual([name for name, n in span.counts.items() if n],
                         ['bipolar_violations', 'errored_seconds', 'interrupts_missed'])
        self.assertEqual(dahdi.buffers_of(Blocks(16, 8)), at(bytes(BUFFERS.size), (8, 8), (12, 496)))

    def test_devices(self) -> None:
        """By the driver of a device."""
        with open(os.devnull, 'rb') as device, tempfile.TemporaryFile() as file:
            self.assertFalse(dahdi.is_channel(device.fileno()) or dahdi.is_channel(file.fileno()))
            with mock.patch('e1gw.dahdi.CHANNELS', 'mem'):
                self.assertTrue(dahdi.is_channel(device.fileno()))

    def test_bundles(self) -> None:
        """Each other channel of a bundle is refused, though no program has it open."""
        faults = dict[str, int]()

        def refuses(path: str, flags: int) -> int:
            self.assertEqual(flags, os.O_RDWR)
            if number := faults.get(path, errno.EBUSY):
                raise OSError(number, os.strerror(number))
            return os.dup(0)
        with tempfile.TemporaryDirectory() as folder, mock.patch('e1gw.dahdi.DEVICES', folder), \
                mock.patch('e1gw.dahdi.os.open', refuses):
            self.assertTrue(DahdiChannel(-1).is_bundle(3))
            for number, is_bundle in (errno.EACCES, True), (0, False), (errno.ENXIO, False):
                faults['/dev/dahdi/chan/003/031'] = number
                self.assertEqual((number, DahdiChannel(-1).is_bundle(3)), (number, is_bundle))
            for used, is_bundle in ('1', False), ('0', True):
                os.makedirs(each := f'{folder}/dahdi!chan!004!002', exist_ok=True)
                Path(each, 'in_use').write_text(f'{used}\n', encoding='ascii')
                self.assertEqual(DahdiChannel(-1).is_bundle(4), is_bundle)

    def test_blocks(self) -> None:
        for frames, buffers in (16, 8), (64, 16), (1, 2), (32, 32):
            self.assertEqual(dahdi.blocks_of(f'{frames},{buffers}'), Blocks(frames, buffers))
        for text in '0,8', '65,8', '16,1', '16,33', '64,17', '16', '16,x':
            with self.assertRaisesRegex(ValueError, f'--blocks {text} is'):
                dahdi.blocks_of(text)


class SetUpTests(unittest.TestCase):
    def test_what_is_set(self) -> None:
        """Audio mode is left, then the buffers are set, and only then one of them is written."""
        channel = FakeChannel()
        channel.set_up(Blocks(4, 6))
        self.assertEqual(channel.asked, [('AUDIO_MODE', bytes(4)), ('SET_BUFFERS', dahdi.buffers_of(Blocks(4, 6))),
                                         ('write', b'\xff' * 124)])

    def test_refusals(self) -> None:
        """No other channel is changed."""
        for name, value, words in (('signalling', 1 << 15, '64 kbit/s'), ('bundle', False, '64 kbit/s'),
                                   ('channels', 24, 'number 1 of 24'), ('place', 2, 'number 2 of 31')):
            channel = FakeChannel()
            setattr(channel, name, value)
            with self.assertRaisesRegex(CardFault, words):
                channel.set_up(Blocks(16, 8))
            self.assertEqual(channel.asked, [])

    def test_who_was_started_by_a_descriptor(self) -> None:
        """Its name is that of its command line. The name of the descriptor would be a number."""
        with open('/bin/cat', 'rb') as file, subprocess.Popen(
                ['e1gw'], executable=f'/proc/self/fd/{file.fileno()}', pass_fds=[file.fileno()],
                stdin=subprocess.PIPE, stdout=subprocess.PIPE, bufsize=0) as process:
            assert process.stdin and process.stdout
            with process.stdin:
                process.stdin.write(b'.')
                self.assertEqual(process.stdout.read(1), b'.')          # (from now on the kernel has its name)
                self.assertEqual(name_of_process(process.pid), 'e1gw')

    def test_advice(self) -> None:
        """Of a device; a channel that is held names who holds it."""
        for number in errno.ENXIO, errno.ENOENT, errno.EBUSY, errno.EPERM:
            fault = OSError(number, os.strerror(number), '/dev/e1')
            self.assertIs(card_opening.with_advice(fault, '/dev/e1'), fault)
        for number, words in (errno.ENXIO, 'lsdahdi'), (errno.ENOENT, 'lsdahdi'), (errno.EPERM, 'restart it'):
            fault = OSError(number, os.strerror(number), '/dev/dahdi/7')
            self.assertRegex(card_opening.with_advice(fault, '/dev/dahdi/7').strerror or '', words)
        with open(os.devnull, 'rb'):
            name = Path('/proc/self/comm').read_text(encoding='utf-8').strip()
            self.assertIn(f'{name} ({os.getpid()})', card_opening.holders(os.devnull))
            self.assertIn(name, card_opening.card_advice(os.devnull, errno.EBUSY))
        self.assertIn('SupplementaryGroups=', card_opening.card_advice(os.devnull, errno.EACCES))
        for number in errno.EACCES, errno.EPERM:
            fault = card_opening.with_advice(OSError(number, os.strerror(number), os.devnull), os.devnull)
            self.assertRegex(fault.strerror or '', '/dev/null: .* DeviceAllow=/dev/null rw .* SupplementaryGroups=root')
        with tempfile.NamedTemporaryFile() as alone:
            self.assertIn('e1gw.rules', card_opening.card_advice(alone.name, errno.EACCES))


class CardWatchTests(unittest.TestCase):
    """A card, whose driver says what is in `span`."""

    def setUp(self) -> None:
        self.told: list[Event] = []
        self.span = SpanFacts(3, 'X/1', Alarm(0), 31, dict.fromkeys(dahdi.COUNTS, 0))
        self.fault = 0
        self.enterContext(mock.patch.multiple('e1gw.watcher.card', CONTROL=os.devnull, LOOK=0.0, span_of=self.asked))

    def asked(self, file: int, number: int) -> SpanFacts:
        if self.fault or number != self.span.number:
            raise OSError(self.fault or errno.EINVAL, os.strerror(self.fault))
        os.fstat(file)
        return self.span

    def watch(self, told: int = 0) -> CardWatch:
        watch = CardWatch(self.told.append, told)
        self.addCleanup(watch.close)
        return watch

    def words(self) -> list[str]:
        told, self.told[:] = [event.words() for event in self.told], []
        return told

    def test_alarms(self) -> None:
        """Each alarm is told once, at its begin and its end; those of this end and of the other are outages."""
        watch = self.watch()
        for alarms, begins, outage in (
                (0, (), None), (8, ('card: RED alarm: ',), 'the card is in alarm: RED'),
                (8 | 4, ('card: YELLOW alarm: ',), 'the card is in alarm: RED'),
                (4, ('card: RED alarm over',), 'the other end has no alignment'),
                (4 | 2, ('card: LOOPBACK alarm: ',), 'the other end has no alignment'),
                (16 | 32, ('card: LOOPBACK alarm over', 'card: YELLOW alarm over', 'card: BLUE', 'card: NOT OPEN'),
                 'the card is in alarm: BLUE, NOT OPEN'), (0, ('card: BLUE', 'card: NOT'), None)):
            self.span = replace(self.span, alarms=Alarm(alarms))
            watch.read_alarms(3)
            told = self.words()
            self.assertEqual(len(told), len(begins))
            self.assertTrue(all(map(str.startswith, told, begins)), told)
            self.assertEqual(watch.outage(), outage)

    def test_told_before(self) -> None:
        """What another watcher has told is not told again."""
        self.span = replace(self.span, alarms=Alarm(4))
        watch = self.watch(8 | 4)
        watch.read_alarms(3)
        self.assertEqual((self.words(), watch.as_told), (['card: RED alarm over'], 4))

    def test_status(self) -> None:
        """Nothing of what is no card, nor of one whose driver does not say it."""
        watch = self.watch()
        self.assertIsNone(watch.status())
        self.span = replace(self.span, alarms=Alarm.RED, counts=self.span.counts | {'errored_seconds': 7})
        watch.read_alarms(3)
        self.assertEqual({name: n for name, n in plain_of(watch.status()).items() if n},
                         {'span': 3, 'red': 1, 'errored_seconds': 7})
        self.fault = errno.ENODEV
        with self.assertLogs('e1gw.watcher.card') as logs:
            for _ in range(3):
                watch.read_alarms(3)
        self.assertEqual((len(logs.records), watch.status(), watch.outage()), (1, None, None))
        self.fault = 0
        watch.read_alarms(3)
        self.assertEqual(plain_of(watch.status())['span'], 3)
        watch.read_alarms(0)
        self.assertIsNone(watch.status())

    def test_what_the_driver_is_asked(self) -> None:
        """The number of the span is the first of its octets (struct dahdi_spaninfo)."""
        asked = list[tuple[int, bytes]]()

        def answers(_: int, request: int, octets: bytes) -> bytes:
            asked.append((request, octets))
            return at(octets, (64, 8), (124, 31))
        with mock.patch('e1gw.dahdi.fcntl.ioctl', answers):
            self.assertEqual(dahdi.span_of(9, 2).alarms, Alarm.RED)
        self.assertEqual(asked, [(int(Request.SPAN_STATUS), at(bytes(SPAN.size), (0, 2)))])
