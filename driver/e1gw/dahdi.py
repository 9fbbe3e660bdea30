"""A channel of a DAHDI card, and what is asked of its driver: dahdi/user.h of DAHDI 2.11 and 3, as octets and back.

With `clear=1-31` the first channel of a span gives time slots 1 to 31 of each frame, slot 1 first, and takes as many.
It has buffers of a block each: a read gives one block, and discards what it has no room for; a write takes one buffer,
however little is written. While an event waits each read and write fails with errno 500."""
from __future__ import annotations

import enum
import errno
import fcntl
import os
import stat
import struct
from contextlib import suppress
from dataclasses import dataclass

CHANNELS = 'dahdi_channels'         # what the driver calls its devices
DEVICES, NODES = '/sys/bus/dahdi_channels/devices', '/dev/dahdi/chan'      # of all channels
CONTROL = '/dev/dahdi/ctl'          # the driver's device, which tells of each span and takes no channel
PARAMETERS, BUFFERS = struct.Struct('=12i40s11iI'), struct.Struct('=6i')
SPAN = struct.Struct('=i20s40s7i5I7i40s40s40s40s2i6s')
NUMBER = struct.Struct('=i')
SLOTS = 31                  # octets of a frame
CLEAR = 1 << 7              # the signalling of a clear channel
MOST_FRAMES = 64            # of a block: the most that the program reads at once
MOST_BUFFERS, MOST_OCTETS = 32, 32_768
# What a span counts, by names of ITU-T G.821 and of its driver.
COUNTS = ('bipolar_violations', 'crc4_errors', 'e_bits', 'alignment_signal_errors', 'framing_errors', 'code_violations',
          'bit_errors', 'errored_seconds', 'interrupts_missed')
CONFIGURES = 'clear=1-31 (for the first span) in /etc/dahdi/system.conf, then dahdi_cfg'


def request_of(ways: int, number: int, size: int) -> int:
    """The number of a request, by ioctl(2): `ways` is 1 if the driver reads these octets, 2 if it writes them."""
    return ways << 30 | size << 16 | 0xDA << 8 | number


class Request(enum.IntEnum):
    """What is asked."""

    GET_PARAMETERS = request_of(3, 5, PARAMETERS.size)
    GET_EVENT = request_of(2, 8, NUMBER.size)
    SPAN_STATUS = request_of(3, 10, SPAN.size)
    SET_BUFFERS = request_of(1, 27, BUFFERS.size)
    AUDIO_MODE = request_of(1, 32, NUMBER.size)


class Alarm(enum.IntFlag):
    """Alarms of a span."""

    RECOVERING = 1 << 0
    LOOPBACK = 1 << 1
    YELLOW = 1 << 2
    RED = 1 << 3
    BLUE = 1 << 4
    NOT_OPEN = 1 << 5

    def names(self) -> list[str]:
        """As DAHDI's own programs show them."""
        return [(each.name or '').replace('_', ' ') for each in Alarm if each in self]


@dataclass(frozen=True)
class Blocks:
    """The buffers of a channel, each way: how many frames a block has, and how many blocks there is room for."""

    frames: int
    buffers: int

    def octets(self) -> int:
        """Of a block."""
        return SLOTS * self.frames


def blocks_of(text: str) -> Blocks:
    """Those of an option. ValueError if no channel can have them."""
    frames, _, buffers = text.partition(',')
    if not (frames.isdecimal() and buffers.isdecimal() and 1 <= int(frames) <= MOST_FRAMES
            and 2 <= int(buffers) <= MOST_BUFFERS and SLOTS * int(frames) * int(buffers) <= MOST_OCTETS):
        raise ValueError(f'--blocks {text} is not FRAMES,N: 1 to {MOST_FRAMES} frames, 2 to {MOST_BUFFERS} blocks, '
                         f'{MOST_OCTETS} octets in all, {SLOTS} a frame')
    return Blocks(int(frames), int(buffers))


@dataclass(frozen=True)
class ChannelFacts:
    """A channel: its number, its span and its place there, and its signalling."""

    number: int
    span: int
    place: int
    signalling: int


@dataclass(frozen=True)
class SpanFacts:
    """A span: its name, alarms and channels, and what it has counted."""

    number: int
    name: str
    alarms: Alarm
    channels: int
    counts: dict[str, int]


class CardFault(OSError):
    """Why a channel will not do."""

    def __init__(self, words: str) -> None:
        super().__init__(errno.EINVAL, words)


# ---- as octets ----

def channel_facts(octets: bytes) -> ChannelFacts:
    number, span, place, signalling, *_ = PARAMETERS.unpack(octets)
    return ChannelFacts(number, span, place, signalling)


def span_facts(octets: bytes) -> SpanFacts:
    number, name, _, alarms, _, _, *rest = SPAN.unpack(octets)
    *counts, _, seconds, missed, _, _, channels = rest[:13]
    known = Alarm(alarms & sum(Alarm))
    return SpanFacts(number, name.partition(b'\0')[0].decode(errors='replace'), known, channels,
                     dict(zip(COUNTS, (*counts, seconds, missed))))


def buffers_of(blocks: Blocks) -> bytes:
    """The policy is 0: a block is sent as soon as it was written."""
    return BUFFERS.pack(0, 0, blocks.buffers, blocks.octets(), 0, 0)


# ---- the channel ----

def is_in_use(span: int, place: int) -> bool:
    """Whether a program has a channel open; False if that is not known."""
    with suppress(OSError), open(f'{DEVICES}/dahdi!chan!{span:03}!{place:03}/in_use', encoding='ascii') as text:
        return text.read().strip() == '1'
    return False


def is_slave(span: int, place: int) -> bool:
    """Whether a channel is one of a bundle, not its first: it is refused though no program has it open. True if that is
    not known. (sysfs has the signalling, which is the first one's, and a unit does not see /proc/dahdi.)"""
    try:
        os.close(os.open(f'{NODES}/{span:03}/{place:03}', os.O_RDWR))
    except OSError as fault:
        return fault.errno != errno.ENXIO and not is_in_use(span, place)
    return False


def is_channel(file: int) -> bool:
    """Whether a descriptor is of such a card, by its driver."""
    about = os.fstat(file)
    if not stat.S_ISCHR(about.st_mode):
        return False
    number = f'{os.major(about.st_rdev)}:{os.minor(about.st_rdev)}'
    with suppress(OSError):
        return os.path.basename(os.readlink(f'/sys/dev/char/{number}/subsystem')) == CHANNELS
    return False


def span_of(file: int, number: int) -> SpanFacts:
    """A span, as CONTROL tells it, of which this is a descriptor. OSError if there is none of this number."""
    asked = NUMBER.pack(number).ljust(SPAN.size, b'\0')
    return span_facts(fcntl.ioctl(file, Request.SPAN_STATUS, asked))


class DahdiChannel:
    """An open channel. OSError of a call says that the card is gone."""

    def __init__(self, file: int) -> None:
        self.file = file

    def ask(self, request: Request, octets: bytes) -> bytes:
        return fcntl.ioctl(self.file, request, octets)

    def facts(self) -> ChannelFacts:
        return channel_facts(self.ask(Request.GET_PARAMETERS, bytes(PARAMETERS.size)))

    def span(self) -> SpanFacts:
        """Of its span."""
        return span_facts(self.ask(Request.SPAN_STATUS, bytes(SPAN.size)))

    def event(self) -> int:
        """Takes the next event."""
        return int(NUMBER.unpack(self.ask(Request.GET_EVENT, bytes(NUMBER.size)))[0])

    def is_bundle(self, span: int) -> bool:
        """Whether it gives all slots of its span: all others are its slaves."""
        return all(is_slave(span, place) for place in range(2, SLOTS + 1))

    def write(self, octets: bytes) -> None:
        os.write(self.file, octets)

    def set_up(self, blocks: Blocks) -> None:
        """Octets go and come as they are, by whole frames, and a block of ones goes first: it is what is ahead of the
        line. CardFault if it gives others than slots 1 to 31."""
        facts, span = self.facts(), self.span()
        if facts.signalling != CLEAR or not self.is_bundle(facts.span):
            raise CardFault(f'channel {facts.number} is one of 64 kbit/s: {CONFIGURES}')
        if span.channels != SLOTS or facts.place != 1:
            raise CardFault(f'channel {facts.number} is number {facts.place} of {span.channels} of span {span.number}: '
                            f'the first one of an E1 span has all 31')
        self.ask(Request.AUDIO_MODE, NUMBER.pack(0))        # (nor echo canceller, gains, law, conference)
        self.ask(Request.SET_BUFFERS, buffers_of(blocks))
        self.write(b'\xff' * blocks.octets())
