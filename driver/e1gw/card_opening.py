"""How a device is opened: a DAHDI channel is set up, and a refusal says what to do."""
from __future__ import annotations

import errno
import glob
import os
import stat
from contextlib import suppress

from e1gw_common.fault_words import group_of, name_of_process, named, words_of_fault
from .dahdi import Blocks, CardFault, DahdiChannel, is_channel
from .trunks import Stream, open_files

FOLDER = '/dev/dahdi/'                  # of DAHDI's devices, with its driver and without
NO_CARD = 'no card has it now; is its driver loaded (lsdahdi), and was dahdi_cfg run? it is opened once it is there'
ADVICE = {errno.ENOENT: NO_CARD, errno.ENXIO: NO_CARD, errno.ENODEV: NO_CARD,
          errno.EPERM: 'the unit was started before the driver was there: restart it'}
RULE = 'only root may: e1gw.rules goes to /etc/udev/rules.d'
DROP_IN = 'a unit wants DeviceAllow={} rw and SupplementaryGroups={} (systemctl edit)'


def is_card(path: str) -> bool:
    """Whether a device is DAHDI's, or would be."""
    return os.path.realpath(path).startswith(FOLDER)


def holders(path: str) -> list[str]:
    """The processes that have a device open, of those that this one may see."""
    found, device = set[str](), os.stat(path).st_rdev
    for each in glob.glob('/proc/[0-9]*/fd/*'):
        with suppress(OSError):
            if stat.S_ISCHR((about := os.stat(each)).st_mode) and about.st_rdev == device:
                found.add(f'{name_of_process(pid := each.split("/")[2])} ({pid})')
    return sorted(found)


def device_advice(path: str, number: int) -> str:
    """What to do where the open of a device of no card ended with this error; nothing if that says all."""
    with suppress(OSError):
        if number in (errno.EACCES, errno.EPERM) and stat.S_ISCHR(os.stat(path).st_mode):
            return DROP_IN.format(path, group_of(path))
    return ''


def card_advice(path: str, number: int) -> str:
    """What to do where a card's open ended with this error; nothing if that says all."""
    with suppress(OSError):
        if number == errno.EBUSY:
            who = ', '.join(holders(path)) or 'another program, or the channel is one of a bundle: give its first one'
            return f'in use by {who}'
        if number == errno.EACCES:
            who = f'be in the group {group_of(path)} (SupplementaryGroups= of the unit)'
            return who if os.stat(path).st_mode & stat.S_IWGRP else RULE
    return ADVICE.get(number, '')


def with_advice(fault: OSError, path: str) -> OSError:
    """The same error of an open; of a device with what to do."""
    words = (card_advice if is_card(path) else device_advice)(path, fault.errno or 0)
    return OSError(fault.errno or 0, f'{words_of_fault(fault, path)}; {words}') if words else fault


def set_up(stream: Stream, blocks: Blocks, is_clear: bool) -> None:
    """Sets a DAHDI channel up. OSError if it will not do."""
    if not is_clear:
        raise CardFault('DAHDI keeps time slot 0: --clear')
    DahdiChannel(stream.reads).set_up(blocks)


def open_device(reads: str, writes: str, blocks: Blocks, is_clear: bool) -> Stream:
    """A device, files or FIFOs, as open_files does; a DAHDI channel is set up. OSError if it can't be."""
    try:
        stream = open_files(reads, writes)
    except OSError as fault:
        raise with_advice(fault, fault.filename if isinstance(fault.filename, str) else reads) from None
    try:
        if is_channel(stream.reads):
            set_up(stream, blocks, is_clear)
    except OSError as fault:
        stream.close()
        raise named(fault, reads) from None
    return stream
