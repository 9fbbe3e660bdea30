"""What a watcher notes for the next one of its trunk, which goes on where it was: nothing is told twice, and nothing is
missed that the log still has."""
from __future__ import annotations

import json
from contextlib import suppress
from dataclasses import dataclass

from e1gw_common.plain import typed
from ..calls import CallsNote
from .blocks import BlockStage, BlockedCircuits
from .held import HeldNote
from .reader import ReadingNote
from .recordings import RecordingNote
from .tell_client import ToldNote
from .watch import ShownNote

VERSION = 2


@dataclass(frozen=True)
class WatchNote:
    """What is noted; of each circuit that the operator has blocked, how far it is; of codecs what CodecWatch says."""

    held: HeldNote
    read: ReadingNote
    told: ToldNote
    shown: ShownNote
    blocks: dict[int, str]
    codecs: dict[int, int]
    recording: RecordingNote | None
    calls: CallsNote | None

    def text(self) -> bytes:
        return json.dumps({'version': VERSION, **vars(self)}, default=vars).encode() + b'\n'


def note_in(octets: bytes) -> WatchNote | None:
    """The note that octets are; None if they are none of this version."""
    with suppress(ValueError, AttributeError):
        plain = json.loads(octets)
        if plain.get('version') == VERSION:
            return typed(WatchNote, plain)
    return None


def blocks_told(now: BlockedCircuits, told: dict[int, str]) -> BlockedCircuits:
    """The circuits that the operator has blocked, as far as was told."""
    with suppress(KeyError):
        return BlockedCircuits({n: BlockStage[told[n]] if n in told else each for n, each in now.circuits.items()})
    return now
