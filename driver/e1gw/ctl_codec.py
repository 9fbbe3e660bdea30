"""A codec that outlasts its call: it is given, written into the configuration, and taken from there."""
from __future__ import annotations

import re
import tomllib
from typing import Collection

from e1gw_common.lines import TrunkConfig
from e1gw_common.plain import typed


def with_codec(text: str, circuit: int, codec: str, payload: int) -> str:
    """A configuration in which a circuit has this codec and payload type; all else stays as it is written. ValueError
    if it has no table of the circuit, or one that cannot be edited here."""
    number = re.compile(rf'(?m)^[ \t]*number[ \t]*=[ \t]*{circuit}[ \t]*(?:#.*)?$')
    pieces = re.split(r'(?m)^(?=[ \t]*\[\[\s*circuit\s*\]\])', text)
    at = next((at for at, piece in enumerate(pieces) if number.search(piece)), None)
    if at is None:
        raise ValueError(f'it has no table of circuit {circuit}')
    for key, value in ('codec', f'"{codec}"'), ('payload', str(payload)):
        line = re.compile(rf'(?m)^([ \t]*{key}[ \t]*=[ \t]*)[^#\n]*?([ \t]*(?:#.*)?)$')
        if line.search(pieces[at]):
            pieces[at] = line.sub(rf'\g<1>{value}\g<2>', pieces[at])
        else:
            pieces[at] = number.sub(lambda found: f'{found[0]}\n{key} = {value}', pieces[at])
    edited = ''.join(pieces)
    if typed(TrunkConfig, tomllib.loads(edited)).lines()[circuit].configured != (codec, payload):
        raise ValueError(f'circuit {circuit} is written in a way that is not edited here')
    return edited


def save_codecs(path: str, circuits: Collection[int], codec: str, payload: int) -> None:
    """Writes a codec of circuits into a configuration, whose owner and mode stay. OSError, ValueError if it cannot."""
    with open(path, 'r+', encoding='utf-8') as file:
        text = file.read()
        for n in circuits:
            text = with_codec(text, n, codec, payload)
        file.seek(0)
        file.write(text)
        file.truncate()
