"""Reads and makes the records of a session: e1gw-session(5). Needs python3 alone.

  e1gw-records [SESSION]                            prints its records, one a line
  e1gw-records --from-raw [--size N] [OCTETS]       makes T records of N octets (256, 1 ms) of a trunk's octets;
                                                     --reverse reverses the bits of each
  e1gw-records --to-raw [SESSION]                   the octets of its T records
  e1gw-records --until MS | --from MS [SESSION]     its records before, or from, this time of the trunk
  e1gw-records --circuit N [--law mu] [SESSION]     the circuit's time slot of the T records as a WAV file;
                                                     with --from-raw of a trunk's octets

SESSION and OCTETS are files, by default standard input. A line shows for T the places of its octets on the trunk, for D
the fields of its RTP header (RFC 3550, 5.1), for C the command, for K the codec, for R the request and its answer.
SESSION may be a file of e1gw-watch --keep, also a compressed one: then places count from the gateway's start, and
e1gw replay --load NAME.state answers it as the gateway did.

--circuit searches for the frame in the octets (eight frame alignment signals, 64 octets apart), and again after three
errored ones in a row, so the session may begin anywhere in a frame. In a gateway's output the WAV file is what the
trunk sends, in its input what the exchange says.

Status 1 if the session ends inside a record, a record is of no kind, or no frame was found."""

import argparse
import os
import struct
import sys
from typing import BinaryIO, Iterator

from e1gw_common.faults import Parser, number, words_of_fault
from e1gw_common.frames import REVERSED, FrameSearch, raw_words_of
from e1gw_common.session import (FRAME, OCTETS_A_SECOND, BadPacket, BadSession, Kind, Record, packet_of,
                                 records, trunk_record)
from e1gw_common.session_files import InputError, octets_of, pieces, read_about

NAME = os.path.basename(sys.argv[0])    # in the package e1gw-records
PIECE = 1 << 16
WAVE_A, WAVE_MU = 6, 7              # the codes of A-law and mu-law in a WAV file


# ---- printing ----

def shown_datagram(body: bytes) -> str:
    """The fields of an RTP header."""
    try:
        packet = packet_of(body)
    except BadPacket as bad:
        return f'{len(body)} octets, not RTP: {bad.refusal.words}'
    marks = [name for name, there in (('padding', packet.padding), ('extension', packet.extended),
                                      (f'{len(packet.sources)} sources', packet.sources),
                                      ('marker', packet.marker)) if there]
    return ', '.join([f'{len(body)} octets: payload type {packet.payload_type}', f'sequence {packet.sequence}',
                      f'timestamp {packet.timestamp}', f'ssrc {packet.ssrc}', *marks])


def shown_answer(record: Record) -> str:
    """What an R record says."""
    try:
        refusal = record.refusal
        asked = Kind(record.body[0]).letter
    except ValueError:
        return record.body.hex(' ')
    return f'{asked} done' if refusal is None else f'{asked} refused: {int(refusal)} {refusal.label}'


def format_record(record: Record, place: int) -> str:
    """A record as one line; its octets are at this place of the trunk."""
    front = f'{record.kind.letter} {record.circuit:2} '
    if record.kind is Kind.TRUNK:
        return f'T    {len(record.body)} octets, from place {place} on'
    if record.kind is Kind.DATAGRAM:
        return front + shown_datagram(record.body)
    if record.kind is Kind.COMMAND:
        return front + record.command.label
    if record.kind is Kind.CODEC:
        return f'{front}{record.codec.label}, payload type {record.payload_type}'
    return front + shown_answer(record)


def print_records(source: Iterator[bytes], place: int) -> None:
    """Prints records, the first of them at this place of the trunk."""
    for record in records(source):
        print(format_record(record, place))
        place += len(record.body) if record.kind is Kind.TRUNK else 0


def write_records(source: Iterator[bytes], begin: int, end: int | None, sink: BinaryIO) -> None:
    """Writes the records behind a number of octets of the trunk: at least the first one, and below the second."""
    place = 0
    for record in records(source):
        if begin <= place and (end is None or place < end):
            sink.write(record.encode())
        place += len(record.body) if record.kind is Kind.TRUNK else 0


# ---- one circuit ----

def write_wave(octets: bytes | bytearray, law: str, sink: BinaryIO, channels: int = 1) -> None:
    """A WAV file of G.711, of channels that take turns."""
    code = WAVE_A if law == 'A' else WAVE_MU
    form = struct.pack('<HHIIHHH', code, channels, 8000, 8000 * channels, channels, 8, 0)
    fact = struct.pack('<4sII', b'fact', 4, len(octets) // channels)
    padding = bytes(len(octets) % 2)
    body = (b'WAVE' + struct.pack('<4sI', b'fmt ', len(form)) + form + fact
            + struct.pack('<4sI', b'data', len(octets)) + octets + padding)
    sink.write(struct.pack('<4sI', b'RIFF', len(body)) + body)


def raw_pieces(source: BinaryIO, reverse: bool, size: int = PIECE) -> Iterator[bytes]:
    """Octets of a trunk, this number at a time; the last ones may be fewer."""
    while octets := source.read(size):
        yield octets.translate(REVERSED) if reverse else octets


def kept_pieces(source: Iterator[bytes]) -> Iterator[bytes]:
    """The octets of a session's T records."""
    return (record.body for record in records(source) if record.kind is Kind.TRUNK)


def write_speech(pieces: Iterator[bytes], name: str, circuit: int, law: str, sink: BinaryIO) -> None:
    """Writes what octets of a trunk, those of a file of this name, have in the time slot of a circuit."""
    frames, heard = FrameSearch(), bytearray()
    for piece in pieces:
        for _, pairs in frames.take(piece):
            heard += pairs[circuit + (circuit > 15)::FRAME]
    for place in frames.losses:
        print(f'{NAME}: frame alignment lost at octet {place}', file=sys.stderr)
    if not heard:
        raise InputError(f'{name}: no frame was found in the octets of the trunk; for reversed bits use --from-raw '
                         '--reverse, for unaligned octets e1gw align')
    write_wave(heard, law, sink)


def times(text: str) -> int:
    """The octets of a trunk in this number of milliseconds."""
    if not text.isdecimal():
        raise argparse.ArgumentTypeError('a time is a whole number of milliseconds')
    return int(text) * OCTETS_A_SECOND // 1000


def asked_for() -> argparse.Namespace:
    """What the command line asks for."""
    words = Parser(description=__doc__, usage=argparse.SUPPRESS,
                   formatter_class=argparse.RawDescriptionHelpFormatter)
    words.add_argument('--from-raw', action='store_true')
    what = words.add_mutually_exclusive_group()
    what.add_argument('--to-raw', action='store_true')
    what.add_argument('--circuit', metavar='N', type=number(1, 30))
    what.add_argument('--until', metavar='MS', type=times)
    what.add_argument('--from', metavar='MS', type=times, dest='begin')
    words.add_argument('--reverse', action='store_true')
    words.add_argument('--size', metavar='N', type=number(1, 65_535), default=256)
    words.add_argument('--law', choices=('A', 'mu'), default='A')
    words.add_argument('file', nargs='?')
    asked = words.parse_args()
    if asked.reverse and not asked.from_raw:
        words.error('--reverse needs --from-raw')
    if asked.from_raw and (asked.to_raw or asked.until is not None or asked.begin is not None):
        words.error('--from-raw and one of --to-raw, --until and --from: one of the two')
    return asked


def name_of(asked: argparse.Namespace) -> str:
    """How what is read is named."""
    return asked.file or 'standard input'


def work(asked: argparse.Namespace) -> None:
    """Does what was asked for."""
    if not asked.from_raw:
        return read_session(asked, octets_of(asked.file) if asked.file else pieces(sys.stdin.buffer))
    with open(asked.file, 'rb') if asked.file else sys.stdin.buffer as source:
        if asked.circuit:
            write_speech(raw_pieces(source, asked.reverse), name_of(asked), asked.circuit, asked.law, sys.stdout.buffer)
        else:
            sys.stdout.buffer.writelines(map(trunk_record, raw_pieces(source, asked.reverse, asked.size)))


def read_session(asked: argparse.Namespace, source: Iterator[bytes]) -> None:
    """Does it with a session."""
    if asked.circuit:
        write_speech(kept_pieces(source), name_of(asked), asked.circuit, asked.law, sys.stdout.buffer)
    elif asked.to_raw:
        sys.stdout.buffer.writelines(kept_pieces(source))
    elif asked.until is not None or asked.begin is not None:
        write_records(source, asked.begin or 0, asked.until, sys.stdout.buffer)
    else:
        print_records(source, (read_about(asked.file).place or 0) if asked.file else 0)


def main() -> None:
    asked = asked_for()
    try:
        work(asked)
        sys.stdout.flush()
    except BrokenPipeError:
        os.dup2(os.open(os.devnull, os.O_WRONLY), 1)
    except BadSession as bad:
        why = raw_words_of(asked.file) if asked.file else None
        sys.exit(f'{NAME}: {name_of(asked)}: {bad}{f": {why}" if why else ""}')
    except (InputError, OSError) as trouble:
        sys.exit(f'{NAME}: {words_of_fault(trouble)}')
    except KeyboardInterrupt:
        sys.exit(130)
