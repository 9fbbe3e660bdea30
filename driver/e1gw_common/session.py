"""Records of a session, e1gw-session(5): their words and numbers, reading and spelling them, and RTP headers."""
from __future__ import annotations

import struct
from dataclasses import dataclass
from enum import IntEnum
from typing import Iterable, Iterator, NamedTuple

CIRCUITS = range(1, 31)
OCTETS_A_SECOND = 256_000       # of the trunk
SAMPLES_A_SECOND = 8_000        # of a circuit
FRAME, MULTIFRAME = 32, 512     # octets
HEAD = struct.Struct('>BBH')
KIND_AND_LENGTH = struct.Struct('>BxH')           # .. without the circuit


def circuit_of(word: str) -> int:
    """The circuit that a word names; 0 if it names none."""
    number = int(word) if word.isascii() and word.isdecimal() and len(word) < 4 else 0
    return number if number in CIRCUITS else 0


def circuits_of(word: str) -> range:
    """A circuit, or a range such as 3-9. ValueError for others."""
    first, dash, last = word.partition('-')
    found = range(circuit_of(first), circuit_of(last if dash else first) + 1)
    if not (found and found[0]):
        raise ValueError(f'{word[:40]} is neither a circuit from 1 to 30 nor a range such as 3-9')
    return found


class Kind(IntEnum):
    """The kinds of records."""

    TRUNK = 0x54
    DATAGRAM = 0x44
    COMMAND = 0x43
    CODEC = 0x4B
    ANSWER = 0x52

    @property
    def letter(self) -> str:
        """The letter that the manual names it by."""
        return chr(self)



class _Named(IntEnum):
    """Numbers with names: `label` is the manual's name."""

    @property
    def label(self) -> str:
        return self.name.title().replace('_', '')


def _typed(number: IntEnum) -> str:
    """The name of a number as it is typed."""
    return number.name.lower().replace('_', '-')


class Command(_Named):
    """An operator's commands. `word` is what is typed."""

    SEIZE = 1
    CLEAR = 2
    ANSWER = 3
    CLEAR_BACK = 4
    BLOCK = 5
    UNBLOCK = 6

    @property
    def word(self) -> str:
        return _typed(self)


class Codec(IntEnum):
    """The codecs of a circuit by their numbers in a record. G.711 is that of the trunk's law."""

    G711 = 1
    G726_16 = 2
    G726_24 = 3
    G726_32 = 4
    G726_40 = 5

    @property
    def label(self) -> str:
        return _typed(self)

    def word(self, law: str) -> str:
        """What is typed, and what the configuration says, on a trunk of that law."""
        if self is Codec.G711:
            return 'pcma' if law == 'A' else 'pcmu'
        return self.label


class _Refusal(_Named):
    """Why something was refused. `words` is what a user reads."""

    @property
    def words(self) -> str:
        return _WORDS.get(self, self.name.lower().replace('_', ' '))


class CommandRefusal(_Refusal):
    WRONG_ROLE = 1
    NOT_IDLE = 2
    NOT_SEIZED = 3
    NOT_IN_CALL = 4
    NOT_BLOCKED = 5


class DatagramRefusal(_Refusal):
    SHORT = 1
    VERSION = 2
    SHORT_SOURCES = 3
    SHORT_EXTENSION = 4
    BAD_PADDING = 5
    PAYLOAD_TYPE = 11
    WRONG_SOURCE = 12
    REPEAT = 13
    LATE = 14
    TOO_MANY = 15
    FULL = 16
    NOT_OPEN = 20


class CodecRefusal(_Refusal):
    PAYLOAD_TYPE = 31


Refusal = CommandRefusal | DatagramRefusal | CodecRefusal
_WORDS: dict[object, str] = {CommandRefusal.NOT_IN_CALL: 'not in a call',
                             CodecRefusal.PAYLOAD_TYPE: 'no payload type of the codec'}
_NAMES = {int(code): code.label for code in DatagramRefusal}
REFUSALS: dict[int, type[CommandRefusal] | type[DatagramRefusal] | type[CodecRefusal]] = {
    Kind.COMMAND: CommandRefusal, Kind.DATAGRAM: DatagramRefusal, Kind.CODEC: CodecRefusal}


def name_of(code: int) -> str:
    """The manual's name of why a datagram was refused."""
    return _NAMES.get(code, f'code {code}')


def refusal_of(asked: int, code: int) -> Refusal | None:
    """The refusal that a code means for a kind of record; None where it was done. ValueError where it means none."""
    if asked not in REFUSALS:
        raise ValueError(f'{asked:02X} is no kind that is answered')
    return REFUSALS[asked](code) if code else None


class Fault(_Named):
    """The faults of a session."""

    BAD_KIND = 1
    BAD_CIRCUIT = 2
    BAD_COMMAND = 3
    TRUNCATED = 4
    READ = 5
    WRITE = 6


class BadSession(Exception):
    """A session cannot be read on: its fault, and the place in the stream of the record that has it."""

    def __init__(self, fault: Fault, place: int) -> None:
        super().__init__(f'fault {int(fault)} {fault.label} in the record at octet {place}')
        self.fault, self.place = fault, place


class Record(NamedTuple):
    """A record: its kind, its circuit (0 for the trunk) and its body."""

    kind: Kind
    circuit: int
    body: bytes

    def encode(self) -> bytes:
        return encode_record(self.kind, self.circuit, self.body)

    @property
    def command(self) -> Command:
        """The command of a C record."""
        return Command(self.body[0])

    @property
    def codec(self) -> Codec:
        """The codec of a K record."""
        return Codec(self.body[0])

    @property
    def payload_type(self) -> int:
        """The payload type of a K record."""
        return self.body[1]

    @property
    def refusal(self) -> Refusal | None:
        """Why what an R record answers was refused; None where it was done or admitted."""
        return refusal_of(self.body[0], self.body[1])


def encode_record(kind: int, circuit: int, body: bytes) -> bytes:
    """The octets of a record. ValueError where its body is longer than a record can say."""
    if len(body) > 65_535:
        raise ValueError('a record has at most 65,535 octets')
    return HEAD.pack(kind, circuit, len(body)) + body


def trunk_record(octets: bytes) -> bytes:
    return encode_record(Kind.TRUNK, 0, octets)


def datagram_record(circuit: int, datagram: bytes) -> bytes:
    return encode_record(Kind.DATAGRAM, circuit, datagram)


def command_record(circuit: int, command: Command) -> bytes:
    return encode_record(Kind.COMMAND, circuit, bytes([command]))


def codec_record(circuit: int, codec: Codec, payload_type: int) -> bytes:
    return encode_record(Kind.CODEC, circuit, bytes([codec, payload_type]))


_KIND_OF = {int(kind): kind for kind in Kind}
_LENGTHS = {Kind.COMMAND: 1, Kind.CODEC: 2, Kind.ANSWER: 2}


def _bad_head(kind: Kind, circuit: int, length: int) -> Fault | None:
    """The first fault of the four octets before a body of a kind."""
    if circuit != 0 if kind is Kind.TRUNK else circuit not in CIRCUITS:
        return Fault.BAD_CIRCUIT
    if length != _LENGTHS.get(kind, length):
        return Fault.BAD_COMMAND
    return None


def _bad_body(kind: Kind, body: bytes) -> Fault | None:
    """The fault of a body: a command, a codec or a payload type that there is not."""
    if kind is Kind.COMMAND and not 1 <= body[0] <= 6:
        return Fault.BAD_COMMAND
    if kind is Kind.CODEC and not (1 <= body[0] <= 5 and body[1] <= 127):
        return Fault.BAD_COMMAND
    return None


class Reader:
    """Reads records from octets that come in pieces, and keeps what is no whole record yet.

    Of a record the faults are looked for in the order of e1gw-session(5). An R record has two octets."""

    def __init__(self) -> None:
        self.place = 0              # in the stream, of the record that is read next
        self._held = bytearray()
        self._at = 0                # of that record in what is held

    def push(self, octets: bytes) -> None:
        """Takes octets."""
        if self._at:
            del self._held[:self._at]
            self._at = 0
        self._held += octets

    def waiting(self) -> int:
        """How many octets are held that are no whole record yet."""
        return len(self._held) - self._at

    def take(self) -> Record | None:
        """The next record, or None where it is not all there. BadSession at a faulty one."""
        held, at = self._held, self._at
        if len(held) - at < 4:
            return None
        number, circuit, length = HEAD.unpack_from(held, at)
        kind = _KIND_OF.get(number)
        if kind is None:
            raise BadSession(Fault.BAD_KIND, self.place)
        if fault := _bad_head(kind, circuit, length):
            raise BadSession(fault, self.place)
        after = at + 4 + length
        if len(held) < after:
            return None
        body = bytes(held[at + 4:after])
        if fault := _bad_body(kind, body):
            raise BadSession(fault, self.place)
        self._at = after
        self.place += 4 + length
        return Record(kind, circuit, body)

    def whole(self) -> Iterator[Record]:
        """The whole records of what is held."""
        while (record := self.take()) is not None:
            yield record

    def end(self) -> None:
        """The stream has ended: BadSession where that is inside a record."""
        if self.waiting():
            raise BadSession(Fault.TRUNCATED, self.place)


def records(pieces: Iterable[bytes]) -> Iterator[Record]:
    """The records of octets that come in pieces. BadSession where they are no session, behind the records before the
    fault."""
    reader = Reader()
    for octets in pieces:
        reader.push(octets)
        yield from reader.whole()
    reader.end()


def records_in(octets: bytes) -> Iterator[Record]:
    """The records that octets are."""
    return records([octets])


def whole_records(octets: bytes) -> tuple[int, int]:
    """The whole records: how many octets they are, and how many octets of the trunk are in them."""
    at, trunk, unpack, kind_of_trunk = 0, 0, KIND_AND_LENGTH.unpack_from, int(Kind.TRUNK)
    size, most = HEAD.size, len(octets)
    last = most - size
    while at <= last:       # (of plain numbers: each record is looked at)
        kind, length = unpack(octets, at)
        end: int = at + size + length
        if end > most:
            break
        if kind == kind_of_trunk:
            trunk += length
        at = end
    return at, trunk


def records_for(circuit: int, octets: bytes, also: Kind | None = None) -> tuple[int, int, bytes]:
    """The same, and those of the records that concern a circuit: its own, the trunk's, and of others those of a kind.
    (Nothing that is given to another circuit changes what becomes of this one.)"""
    at, trunk, own, since, unpack, last = 0, 0, list[bytes](), 0, HEAD.unpack_from, len(octets) - HEAD.size
    while at <= last:
        kind, its, length = unpack(octets, at)
        end: int = at + HEAD.size + length
        if end > len(octets):
            break
        if not its:
            trunk += length
        elif its != circuit and kind != also:
            own.append(octets[since:at])
            since = end
        at = end
    return at, trunk, b''.join([*own, octets[since:at]])


# ---- RTP ----

_RTP = struct.Struct('>BBHII')
HELD = 32                   # datagrams: the 8 of --repeat, and some that overtake others


class BadPacket(Exception):
    """A datagram is no RTP packet, for this cause (1 to 5 of the codes of answers)."""

    def __init__(self, refusal: DatagramRefusal) -> None:
        super().__init__(refusal.label)
        self.refusal = refusal


@dataclass(frozen=True, slots=True)
class Packet:
    """An RTP packet (RFC 3550, 5.1): the fields of its header, and its payload without padding."""

    payload_type: int
    sequence: int
    timestamp: int
    ssrc: int
    payload: bytes
    marker: bool = False
    sources: tuple[int, ...] = ()
    extended: bool = False
    padding: int = 0

    def encode(self) -> bytes:
        """A datagram of this packet, without padding and extension."""
        first = 0x80 | len(self.sources)
        head = _RTP.pack(first, self.marker << 7 | self.payload_type, self.sequence, self.timestamp, self.ssrc)
        return head + struct.pack(f'>{len(self.sources)}I', *self.sources) + self.payload


def _behind_header(datagram: bytes) -> int:
    """Where the payload begins."""
    if len(datagram) < 12:
        raise BadPacket(DatagramRefusal.SHORT)
    if datagram[0] >> 6 != 2:
        raise BadPacket(DatagramRefusal.VERSION)
    at = 12 + 4 * (datagram[0] & 15)
    if len(datagram) < at:
        raise BadPacket(DatagramRefusal.SHORT_SOURCES)
    if datagram[0] & 0x10:
        if len(datagram) < at + 4:
            raise BadPacket(DatagramRefusal.SHORT_EXTENSION)
        at += 4 + 4 * int.from_bytes(datagram[at + 2:at + 4], 'big')
        if len(datagram) < at:
            raise BadPacket(DatagramRefusal.SHORT_EXTENSION)
    return at


def packet_of(datagram: bytes) -> Packet:
    """The packet that a datagram is. BadPacket where it is none."""
    at = _behind_header(datagram)
    padding = 0
    if datagram[0] & 0x20:
        padding = datagram[-1] if len(datagram) > at else 0
        if not 1 <= padding <= len(datagram) - at:
            raise BadPacket(DatagramRefusal.BAD_PADDING)
    first, second, sequence, timestamp, ssrc = _RTP.unpack_from(datagram)
    sources = struct.unpack_from(f'>{first & 15}I', datagram, 12)
    return Packet(second & 0x7F, sequence, timestamp, ssrc, datagram[at:len(datagram) - padding], bool(second & 0x80),
                  sources, bool(first & 0x10), padding)


class Repetitions:
    """The last datagrams of one circuit, HELD at least: a sender may send each of them again, as `e1gw serve --repeat`
    does. One with the SSRC, the sequence number and the octets of one before it is a repetition, and no fault."""

    def __init__(self) -> None:
        self._held, self._older = dict[bytes, bytes](), dict[bytes, bytes]()

    def is_one(self, datagram: bytes) -> bool:
        """Whether a datagram that comes now is a repetition."""
        if len(datagram) < _RTP.size or datagram[0] >> 6 != 2:
            return False
        key = datagram[2:4] + datagram[8:12]
        before = self._held.get(key) or self._older.get(key)
        if len(self._held) == HELD:
            self._held, self._older = {}, self._held
        self._held[key] = datagram
        return before == datagram
