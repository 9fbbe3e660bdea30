"""Records: the figures are those of the manual, e1gw-session(5)."""
import re
import unittest
from dataclasses import replace

from . import support
from e1gw_common import session
from e1gw_common.session import (BadPacket, BadSession, Codec, CodecRefusal, Command, CommandRefusal, DatagramRefusal,
                                 Fault, Kind, Packet, Reader, Record)

MANUAL = support.text_of(f'{support.TOP}/dist/man/e1gw-session.5')
SEIZE = bytes.fromhex('43 01 00 01 01')


class SessionNameTests(unittest.TestCase):
    def test_numbers_are_the_manuals(self) -> None:
        """Of kinds of records, of commands, and of what refuses them; and their names there."""
        kinds = re.findall(r'^\.It ([TDCKR]) ([0-9A-F]{2}) Ta', MANUAL, re.M)
        self.assertEqual({(kind.letter, f'{kind:02X}') for kind in Kind}, {*kinds})
        commands = re.findall(r'^\.It ([1-6]) Ta (\w+) Ta (?:outgoing|incoming) Ta', MANUAL, re.M)
        self.assertEqual([(str(int(command)), command.label) for command in Command], commands)
        refusals = [(int(code), name) for code, name in re.findall(r'^\.It (\d+) \([0-9A-F]{2}\)\n(\w+)', MANUAL, re.M)]
        self.assertEqual(sorted((int(each), each.label) for family in (CommandRefusal, DatagramRefusal, CodecRefusal)
                                for each in family),
                         sorted(each for each in refusals if each[1] not in ('Done', 'Admitted')))

    def test_words(self) -> None:
        """Those that users type and read."""
        self.assertEqual([command.word for command in Command],
                         ['seize', 'clear', 'answer', 'clear-back', 'block', 'unblock'])
        self.assertEqual([(int(codec), codec.word('A')) for codec in Codec],
                         [(1, 'pcma'), (2, 'g726-16'), (3, 'g726-24'), (4, 'g726-32'), (5, 'g726-40')])
        self.assertEqual((Codec.G711.word('mu'), Codec.G711.label), ('pcmu', 'g711'))
        self.assertEqual([each.words for each in (*CommandRefusal, CodecRefusal.PAYLOAD_TYPE)],
                         ['wrong role', 'not idle', 'not seized', 'not in a call', 'not blocked',
                          'no payload type of the codec'])


class RecordTests(unittest.TestCase):
    def test_each_kind(self) -> None:
        """The octets of the manual; each of them in a piece of its own."""
        octets = bytes.fromhex('43 01 00 01 01  44 01 00 01 00  4B 01 00 02 04 08  54 00 00 00  52 01 00 02 43 02')
        reader, read = Reader(), list[Record]()
        for octet in octets:
            reader.push(bytes([octet]))
            read += reader.whole()
        reader.end()
        self.assertEqual(read, [Record(Kind.COMMAND, 1, b'\1'), Record(Kind.DATAGRAM, 1, b'\0'),
                                Record(Kind.CODEC, 1, b'\4\10'), Record(Kind.TRUNK, 0, b''),
                                Record(Kind.ANSWER, 1, b'\x43\2')])
        self.assertEqual((b''.join(record.encode() for record in read), reader.place), (octets, len(octets)))
        self.assertEqual((read[0].command, read[2].codec, read[2].payload_type, read[4].refusal),
                         (Command.SEIZE, Codec.G726_32, 8, CommandRefusal.NOT_IDLE))

    def test_faults_are_the_manuals(self) -> None:
        for fault, rows in ((Fault.BAD_KIND, '58 00 00 00, 58 1F 00 05'), (
                Fault.BAD_CIRCUIT, '54 01 00 00, 43 00 00 01 01, 43 1F 00 02, 44 00 00 00'), (
                Fault.BAD_COMMAND, '43 01 00 02, 43 01 00 01 07, 43 01 00 01 00, 4B 01 00 01 04, 4B 01 00 02 06 60, '
                '4B 01 00 02 04 80'), (
                Fault.TRUNCATED, '58, 43 01 00 01, 4B 01 00 02 06, 54 00 00 02 D5')):
            for octets in rows.split(', '):
                read = list[Record]()
                with self.subTest(octets), self.assertRaises(BadSession) as bad:
                    for record in session.records_in(SEIZE + bytes.fromhex(octets)):
                        read.append(record)
                self.assertEqual((bad.exception.fault, bad.exception.place, len(read)), (fault, 5, 1))

    def test_no_record_is_longer_than_it_can_say(self) -> None:
        self.assertEqual(len(session.trunk_record(bytes(65_535))), 65_539)
        with self.assertRaises(ValueError):
            session.trunk_record(bytes(65_536))


class RtpPacketTests(unittest.TestCase):
    """By RFC 3550, 5.1."""

    def test_packets(self) -> None:
        """One with a marker; one with a source, an extension and padding."""
        octets = bytes.fromhex('80 E0 12 34 00 00 00 A0 DE AD BE EF') + b'speech'
        packet = Packet(0x60, 0x1234, 160, 0xDEADBEEF, b'speech', True)
        self.assertEqual((session.packet_of(octets), packet.encode()), (packet, octets))
        octets = b'\xB1' + octets[1:12] + b'\0\0\0\7' + b'\xBE\xDE\0\1' + bytes(4) + b'speech' + b'\0\0\3'
        self.assertEqual(session.packet_of(octets), replace(packet, sources=(7,), extended=True, padding=3))

    def test_faults_of_a_header(self) -> None:
        """Of the first octet, and what follows the fields that are in each packet."""
        short, padding = DatagramRefusal.SHORT_EXTENSION, DatagramRefusal.BAD_PADDING
        for refusal, first, rest in (
                (DatagramRefusal.VERSION, 0x40, b''), (DatagramRefusal.SHORT_SOURCES, 0x81, bytes(3)),
                (short, 0x90, bytes(3)), (short, 0x90, b'\0\0\0\1' + bytes(3)),
                (padding, 0xA0, b''), (padding, 0xA0, b'\0'), (padding, 0xA0, b'\5\5')):
            self.refused(refusal, bytes([first]) + bytes(11) + rest)
        for octets in b'', b'\x80' + bytes(10):
            self.refused(DatagramRefusal.SHORT, octets)

    def refused(self, refusal: DatagramRefusal, octets: bytes) -> None:
        with self.subTest(octets.hex()), self.assertRaises(BadPacket) as bad:
            session.packet_of(octets)
        self.assertEqual(bad.exception.refusal, refusal)
