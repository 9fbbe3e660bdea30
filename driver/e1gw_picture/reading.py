"""Reads a session, its answers and what the program reports into the facts of a picture."""
from __future__ import annotations

import re
from collections import deque
from collections.abc import Callable, Iterable, Iterator

from e1gw_common.lines import SEIZURE_WAIT, TrunkConfig, read_config
from e1gw_common.session import MULTIFRAME, OCTETS_A_SECOND, Codec, Command, Kind, refusal_of, trunk_record
from e1gw_common.session_files import InputError
from .beginning import Begun
from .facts import Facts, Row
from .listening import SpeechListener
from .replay import Replay

TRUNK, DATAGRAM = int(Kind.TRUNK), int(Kind.DATAGRAM)
HEAD = 4                    # octets of a record before its body
PIECE = 256                 # octets of the trunk in a record, a millisecond, as in those of e1gw-watch
LEAST = 10 * MULTIFRAME     # octets of the trunk that are given at once: as many as are listened to
MOST = 25 * MULTIFRAME      # with the records among them they fit into pipes, and the reports of them into its socket
RECORDS = 200               # at most, that are given at once
ONES_OF_A_MULTIFRAME, ONES = b'\xff' * MULTIFRAME, re.compile(b'\xff{512,}')
TELLS = ['e1gw', 'tell', '1']       # how the reports begin


def rows_of(config: TrunkConfig, wait: int = SEIZURE_WAIT) -> dict[int, Row]:
    """The circuits of a configuration, whose seizures are released after this wait."""
    rows = {n: Row(n, str(line.role), line.codec, line.payload, line.prefill, wait=wait)
            for n, line in config.lines().items()}
    for its in config.circuit:
        row = rows[its.number]
        row.ptime = its.ptime
        if its.local_port:
            row.local, row.peer = f'{config.host}:{its.local_port}', f'{its.peer_host}:{its.peer_port or ""}'
    return rows


def facts_of(begun: Begun, last: int | None = None) -> Facts:
    """The facts known of a session before it is read."""
    session, place = begun.session, begun.place
    facts = Facts(rows_of(read_config(begun.config), begun.session.wait), last)
    facts.slips = session.slips and [(place + at, seconds) for at, seconds in session.slips]
    facts.breaks = [each.shifted(place) for each in session.breaks]
    facts.begin = None if session.begin is None else session.begin - place / OCTETS_A_SECOND
    return facts


def records_of(octets: Iterable[bytes], most: int = PIECE) -> Iterator[bytes]:
    """The records of a session, each with its head, those of the trunk in pieces of so many octets, since a change is
    reported behind the record in which it was. The last one may be cut."""
    held = b''
    for piece in octets:
        held, at = held + piece, 0
        end = len(held)
        while at + HEAD <= end and (after := at + HEAD + (held[at + 2] << 8 | held[at + 3])) <= end:
            if after - at > HEAD + most and held[at] == TRUNK:
                yield from (trunk_record(held[n:min(n + most, after)]) for n in range(at + HEAD, after, most))
            else:
                yield held[at:after]
            at = after
        held = held[at:]
    if held:
        yield held


class SessionReading:
    """A session while it is read. It begins at a place of the trunk, with the gateway as reported. `only` is the
    circuit whose packets are counted, if it is one alone: that is read in coarse pieces."""

    def __init__(self, facts: Facts, replay: Replay, program: str | None = None, place: int = 0, only: int = 0) -> None:
        self.facts, self.replay, self.only = facts, replay, only
        self.listener = SpeechListener(facts, program, only)
        self._piece, self._least = (MOST, MOST) if only else (PIECE, LEAST)
        facts.turned = [facts.rows[only]] if only else facts.turned
        self.begin = self.place = place         # of the session, of all that was answered
        self.at = self.changed = place          # of the last report, and of the last reported change
        self.answers = b''                      # those that were not looked at
        self.told: deque[str] = deque()
        self.came: deque[bytes] = deque()       # datagrams of which nothing is reported yet
        self.sent = dict.fromkeys(facts.rows, 0)    # datagrams by circuit, since it was looked at
        self.lines: dict[str, Callable[..., None]] = {
            'at': self._at, 'datagram': self._datagram, 'alarms': self._alarms, 'line': self.line_told,
            'command': self._command, 'codec': self._codec}
        self._begin()

    def _begin(self) -> None:
        """The whole state, which is reported first. Nothing is reported if the program has ended."""
        told = [line.split() for line in self.replay.take_lines()]
        if told and told[0][:3] != TELLS:
            raise InputError(f'e1gw replay tells in another way: {" ".join(told[0])}')
        self.facts.law = told[0][3] if told else self.facts.law
        alarms = [bit == '1' for words in told if words[0] == 'alarms' for bit in words[1:]]
        self.facts.begin_session(self.place, alarms, [words[1:] for words in told if words[0] == 'line'])

    def read(self, octets: Iterable[bytes], reached: Callable[[int], None] = lambda place: None) -> None:
        """Reads all, or up to a record that the program refuses. While some records are looked at, the program has the
        next ones. `reached` is called with the place."""
        before: list[bytes] = []
        try:
            for records in self._batches(octets):
                self.came += [record[HEAD:] for record in records if record[0] == DATAGRAM]
                self.replay.put_octets(b''.join(records))
                if not self._take_records(before):
                    return
                before = records
                reached(self.place)
            self.replay.put_octets(b'')
            self._take_records(before)
        finally:
            self.listener.orders.decode_queued()

    def _batches(self, octets: Iterable[bytes]) -> Iterator[list[bytes]]:
        """All records, some at a time: in a long session more than in a short one."""
        records, left = list[bytes](), self._least
        for record in records_of(octets, self._piece):
            records.append(record)
            if record[0] == TRUNK:
                left -= len(record) - HEAD
            if left <= 0 or record[0] != TRUNK and len(records) >= RECORDS:
                yield records
                records, left = [], min(max(self.facts.width, self._least), MOST)
        yield records

    def _take_records(self, records: list[bytes]) -> bool:
        """What became of records; returns whether all were answered."""
        facts, (size, whole) = self.facts, self._answered(len(records))
        octets = b''.join([record[HEAD:] for record in records if record[0] == TRUNK])[:size]
        self.place += size
        for run in ONES.finditer(octets) if ONES_OF_A_MULTIFRAME in octets else ():
            facts.alarms['here', 'ones'].set_from(self.place - size + run.start(), True)
            facts.alarms['here', 'ones'].set_from(self.place - size + run.end(), False)
        if size >= LEAST and not facts.alarms['here', 'frame'].value:
            self.listener.trunk(octets, self.place)
        self._take_reports()
        facts.turn(self.place)
        for circuit in (self.only,) if self.only else self.sent:
            facts.rows[circuit].cell.sent += self.sent[circuit]
        self.sent = dict.fromkeys(self.sent, 0)
        return whole

    def _answered(self, asked: int) -> tuple[int, bool]:
        """Reads the answers to this many records, and counts the datagrams sent before them. Returns the octets of the
        trunk among them, and whether all came."""
        held, at, size, sent = self.answers, 0, 0, self.sent
        end = len(held)
        while asked:
            if at + HEAD > end or (after := at + HEAD + (held[at + 2] << 8 | held[at + 3])) > end:
                piece = self.replay.read_answers()
                if not piece:
                    break
                held, at = held[at:] + piece, 0
                end = len(held)
                continue
            kind = held[at]
            if kind == DATAGRAM:
                sent[held[at + 1]] += 1
            else:
                asked -= 1
                if kind == TRUNK:
                    size += after - at - HEAD
            at = after
        self.answers = held[at:]
        return size, not asked

    # ---- what the program reports ----

    def _take_reports(self) -> None:
        """What is reported up to the place; the lines of records behind it wait."""
        self.told += self.replay.take_lines()
        while self.told:
            name, *words = self.told[0].split()
            if name == 'at' and self.begin + int(words[0]) > self.place:
                return
            self.told.popleft()
            if name in self.lines:
                self.lines[name](*words)

    def _at(self, place: str) -> None:
        self.at = self.begin + int(place)
        self.changed = max(self.begin, self.at - 1)         # by the last octet of a record
        self.facts.turn(self.at)

    def _datagram(self, circuit: str, code: str, *numbers: str) -> None:
        row, datagram = self.facts.rows[int(circuit)], self.came.popleft()
        row.add_datagram(self.at, int(code), datagram, *map(int, numbers))
        if code == '0':
            self.listener.add_datagram(row, self.at, datagram)

    def _alarms(self, *bits: str) -> None:
        for ((where, what), spans), bit in zip(self.facts.alarms.items(), bits):
            if where == 'here' and bit == '1' and not spans.value:
                self.facts.add_loss(what, self.changed)
            spans.set_from(self.changed, bit == '1')

    def line_told(self, circuit: str, _role: str, state: str, *rest: str) -> None:
        """A change of a line was told: its state, its bits both ways, and at the end its codec and payload type."""
        row, codec, payload = self.facts.rows[int(circuit)], rest[-2], int(rest[-1])
        if (codec, payload) != (row.codec, row.payload):
            row.codec, row.payload = codec, payload
        row.state(self.changed, state, rest[1])

    def _command(self, circuit: str, command: str, code: str) -> None:
        self.command_told(circuit, Command(int(command)).word, Kind.COMMAND, code)

    def _codec(self, circuit: str, codec: str, payload: str, code: str) -> None:
        self.command_told(circuit, f'codec {Codec(int(codec)).word(self.facts.law)} {payload}', Kind.CODEC, code)

    def command_told(self, circuit: str, words: str, kind: Kind, code: str) -> None:
        """A command was told, and whether it was done. Its changes are reported next."""
        self.changed, refusal = self.at, refusal_of(kind, int(code))
        self.facts.command(int(circuit), self.at, words, refusal.words if refusal else '')
