"""The trunks of this machine, a line for each."""
from __future__ import annotations

import time
from typing import Callable, Iterable, Iterator, NamedTuple

from e1gw_common.fault_words import words_of_fault
from e1gw_common.lines import REMOTE, State
from e1gw_common.session import DatagramRefusal
from .control_sockets import each_trunk, read_status, trunks_here, units_here
from .deaf import words_of_missing, words_of_rows
from .metrics import block_words, state_of, wrong_rate
from .status import TrunkStatus

LATE = DatagramRefusal.LATE.label
EXAMPLE = 'example'         # of the package, and no trunk
HEAD = f'{"trunk":12} {"e1gw":8} {"up since (UTC)":17} {"calls":>5} {"lost":>8} {"late":>8}  state'


def status_of(path: str, patience: float) -> TrunkStatus:
    """The status of a trunk. OSError if the trunk does not answer, ValueError if the answer is no status."""
    return read_status(TrunkStatus, path, patience)


def each_status(trunks: Iterable[tuple[str, str]], patience: float, work: Callable[[str, TrunkStatus], None]) -> int:
    """Does a work with the status of each trunk, and prints why it cannot; returns the status."""
    return each_trunk(trunks, lambda name, path: work(name, status_of(path, patience)))


class TrunkLine(NamedTuple):
    """A trunk in a line: what its columns show."""

    name: str
    version: str = ''
    since: str = ''
    calls: str = ''
    lost: str = ''
    late: str = ''
    state: str = ''

    @classmethod
    def from_status(cls, name: str, status: TrunkStatus) -> TrunkLine:
        """That of a status."""
        rows, pair, satop = status.circuits, status.pair, status.transport.satop
        since = '' if status.fault else time.strftime('%Y-%m-%d %H:%M', time.gmtime(status.time - status.uptime))
        far = ', '.join(REMOTE[what] for what, on in status.told.remote_alarm.items() if on and status.told.trunk_up)
        ended = ', '.join(what for what, why in status.ended.items() if why is not None)
        more = (f'the other end: {far}' * bool(far), f'ended: {ended}' * bool(ended),
                'not fed' * bool(pair and not pair.fed), wrong_rate(status.clock),
                f'satop: {satop.satop}' if satop and satop.satop else '', words_of_rows(rows),
                words_of_missing(status), block_words(rows))
        return cls(name, status.version, since, str(sum(row.line.state is State.ANSWERED for row in rows)),
                   str(sum(row.packets.lost for row in rows)),
                   str(sum(row.packets.datagrams.get(LATE, 0) for row in rows)),
                   '; '.join(filter(None, (state_of(status), *more))))

    def __str__(self) -> str:
        front = f'{self.version:8} {self.since:17} {self.calls:>5} {self.lost:>8} {self.late:>8}  ' * bool(self.version)
        return f'{self.name:12} {front}{self.state}'


class TrunkHere(NamedTuple):
    """A trunk of this machine: whether it is in service, its line, and its status if it answers."""

    is_in_service: bool
    line: TrunkLine
    status: TrunkStatus | None = None


def asked_trunks(patience: float) -> Iterator[TrunkHere]:
    """Each trunk of this machine, asked within these seconds."""
    here = trunks_here()
    for name, path in here:
        try:
            status = status_of(path, patience)
            yield TrunkHere(True, TrunkLine.from_status(name, status), status)
        except (OSError, ValueError) as fault:
            yield TrunkHere(True, TrunkLine(name, state=f'does not answer: {words_of_fault(fault, path)}'))
    for name in sorted(set(units_here()) - {name for name, _ in here} - {EXAMPLE}):
        yield TrunkHere(False, TrunkLine(name, state=f'not in service: systemctl status e1gw-trunk@{name}'))


def overview(patience: float) -> int:
    """Prints a line for each trunk of this machine; returns the status."""
    failed = 0
    print(HEAD)
    for each in asked_trunks(patience):
        print(each.line, flush=True)
        failed |= each.is_in_service and not each.status
    return failed
