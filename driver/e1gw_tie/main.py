"""The command line of e1gw-tie."""
from __future__ import annotations

import argparse
import asyncio
import os
import secrets
import signal
import sys
from contextlib import suppress

from e1gw_common.addresses import host_and_port
from e1gw_common.faults import Parser, checked, number, words_of_fault
from e1gw_common.line_files import EventFile
from e1gw_common.notifier import Notifier
from e1gw_common.report import Report
from e1gw_common.report import json_line
from e1gw_common.tls import add_tls, context_of, is_exposed
from e1gw_common.unix_listener import CannotListen
from e1gw_common.writers import hold_descriptors
from .coding import SIGNALLING
from .events import Ended, Started, Warned
from .pairs import Pairs, pairs_of
from .site import Site
from .status import serve_status
from .tie import Tie, TieOptions

ABOUT = '''Joins the circuits of two gateways at two sites: a seizure at one end seizes the circuit at the other, and
answers, clear-backs, clearings, blocks, faults and alarms are passed on.'''
MORE = '''One runs at each site, alongside e1gw-watch. Each of its actions is a line of JSON on standard
output. Without --tls the connection is neither secret nor authenticated. See e1gw-tie(1).'''
ANYBODY = 'any certificate of the authority is accepted, because no --peer names that of the other site'
LEAVES = 1.0                # seconds at most to restore codecs
SIGN = 0.5                  # seconds between two signs of life
MOST_MAP = 100_000          # characters at most of the map's file


def parser() -> argparse.ArgumentParser:
    place = checked(host_and_port)
    made = Parser('e1gw-tie', description=ABOUT, epilog=MORE)
    made.add_argument('--control', required=True, metavar='SOCKET', help='the control socket of e1gw-watch here')
    ways = made.add_mutually_exclusive_group(required=True)
    ways.add_argument('--listen', type=place, metavar='HOST:PORT', help='the address to listen at for the other site')
    ways.add_argument('--connect', type=place, metavar='HOST:PORT', help='the address at which the other site listens')
    made.add_argument('--map', metavar='FILE', help='a file of joined circuits, `HERE THERE` a line '
                      '[default: equal numbers]')
    add_tls(made.add_mutually_exclusive_group(), 'site')
    made.add_argument('--peer', metavar='NAME', help='with --tls, the host or address in the certificate of the other '
                      'site [default: the host of --connect; with --listen any that CA has signed]')
    made.add_argument('--hold', type=number(0, 3600, float), default=15.0, metavar='SECONDS', help='how long calls '
                      'are kept without the other end [default: 15]')
    made.add_argument('--congestion', choices=('clear-back', 'wait'), default='clear-back', help='a call that cannot '
                      'be set up is answered and cleared back, or the caller waits [default: clear-back]')
    made.add_argument('--until-answer', choices=tuple(SIGNALLING), help='calls use G.711 until they are answered, '
                      'then the configured codec; both sites need the same')
    made.add_argument('--status', metavar='SOCKET', help='a Unix socket that answers status, status json and metrics')
    made.add_argument('--http', type=place, metavar='HOST:PORT', help='serves /metrics (Prometheus), /status (JSON) '
                      'and / (a table)')
    return made


def read_map(path: str) -> Pairs:
    with open(path, encoding='utf-8', errors='replace') as file:
        try:
            return pairs_of(file.read(MOST_MAP))
        except ValueError as fault:
            raise ValueError(f'{path}: {fault}') from None


def site_of(options: argparse.Namespace, tie: Tie) -> Site:
    context = context_of(options.tls or (), options.listen is not None)
    return Site(options.listen or options.connect, options.listen is not None, context, options.peer, tie)


async def sign_of_life() -> None:
    """Tells systemd that this process does not stand still."""
    notifier = Notifier()
    notifier.notify('READY=1')
    while True:
        notifier.notify('WATCHDOG=1')
        await asyncio.sleep(SIGN)


async def work(tie: Tie, site: Site, path: str | None, http: tuple[str, int] | None) -> int:
    """Runs until a signal asks for the end; returns the status."""
    try:
        await serve_status(tie, path, http)
    except (OSError, CannotListen) as fault:
        tie.put_report(Warned(f'nobody can ask for its status: {words_of_fault(fault)}'))
    loop, ends, status = asyncio.get_running_loop(), asyncio.Event(), 0
    for each in (signal.SIGINT, signal.SIGTERM, signal.SIGHUP):
        loop.add_signal_handler(each, ends.set)
    loop.set_exception_handler(lambda _, about: site.report_refusal(str(about.get('exception') or about['message'])))
    tasks = [asyncio.create_task(each) for each in (tie.run(), site.run(), ends.wait(), sign_of_life())]
    done, _ = await asyncio.wait(tasks, return_when=asyncio.FIRST_COMPLETED)
    with suppress(TimeoutError):
        async with asyncio.timeout(LEAVES):
            await tie.restore_codecs()
    for why in filter(None, (task.exception() for task in done)):
        print(f'e1gw-tie: {words_of_fault(why)}', file=sys.stderr)
        status = 1
    tie.put_report(Ended(status))
    site.close()
    return status


def refuse(why: object) -> None:
    print(f'e1gw-tie: {why}', file=sys.stderr)
    sys.exit(2)


def main() -> None:
    hold_descriptors()
    options = parser().parse_args()
    if options.peer and not options.tls:
        parser().error('--peer needs --tls')
    if options.listen and is_exposed(options.listen[0], options):
        return refuse(f'{options.listen[0]} is not a loopback address, and without --tls whoever connects can seize '
                      'and clear circuits: give --tls, or --insecure within a tunnel')
    lines = EventFile('standard output', sys.stdout, lambda *_: None)

    def put_report(report: Report) -> None:
        lines.write_line(json_line(report))
    try:
        pairs = read_map(options.map) if options.map else None
        wanted = TieOptions(options.control, pairs, options.hold, options.congestion == 'wait', options.until_answer)
        tie = Tie(wanted, secrets.token_hex(8), put_report)
        site = tie.site = site_of(options, tie)
    except (OSError, ValueError) as fault:
        return refuse(words_of_fault(fault))
    host, port = site.place
    put_report(Started(options.control, options.hold, f'{host}:{port}', 'TLS' if options.tls else
                 'neither secret nor authenticated: for 127.0.0.1 or a tunnel'))
    if options.listen and options.tls and not options.peer:
        put_report(Warned(ANYBODY))
    # (not asyncio.run: that would wait for threads which wait for a disk)
    status = asyncio.new_event_loop().run_until_complete(work(tie, site, options.status, options.http))
    lines.close()
    os._exit(status)        # (nor is the thread of a reader that does not read waited for)
