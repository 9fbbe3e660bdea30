"""TLS between two machines, each of which shows a certificate of one authority."""
from __future__ import annotations

import argparse
import ipaddress
import ssl
from collections.abc import Sequence

from .faults import named


def add_tls(words: argparse._ActionsContainer, whose: str) -> None:
    """The options: its certificate and that of the authority, or that there is none where other machines reach it."""
    words.add_argument('--tls', nargs=3, metavar=('CERT', 'KEY', 'CA'),
                       help=f'TLS: the certificate of this {whose}, its key, and the authority of both {whose}s')
    words.add_argument('--insecure', action='store_true', help='listens without --tls at an address that other '
                       'machines reach, as in a tunnel')


def context_of(files: Sequence[str], listens: bool) -> ssl.SSLContext | None:
    """TLS 1.3 in which both ends show a certificate, by the files of this end's one, of its key and of the authority
    of both; None without files. OSError for a bad file."""
    if not files:
        return None
    for path in files:
        with open(path, 'rb'):          # TLS would not say which of the three cannot be read
            pass
    certificate, key, authority = files
    context = ssl.SSLContext(ssl.PROTOCOL_TLS_SERVER if listens else ssl.PROTOCOL_TLS_CLIENT)
    context.minimum_version = ssl.TLSVersion.TLSv1_3
    context.verify_mode = ssl.CERT_REQUIRED
    try:
        context.load_cert_chain(certificate, key)
        context.load_verify_locations(authority)
    except OSError as fault:
        raise named(fault, f'--tls {" ".join(files)}') from None
    return context


def is_loopback(host: str) -> bool:
    """Whether a host is this machine, by its text: a loopback address, or localhost."""
    try:
        return host == 'localhost' or ipaddress.ip_address(host).is_loopback
    except ValueError:
        return False


def is_exposed(host: str, asked: argparse.Namespace) -> bool:
    """Whether other machines could connect there without authentication, and this was not asked for."""
    return not (asked.tls or asked.insecure or is_loopback(host))
