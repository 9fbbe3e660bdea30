"""Addresses as an option gives them."""
from __future__ import annotations


def host_and_port(text: str) -> tuple[str, int]:
    """HOST:PORT, with an IPv6 address in brackets. ValueError where it is none."""
    host, colon, digits = text.rpartition(':')
    if not colon or not host or not (digits.isascii() and digits.isdecimal()) or not 1 <= int(digits) <= 65535:
        raise ValueError(f'{text} is no HOST:PORT')
    host = host.removeprefix('[').removesuffix(']')
    if not host or len(host) > 253 or any(not label for label in host.removesuffix('.').split('.')):
        raise ValueError(f'{text} is no HOST:PORT')
    return host, int(digits)
