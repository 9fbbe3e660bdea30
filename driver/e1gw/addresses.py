"""Leaves addresses and names of hosts out of texts: each is another word, the same one wherever it stands."""
from __future__ import annotations

import re
from ipaddress import ip_address
from typing import Iterable

# What may be an address, and where a configuration, or an option with a port, names a host.
PLACES = re.compile(r'(?<![\w:.-])[0-9A-Fa-f:.]*[0-9A-Fa-f][0-9A-Fa-f:.]*(?![\w-])')
NAMED = re.compile(r'\b(?:peer_)?host\s*=\s*["\']([^"\']+)["\']|(?<![\w.-])((?:[\w-]+\.)+[A-Za-z][\w-]*):\d+')


class HiddenAddresses:
    """The addresses that were found, and the words in their places. Those of this machine alone stay."""

    def __init__(self) -> None:
        self._words = dict[str, str]()

    def find_names(self, texts: Iterable[str]) -> None:
        """Hosts that texts name are hidden from now on."""
        for text in texts:
            for names in NAMED.findall(text):
                name = names[0] or names[1]
                if not _is_address(name) and name != 'localhost':
                    self._hidden(name)

    def hide_in(self, text: str) -> str:
        """A text without them."""
        for name in sorted((name for name in self._words if not _is_address(name)), key=len, reverse=True):
            text = re.sub(rf'(?<![\w.-]){re.escape(name)}(?![\w-])', self._words[name], text)
        return PLACES.sub(self._place, text)

    def _place(self, found: re.Match[str]) -> str:
        """In place of what may be an address, perhaps with a port, or the end of a sentence behind it."""
        whole = found[0]
        for address in (whole, whole.rstrip(':.'), whole.rpartition(':')[0]):
            if _is_address(address):
                its = ip_address(address)
                stays = its.is_loopback or its.is_unspecified
                return address + whole[len(address):] if stays else self._hidden(address) + whole[len(address):]
        return whole

    def _hidden(self, name: str) -> str:
        return self._words.setdefault(name, f'host{len(self._words) + 1}')


def _is_address(text: str) -> bool:
    try:
        ip_address(text)
    except ValueError:
        return False
    return True
