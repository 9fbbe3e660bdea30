"""What the page of a trunk in service shows, against its status: as it comes, and in chromium once it is live.
scripts/docs runs this."""
from __future__ import annotations

import shutil
import socket
import subprocess
import tempfile
import threading
import unittest
from collections import Counter
from html.parser import HTMLParser
from http.server import BaseHTTPRequestHandler, ThreadingHTTPServer
from typing import Any, Iterator, Mapping

from .support import SECONDS, until
from .test_trunk import aligned, call
from .world import World, config_of
from e1gw_testing.ports import free_port

BROWSER = 'chromium', '--headless', '--no-sandbox', '--disable-gpu', '--virtual-time-budget=4000', '--dump-dom'


class ShownTables(HTMLParser):
    """The rows of the bodies of a page's tables, by their ids, the states by which they are coloured, ids of red rows,
    and how many elements of each kind there are."""

    def __init__(self, text: str) -> None:
        super().__init__()
        self.rows, self.states, self.tags = dict[str, list[list[str]]](), dict[str, str](), Counter[str]()
        self.attributes, self.red = Counter[str](), list[str]()
        self._in = self._body = ''
        self.feed(text)

    def handle_starttag(self, tag: str, attrs: list[tuple[str, str | None]]) -> None:
        its = dict(attrs)
        self.tags[tag] += 1
        self.attributes.update(its.keys())
        if tag == 'tbody':
            self._body = its.get('id') or ''
            self.rows[self._body], self.states[self._body] = [], its.get('data-s') or ''
        elif self._body and tag == 'tr':
            self.rows[self._body].append([])
            self.red += [self._body] * (its.get('class') == 'bad')
        elif self._body and tag == 'td':
            self.rows[self._body][-1].append('')
        self._in = tag

    def handle_endtag(self, tag: str) -> None:
        self._in = ''
        self._body = '' if tag == 'tbody' else self._body

    def handle_data(self, data: str) -> None:
        if self._body and self._in == 'td':
            self.rows[self._body][-1][-1] += data


def wrong_tiles(shown: ShownTables, status: Mapping[str, Any]) -> Iterator[str]:
    """Which circuits of a page are not those of a status."""
    calls = {call['circuit']: call for call in status['calls']}
    for row in status['circuits']:
        number, call = str(row['circuit']), calls.get(str(row['circuit']))
        state = f'{row["state"]}, hears nothing: {row["deaf"]}' if row['deaf'] else row['state']
        wanted = [[number, state, row['role'], call is not None,
                   *((row['codec'], call['lost'] if call['lost'] != '0' else '', f'{row["jitter_ms"]:.1f}', '')
                     if call else [''] * 4)]]
        found = [[*cells[:3], ':' in cells[3], *cells[4:]] for cells in shown.rows.get(f'c{number}', [])]
        if found != wanted or shown.states[f'c{number}'] != state:
            yield f'circuit {number} is shown as {found}, and is {wanted}'


class AnsweredRequests(BaseHTTPRequestHandler):
    """Gives what a service has answered: a browser at it would wait for the end of its events."""

    answers: dict[str, bytes] = {}

    def do_GET(self) -> None:
        self.wfile.write(self.answers.get(self.path, b''))

    def log_message(self, format: str, *_: object) -> None:
        pass


class ShownPageTests(unittest.TestCase):
    """A trunk with a name of HTML, of whose circuits one is in a call that hears nothing for 2 s of the trunk, one was
    in one, and one is blocked."""

    def setUp(self) -> None:
        self.port = free_port()
        self.world = World(config_of(range(1, 7), incoming=(5,)), '--http', f'127.0.0.1:{self.port}', '--name',
                           '<b>west"&')
        self.addCleanup(self.world.__exit__)
        self.before = self.got('/')
        aligned(self.world)
        for circuit in 1, 2:
            call(self.world, circuit)
        for command in 'clear 2', 'block 5':
            self.world.ask(command)
        until(self.is_deaf)
        self.status = self.world.status()

    def is_deaf(self) -> bool:
        """Whether a call is known to hear nothing, which is so after 2 s of the trunk."""
        self.world.step(60)
        return any(each['deaf'] for each in self.world.status()['circuits'])

    def got(self, path: str) -> bytes:
        """What a browser is answered; of events the first message."""
        with socket.create_connection(('127.0.0.1', self.port), SECONDS) as line:
            line.sendall(f'GET {path} HTTP/1.1\r\nAccept: text/html\r\n\r\n'.encode())
            answer = b''
            while not (path == '/events' and answer.endswith(b'\n\n')) and (piece := line.recv(65536)):
                answer += piece
            return answer

    def compare(self, text: str) -> None:
        """Compares a page with the status."""
        shown, states = ShownTables(text), {row['state'] for row in self.status['circuits']}
        self.assertEqual(states, {'answered', 'idle', 'blocked'})
        self.assertEqual([*wrong_tiles(shown, self.status)], [])
        self.assertEqual((shown.rows['alarms'], shown.tags['b'], shown.tags['script']), ([['no alarm', '']], 0, 1))
        self.assertEqual([row[1] for row in shown.rows['calls']], ['2'])
        self.assertEqual(shown.red, ['state', 'c1'])

    def test_as_it_comes(self) -> None:
        self.compare(self.got('/').decode().partition('\r\n\r\n')[2])

    @unittest.skipUnless(shutil.which(BROWSER[0]), f'no {BROWSER[0]}')
    def test_in_a_browser(self) -> None:
        """A page that came when nothing was known yet: its script may run, and brings it up to date."""
        AnsweredRequests.answers = {'/': self.before, '/events': self.got('/events')}
        with ThreadingHTTPServer(('127.0.0.1', 0), AnsweredRequests) as server, tempfile.TemporaryDirectory() as folder:
            threading.Thread(target=server.serve_forever, daemon=True).start()
            text = subprocess.run([*BROWSER, f'--user-data-dir={folder}', f'http://127.0.0.1:{server.server_port}/'],
                                  text=True, stdout=subprocess.PIPE, stderr=subprocess.DEVNULL, check=False,
                                  timeout=SECONDS).stdout
            server.shutdown()
        self.compare(text)
