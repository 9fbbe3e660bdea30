"""A trunk that keeps its log: programs that are killed and started again, who has the log, and what is damaged.

e1gw(1) has --log; the specs of `log_files` have the layout of the files. What a trunk answers is compared with one
session over all that was answered."""
from __future__ import annotations

import errno
import os
import shutil
import socket
import struct
import subprocess
import zlib
from contextlib import ExitStack, suppress
from pathlib import Path
from typing import Callable

import pytest

from .case import CLOSED, Case, Program
from .octets import NOT_SEIZED, SEIZED, multiframe
from e1gw_common.session import MULTIFRAME, Kind, records_in, trunk_record

CONFIG = 'law = "{law}"\n[[circuit]]\nnumber = 1\nrole = "incoming"\nptime = {ptime}\n'
SIZES = {'records.0': 8_388_608, 'records.1': 8_388_608, 'state.0': 262_144, 'state.1': 262_144}
HEAD = 24                   # octets of the head of an area
# A line that becomes idle, and is seized; what comes then finds it in a call.
HEARD = [multiframe(NOT_SEIZED)] * 20 + [multiframe(SEIZED)] * 20
MANY = 50                   # multiframes that are sent at once
pytestmark = pytest.mark.timeout(900)   # seconds, of a program without proof on a loaded machine
DAMAGED = 'the log of the trunk in {} has no state that can be loaded\n'


def config_in(room: Path, law: str = 'A', ptime: int = 20) -> str:
    path = room / f'{law}{ptime}.toml'
    path.write_text(CONFIG.format(law=law, ptime=ptime), encoding='ascii')
    return str(path)


@pytest.fixture
def log(program: Program) -> Path:
    """An empty folder for a log."""
    path = program.room / 'log'
    path.mkdir()
    return path


class Trunk:
    """A program that serves a trunk, and the device at its other end. It is killed in the end."""

    def __init__(self, program: Program, **environment: str) -> None:
        self.device, inner = socket.socketpair()
        words = [program.path, 'trunk', '--config', config_in(program.room), '--log', str(program.room / 'log')]
        self.process = subprocess.Popen(words, stdin=inner.fileno(), stdout=inner.fileno(), stderr=subprocess.PIPE,
                                        env=os.environ | environment)
        assert self.process.stderr
        self.errors = self.process.stderr
        inner.close()

    def __enter__(self) -> 'Trunk':
        return self

    def __exit__(self, *_: object) -> None:
        self.process.kill()
        self.end()
        self.device.close()

    def answers(self, octets: bytes) -> bytes:
        """What the program sends for octets; fewer if it ends."""
        got = b''
        with suppress(BrokenPipeError, ConnectionResetError):
            self.device.sendall(octets)
            while len(got) < len(octets) and (more := self.device.recv(len(octets) - len(got))):
                got += more
        return got

    def end(self) -> tuple[int, str]:
        """The status and the error lines of a program that has ended, unless they have been read before."""
        with self.process:
            said = b'' if self.errors.closed else self.errors.read()
        return self.process.returncode, said.decode(errors='replace')


def ended(program: Program, *options: str, law: str = 'A', ptime: int = 20) -> tuple[int, str]:
    """The status and the error lines of a program whose trunk ends at once."""
    config = config_in(program.room, law, ptime)
    _, said, status = program.run('trunk', '--config', config, '--log', str(program.room / 'log'), *options)
    return status, said


def replayed(program: Program, heard: bytes) -> bytes:
    """What one session answers."""
    given = b''.join(trunk_record(heard[at:at + MULTIFRAME]) for at in range(0, len(heard), MULTIFRAME))
    ran = program.run('replay', '--config', config_in(program.room), given=given)
    return b''.join(record.body for record in records_in(ran.out) if record.kind is Kind.TRUNK)


# ---- the files of a log ----

def area(path: Path) -> tuple[int, bytes] | None:
    """The turn of an area and its octets, or None if nothing whole is there."""
    octets = path.read_bytes()
    turn, size, check, own = struct.unpack('>QIII', octets[4:HEAD])
    body = octets[HEAD:HEAD + size]
    whole = octets[:4] == b'E1GL' and own == zlib.adler32(octets[:20]) and check == zlib.adler32(body)
    return (turn, body) if whole else None


def newest(log: Path) -> int:
    """The pair that was written last."""
    turns = [each[0] if (each := area(log / f'state.{pair}')) else 0 for pair in (0, 1)]
    return turns.index(max(turns))


def overwrite(path: Path, at: int, octets: bytes) -> None:
    with open(path, 'r+b') as file:
        file.seek(at)
        file.write(octets)


def tear_append(log: Path) -> None:
    """Octets of a record were written behind the others, and their head was not."""
    path = log / f'records.{newest(log)}'
    found = area(path)
    assert found is not None
    overwrite(path, HEAD + len(found[1]), b'T\0\x02\0' + b'\xD4' * 300)


def tear_checkpoint(log: Path) -> None:
    """The head of the older state was taken away, and a part of the next one was written."""
    overwrite(log / f'state.{1 - newest(log)}', 0, bytes(HEAD) + b'E1GC' + b'\xA5' * 5000)


# ---- killed programs ----

@pytest.mark.parametrize('between', [
    pytest.param(lambda log: None, id='programs that are killed'),
    pytest.param(tear_append, id='a record half appended'),
    pytest.param(tear_checkpoint, id='a checkpoint half written')])
def test_goes_on(between: Callable[[Path], None], program: Program, log: Path) -> None:
    """Programs are killed behind 1, 7, 25 and 33 multiframes: their answers are those of one session."""
    got = b''
    for first, last in ((0, 1), (1, 7), (7, 25), (25, 33), (33, 40)):
        with Trunk(program) as trunk:
            got += b''.join(map(trunk.answers, HEARD[first:last]))
        between(log)
    assert got == replayed(program, b''.join(HEARD))
    assert {each.name: each.stat().st_size for each in log.iterdir() if each.name != 'lock'} == SIZES


def test_two_programs(program: Program, log: Path) -> None:
    """A second program is refused and names the first one, which goes on. The number of an earlier one was longer."""
    (log / 'lock').write_text('4' * 12, encoding='ascii')
    with Trunk(program) as trunk:
        trunk.answers(HEARD[0])
        assert ended(program) == (2, f'the log of the trunk in {log} is in use by process {trunk.process.pid}\n')
        assert len(trunk.answers(HEARD[0])) == MULTIFRAME


# Fails a call on the log's files, once: the Nth that writes there, with this number of errno, or half of it is written.
FAILING = r"""
#define _GNU_SOURCE
#include <dlfcn.h>
#include <errno.h>
#include <stdio.h>
#include <stdlib.h>
#include <string.h>
#include <unistd.h>

/* How many of these octets are written: all, a half, or -1 for a call that fails. */
static ssize_t written(int file, size_t len)
{
    static long calls;
    char link[32], path[4096];
    snprintf(link, sizeof link, "/proc/self/fd/%d", file);
    ssize_t known = readlink(link, path, sizeof path - 1);
    path[known < 0 ? 0 : known] = 0;
    if (!strstr(path, "/log/") || strstr(path, "/log/lock") || ++calls != atol(getenv("FAIL_AT")))
        return len;
    errno = atoi(getenv("FAIL_WITH"));
    return errno ? -1 : (ssize_t)(len + 1) / 2;
}

ssize_t write(int file, const void *octets, size_t len)
{
    ssize_t (*next)(int, const void *, size_t) = dlsym(RTLD_NEXT, "write");
    ssize_t n = written(file, len);
    return n < 0 ? n : next(file, octets, n);
}

ssize_t pwrite(int file, const void *octets, size_t len, off_t at)
{
    ssize_t (*next)(int, const void *, size_t, off_t) = dlsym(RTLD_NEXT, "pwrite");
    ssize_t n = written(file, len);
    return n < 0 ? n : next(file, octets, n, at);
}
"""


@pytest.fixture(scope='session')
def failing(tmp_path_factory: pytest.TempPathFactory) -> str:
    """FAILING, built."""
    path = str(tmp_path_factory.mktemp('failing') / 'failing.so')
    subprocess.run(['gcc', '-O1', '-shared', '-fPIC', '-x', 'c', '-', '-o', path, '-ldl'], input=FAILING.encode(),
                   check=True)
    return path


@pytest.mark.parametrize('later', [0, 500, 5_000])
@pytest.mark.parametrize('fault', [errno.ENOSPC, errno.EIO, errno.EROFS, errno.EINTR, None],
                         ids=lambda fault: errno.errorcode[fault] if fault else 'a half is written')
def test_write_that_fails(fault: int | None, later: int, failing: str, program: Program) -> None:
    """A call on the log's files fails, or writes a half. The program says so and ends behind the octets in hand, and
    the next one goes on behind all that was logged; or nothing is to be seen of it. Whoever carries the trunk so many
    multiframes later is killed, and the next one goes on, too."""
    heard, log = [*HEARD, *[multiframe(SEIZED) * MANY] * (later // MANY)], program.room / 'log'
    for at in (*range(1, 8), 20, 39) if not later else (5, 6):
        shutil.rmtree(log, ignore_errors=True)
        log.mkdir()
        ended(program)                      # (this makes the files, by thousands of writes)
        got, logged = b'', list[bytes]()
        with ExitStack() as held:
            trunk = held.enter_context(Trunk(program, LD_PRELOAD=failing, FAIL_AT=str(at), FAIL_WITH=str(fault or 0)))
            for each in heard:
                if len(answer := trunk.answers(each)) < len(each):
                    assert fault is not None, f'call {at}'
                    end = 1, f'cannot write the log of the trunk in {log}\n'
                    assert trunk.end() == end or not logged, f'call {at}'
                    logged, got = logged[:-1], got[:-MULTIFRAME]        # (what was in hand is lost)
                    trunk = held.enter_context(Trunk(program))
                    answer = trunk.answers(each)
                logged.append(each)
                got += answer
        with Trunk(program) as trunk:
            got += trunk.answers(HEARD[-1])
        assert got == replayed(program, b''.join([*logged, HEARD[-1]])), f'call {at}'


# ---- logs that are refused ----

def keep(program: Program) -> None:
    """Fills the log: it has one checkpoint and some records."""
    with Trunk(program) as trunk:
        for each in HEARD:
            trunk.answers(each)


@pytest.mark.parametrize('name, places', [
    pytest.param('state', range(HEAD), id='head of the state'),
    pytest.param('records', range(HEAD), id='head of the records'),
    pytest.param('state', range(HEAD, 97_000, 9_700), id='state'),
    pytest.param('records', range(HEAD, 20_000, 2_000), id='records')])
def test_damaged(name: str, places: range, program: Program, log: Path) -> None:
    """Each of these octets of a file of the only pair is changed: nothing is loaded."""
    keep(program)
    path = log / f'{name}.{newest(log)}'
    before = path.read_bytes()[:places.stop]
    for at in places:
        overwrite(path, at, bytes([before[at] ^ 1]))
        assert ended(program) == (2, DAMAGED.format(log)), f'octet {at}'
        overwrite(path, at, before[at:at + 1])
    assert ended(program) == (0, '')


def test_newest_state_damaged(program: Program, log: Path) -> None:
    """The older one of two pairs is loaded."""
    keep(program)
    ended(program)                          # (this writes the other pair)
    overwrite(log / f'state.{newest(log)}', HEAD + 100, b'\xA5\x5A\xA5')
    assert ended(program) == (0, '')


@pytest.mark.usefixtures('log')
def test_another_configuration(program: Program) -> None:
    """A circuit that is configured otherwise begins as new; a law that is another one is refused."""
    keep(program)
    assert ended(program, ptime=30) == (0, 'circuit 1 begins as new\n')
    status, line = ended(program, law='mu')
    assert (status, line.split()[:1]) == (2, ['state'])


def test_closed_streams(program: Program, log: Path) -> None:
    """The file of the lock takes no closed descriptor's place: nothing is read from it as the trunk, and neither octets
    nor lines are written to it."""
    words = ['trunk', '--config', config_in(program.room), '--log', str(log), '--totals']
    for case in (Case('', words, CLOSED, err='fault 5 Read\n', status=1),
                 Case('', words, HEARD[0], err='fault 6 Write\n', status=1, to=CLOSED), Case('', words, silent=True)):
        assert program.ran(case) == case.wanted
        assert (log / 'lock').read_text(encoding='ascii').strip().isdecimal()


def limited(program: Program, octets: int) -> Program:
    """A program whose files may have this number of octets, where the signal of the limit is ignored."""
    wrapper = program.room / 'limited'
    wrapper.write_text(f'#!/bin/sh\ntrap "" XFSZ\nulimit -f {octets // 512}\nexec {program.path} "$@"\n')
    wrapper.chmod(0o755)
    return Program(str(wrapper), program.room)


def test_full_disk(program: Program, log: Path) -> None:
    """The disk is full, or takes all but 512 octets of a file: the octets that are wanted are told, before anything is
    read."""
    for run in limited(program, 8_388_608 - 512), program:
        assert ended(run) == (1, f'the log of the trunk in {log} wants 17301504 octets\n')
        (log / 'records.1').unlink(missing_ok=True)
        os.symlink('/dev/full', log / 'records.1')


def test_no_folder(program: Program) -> None:
    path = program.room / 'log' / 'lock'
    assert ended(program) == (2, f'cannot open the log of the trunk: {path}: No such file or directory (os error 2)\n')
