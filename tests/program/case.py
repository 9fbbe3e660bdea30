"""A run of the program, and what it has to give."""
from __future__ import annotations

import os
import re
import resource
import subprocess
from contextlib import ExitStack
from dataclasses import dataclass
from enum import Enum
from pathlib import Path
from typing import AnyStr, Generic, NamedTuple, Sequence


class Stream(Enum):
    """What a standard stream is, where it is not octets."""

    FOLDER = "a folder"
    FULL = "a full device"
    CLOSED = "closed"
    GONE = "a pipe that nobody reads"


FOLDER, FULL, CLOSED, GONE = Stream.FOLDER, Stream.FULL, Stream.CLOSED, Stream.GONE


@dataclass(frozen=True, eq=False)
class Like(Generic[AnyStr]):
    """Whatever a pattern describes as a whole is equal to it."""

    pattern: AnyStr

    def __eq__(self, got: object) -> bool:
        return isinstance(got, type(self.pattern)) and bool(re.fullmatch(self.pattern, got))


@dataclass(frozen=True)
class Case:
    """A run of the program, and what it has to give. `config` is in trunk.toml."""

    name: str
    words: Sequence[str]
    given: bytes | Stream = b""
    out: bytes | Like[bytes] = b""
    err: str | Like[str] = ""
    status: int = 0
    config: bytes | None = None
    to: Stream | None = None
    silent: bool = False    # standard error is closed
    stack: int = 0          # KiB of stack that there are, if not as many as ever

    @property
    def wanted(self) -> tuple[object, object, int]:
        return self.out, self.err, self.status


class Ran(NamedTuple):
    """What a run has written and said, and its status."""

    out: bytes
    err: str
    status: int


@dataclass(frozen=True)
class Program:
    """The program, and the folder of a test, in which it runs."""

    path: str
    room: Path

    def run(self, *words: str, given: bytes = b"", config: bytes | None = None) -> Ran:
        return self.ran(Case("", words, given, config=config))

    def ran(self, case: Case) -> Ran:
        """What the run of a case gives."""
        if case.config is not None:
            (self.room / "trunk.toml").write_bytes(case.config)
        # an unknown host is soon known to be so, also where there is no network
        env = {**os.environ, "RES_OPTIONS": "timeout:1 attempts:1", "LC_ALL": "C"}

        def prepare() -> None:
            """In the process that becomes the program."""
            for fd, is_shut in enumerate((case.given is CLOSED, case.to is CLOSED, case.silent)):
                if is_shut:
                    os.close(fd)
            if case.stack:
                resource.setrlimit(resource.RLIMIT_STACK, (case.stack << 10, case.stack << 10))
        with ExitStack() as held:
            process = held.enter_context(subprocess.Popen(
                ["e1gw", *case.words], executable=self.path, cwd=self.room, env=env, stdin=_opened(case.given, held),
                stdout=_opened(case.to, held), stderr=subprocess.PIPE, preexec_fn=prepare))
            held.callback(process.kill)
            out, err = process.communicate(case.given if isinstance(case.given, bytes) else None)
        return Ran(out or b"", err.decode(errors="replace"), process.returncode)


def _opened(stream: bytes | Stream | None, held: ExitStack) -> int | None:
    """What stands for a stream: a pipe of this process, or what is opened for it; nothing for one that is closed."""
    match stream:
        case Stream.CLOSED:
            return None
        case Stream.FOLDER:
            fd = os.open("/", os.O_RDONLY)
        case Stream.FULL:
            fd = os.open("/dev/full", os.O_WRONLY)
        case Stream.GONE:
            reader, fd = os.pipe()
            os.close(reader)
        case _:
            return subprocess.PIPE
    held.callback(os.close, fd)
    return fd
