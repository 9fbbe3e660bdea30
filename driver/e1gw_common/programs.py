"""Which program carries a trunk, and its version."""
from __future__ import annotations

import os
import shutil
import subprocess

PATIENCE = 5.0              # seconds for a program to say its version

TOP = os.path.dirname(os.path.dirname(os.path.dirname(os.path.abspath(__file__))))


def program_of(asked: str | None, how: str | None = None) -> str:
    """The program that is named, or that of this repository, by scripts/build with this word (what it says goes to
    standard error), or the one on the path."""
    build = os.path.join(TOP, 'scripts', 'build')
    if asked or os.environ.get('E1GW'):
        return asked or os.environ['E1GW']
    if os.path.exists(build):
        done = subprocess.run([build, *filter(None, [how])], stdout=subprocess.PIPE, check=False, text=True)
        if done.returncode:
            raise SystemExit(done.returncode)       # it has said why
        return done.stdout.strip()
    return shutil.which('e1gw') or 'e1gw'


def path_of_program(asked: str | None) -> str:
    """The same for what carries calls, as a path: it may not be proved, which its version says."""
    program = program_of(asked, '--unproved')
    return os.path.abspath(shutil.which(program) or program)


def version_of(program: str) -> str:
    """The version that the program says, as 0.1.0; nothing if it says none."""
    try:
        done = subprocess.run([program, '--version'], stdin=subprocess.DEVNULL, stdout=subprocess.PIPE,
                              stderr=subprocess.DEVNULL, check=False, timeout=PATIENCE)
    except (OSError, subprocess.TimeoutExpired):
        return ''
    name, _, version = done.stdout.decode(errors='replace').strip().partition(' ')
    return version if name == 'e1gw' else ''
