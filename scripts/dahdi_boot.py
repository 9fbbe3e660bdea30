"""Boots the machine of scripts/dahdi: its initial file system (cpio, as in the kernel's
Documentation/driver-api/early-userspace/buffer-format.rst), and qemu. The time in it counts instructions, one a
nanosecond, so the load of this machine is not seen there."""
from __future__ import annotations

import os
import re
import shlex
import shutil
import stat
import subprocess
import tempfile
from pathlib import Path
from typing import Iterator

from dahdi_build import PYTHON, UNITS, CannotBuild, MachineFiles, put, put_libraries, staged_python
from paths import TOP

QEMU = 'qemu-system-x86_64'
MEMORY = 640                # MiB
APPEND = 'console=ttyS0 loglevel=1 panic=-1 mitigations=off lpj=4000000 tsc=reliable quiet ' \
    'systemd.unit=scenes.service systemd.show_status=0 systemd.log_level=err'
# The first process makes the root one that systemd can leave out of sight of units, and becomes systemd.
INIT = '''#!/bin/busybox sh
/bin/busybox --install -s /bin
mkdir /new
mount -t tmpfs root /new
cp -a [!nps]* /new
mkdir /new/proc /new/sys
ln -s /bin/env /new/usr/bin/env
exec switch_root /new /lib/systemd/systemd
'''
SERVICE = '''[Unit]
After=basic.target
[Service]
Type=oneshot
Environment=PATH=/usr/sbin:/usr/bin:/sbin:/bin HOME=/ LC_ALL=C.UTF-8 PYTHONPATH=/e1gw/driver:/e1gw/scripts
WorkingDirectory=/tmp
ExecStart=/usr/bin/python3.11 -B -m dahdi_scenes {words}
StandardOutput=file:/dev/ttyS0
ExecStopPost=/bin/poweroff -f
'''
KERNEL = re.compile(r'\s*$|\[ *[0-9.]+\]')      # what the kernel says
SCENES = ('dahdi_far.py', 'dahdi_inside.py', 'dahdi_scenes.py', 'dahdi_start.py', 'dahdi_talk.py', 'paths.py')
# What the package has, and where.
PACKAGE = {
    'dist/system/e1gw-trunk@.service': f'{UNITS}/e1gw-trunk@.service',
    'dist/system/e1gw-watch@.service': f'{UNITS}/e1gw-watch@.service',
    'dist/system/e1gw-.service.d/10-e1gw.conf': f'{UNITS}/e1gw-.service.d/10-e1gw.conf',
    'dist/system/example.toml': 'etc/e1gw/example.toml', 'dist/system/dscp': 'usr/lib/e1gw/dscp',
    'dist/system/e1gw.sysusers': 'usr/lib/sysusers.d/e1gw.conf',
    'dist/system/e1gw.rules': 'usr/lib/udev/rules.d/61-e1gw.rules',
    'docs/START.md': 'e1gw/docs/START.md', 'docs/SYMPTOMS.md': 'e1gw/docs/SYMPTOMS.md'}
COMMANDS = 'e1gw-config', 'e1gw-ctl', 'e1gw-trunk', 'e1gw-watch'


def entry(name: str, mode: int, octets: bytes) -> bytes:
    """An entry of a cpio archive."""
    fields = (0, mode, 0, 0, 1, 0, len(octets), 0, 0, 0, 0, len(name) + 1, 0)
    head = b'070701' + b''.join(b'%08X' % field for field in fields) + name.encode() + b'\0'
    return head + bytes(-len(head) % 4) + octets + bytes(-len(octets) % 4)


def entries(folder: Path) -> Iterator[bytes]:
    """The entries of a folder and all below it."""
    for path in sorted(folder.rglob('*')):
        name, mode = str(path.relative_to(folder)), path.lstat().st_mode
        if stat.S_ISLNK(mode):
            yield entry(name, mode, os.readlink(path).encode())
        elif stat.S_ISDIR(mode) or stat.S_ISREG(mode):
            yield entry(name, mode, path.read_bytes() if stat.S_ISREG(mode) else b'')


def write_archive(folder: Path, file: Path) -> None:
    """Puts a folder behind what is in the file; the kernel unpacks one archive after another."""
    with open(file, 'ab') as archive:
        for each in entries(folder):
            archive.write(each)
        archive.write(entry('TRAILER!!!', 0, b''))


def put_package(its: MachineFiles, folder: Path, program: str) -> None:
    """What the package has of a trunk, and what Debian has of Python and of users."""
    for name, place in PACKAGE.items():
        put(Path(TOP, name), folder / place)
    shutil.copytree(Path(TOP, 'driver'), folder / 'usr/lib/e1gw', dirs_exist_ok=True,
                    ignore=shutil.ignore_patterns('__pycache__', 'tests', 'e1gw_testing'))
    put(program, folder / 'usr/bin/e1gw')
    for name in COMMANDS:
        text = re.sub('(?m)^sys.path.*', "sys.path[0] = '/usr/lib/e1gw'", Path(TOP, 'bin', name).read_text())
        (folder / 'usr/bin' / name).write_text(text)
        (folder / 'usr/bin' / name).chmod(0o755)
    (folder / 'usr/bin/python3').symlink_to(Path(PYTHON).name)
    for name, text in ('passwd', 'root:x:0:0::/:/bin/sh\n'), ('group', 'root:x:0:\n'), ('machine-id', f'{1:032}\n'):
        (folder / 'etc' / name).write_text(text)


def put_programs(its: MachineFiles, folder: Path, programs: dict[str, str]) -> None:
    """The Python programs and the scenes as they are now, compiled, and built programs with their libraries."""
    for name in 'bin', 'driver':
        shutil.copytree(Path(TOP, name), folder / 'e1gw' / name, ignore=shutil.ignore_patterns('__pycache__', 'tests'))
    for name in SCENES:
        put(Path(TOP, 'scripts', name), folder / 'e1gw/scripts' / name)
    put_package(its, folder, programs['e1gw'])
    for name in 'e1gw', 'usr/lib/e1gw':
        staged_python(its, '-m', 'compileall', '-q', '-s', str(folder), str(folder / name))
    for name, path in programs.items():
        put(path, folder / 'e1gw/out' / name)
        put_libraries(its, Path(path), folder)


def boot(its: MachineFiles, programs: dict[str, str], scenes: list[str], seconds: int) -> Iterator[str]:
    """Boots the machine, and yields each line that its scenes write. CannotBuild if it does not end so soon."""
    with tempfile.TemporaryDirectory() as work:
        own, ram = Path(work, 'own'), Path(work, 'ram')
        own.mkdir()
        put_programs(its, own, programs)
        (own / UNITS / 'scenes.service').write_text(SERVICE.format(words=shlex.join(scenes)))
        (own / 'init').write_text(INIT)
        (own / 'init').chmod(0o755)
        for folder in its.image, own:
            write_archive(folder, ram)
        with subprocess.Popen(
                ['timeout', str(seconds), QEMU, '-M', 'q35', '-accel', 'tcg,thread=single', '-icount',
                 'shift=0,sleep=off', '-cpu', 'max', '-smp', '1', '-m', str(MEMORY), '-nodefaults', '-no-user-config',
                 '-display', 'none', '-serial', 'stdio', '-no-reboot', '-kernel', str(its.boots), '-initrd', str(ram),
                 '-append', APPEND], stdin=subprocess.DEVNULL, stdout=subprocess.PIPE, stderr=subprocess.STDOUT,
                text=True, errors='replace') as machine:
            assert machine.stdout
            yield from (line.rstrip() for line in machine.stdout if not KERNEL.match(line))
        if machine.returncode:
            raise CannotBuild(f'{QEMU} ended with status {machine.returncode}, or not within {seconds} s')
