"""What the machine of scripts/dahdi boots: Debian's kernel, DAHDI's modules built for it, and a root with systemd, udev
and Python, made in a folder that is kept. Packages are downloaded by apt-get and unpacked there; none is installed."""
from __future__ import annotations

import glob
import hashlib
import os
import re
import shutil
import subprocess
from dataclasses import dataclass
from pathlib import Path
from typing import Callable, Iterable, Iterator

from paths import TOP

PACKAGES = ('busybox-static', 'dahdi', 'dahdi-source', 'libapparmor1', 'libcap-ng0', 'libcap2', 'libip4tc2', 'libkmod2',
            'libpython3.11-minimal', 'libpython3.11-stdlib', 'libseccomp2', 'libssl3', 'libsystemd-shared',
            'libtonezone2.0', 'python3.11-minimal', 'systemd', 'udev')
ALARMS = Path(TOP, 'scripts/dahdi_alarms.c')        # our own module
MODULES = ('dahdi', 'dahdi_dynamic', 'dahdi_dynamic_loc', 'dahdi_dummy', ALARMS.stem)   # (dummy gives the interrupt)
CONFIG = ('DAHDI_BUILD_ALL=', 'HOTPLUG_FIRMWARE=yes', 'CONFIG_DAHDI=m', 'CONFIG_DAHDI_DYNAMIC=m',
          'CONFIG_DAHDI_DYNAMIC_LOC=m', 'MODULES_EXTRA=1', f'DAHDI_MODULES_EXTRA=dahdi_dummy.o {ALARMS.stem}.o')
PYTHON = 'usr/bin/python3.11'
LIBRARY = 'usr/lib/python3.11'
# What the programs and the scenes import, also later.
IMPORTED = ('compileall', 'encodings.ascii', 'encodings.idna', 'encodings.latin_1', 'e1gw_common.start',
            'e1gw_tools.config', 'e1gw.ctl', 'e1gw_tools.far_exchange', 'e1gw.holder.main', 'e1gw_testing.openr2',
            'e1gw_testing.service', 'e1gw_tools.exchange', 'e1gw.trial', 'e1gw.watcher.main', 'shlex')
COPIED = ('usr/sbin/dahdi_cfg', 'bin/busybox', PYTHON, 'bin/journalctl', 'bin/systemctl', 'bin/systemd-sysusers',
          'bin/udevadm', 'lib/systemd/systemd', 'lib/systemd/systemd-journald')
FILES = ('lib/udev/rules.d/50-udev-default.rules', 'lib/udev/rules.d/60-dahdi.rules',
         'lib/udev/rules.d/99-systemd.rules', *(f'usr/share/dahdi/dahdi_{name}' for name in (
             'handle_device', 'span_config')))
# What systemd starts at boot, and what the units of the package name.
UNITS = 'lib/systemd/system'
WANTED = ('sockets.target.wants/systemd-journald.socket', 'sockets.target.wants/systemd-journald-dev-log.socket',
          'sockets.target.wants/systemd-udevd-control.socket', 'sockets.target.wants/systemd-udevd-kernel.socket',
          'sysinit.target.wants/systemd-journald.service', 'sysinit.target.wants/systemd-sysusers.service',
          'sysinit.target.wants/systemd-udev-trigger.service', 'sysinit.target.wants/systemd-udevd.service')
LIBRARIES = 'lib/x86_64-linux-gnu', 'usr/lib/x86_64-linux-gnu', 'usr/lib/x86_64-linux-gnu/systemd'
LISTS = 'import importlib, sys; [importlib.import_module(name) for name in sys.argv[1:]]; ' \
    'print(*(each.__file__ for each in list(sys.modules.values()) if getattr(each, "__file__", None)), sep="\\n")'


class CannotBuild(Exception):
    """Why there is no machine."""


def ran(*words: str | Path, cwd: str | Path = TOP, env: dict[str, str] | None = None) -> str:
    """What a command writes; CannotBuild, with its last lines, if it fails."""
    done = subprocess.run(words, cwd=cwd, env=env, stdout=subprocess.PIPE, stderr=subprocess.STDOUT, text=True,
                          check=False)
    if done.returncode:
        raise CannotBuild(f'{" ".join(map(str, words[:4]))} ..: {" / ".join(done.stdout.splitlines()[-3:])}')
    return done.stdout


def depends(package: str) -> list[str]:
    """The packages that one depends on."""
    return re.findall(r'^\s*Depends: (\S+)', ran('apt-cache', 'depends', package), re.MULTILINE)


@dataclass(frozen=True)
class MachineFiles:
    """The folder that is kept."""

    folder: Path
    kernel: str             # its version, as 6.1.0-50-amd64

    @property
    def root(self) -> Path:
        """Where packages are unpacked."""
        return self.folder / 'root'

    @property
    def image(self) -> Path:
        """What is seen in the machine, but for the programs of this repository."""
        return self.folder / 'image'

    @property
    def boots(self) -> Path:
        return self.root / 'boot' / f'vmlinuz-{self.kernel}'

    @property
    def drivers(self) -> Path:
        return self.root / 'modules' / 'dahdi' / 'drivers' / 'dahdi'

    @property
    def headers(self) -> Path:
        return self.root / 'usr' / 'src' / f'linux-headers-{self.kernel}'


def kernel_of_now() -> str:
    """The version of Debian's kernel."""
    found = [name for name in depends('linux-headers-amd64') if name.startswith('linux-headers-')]
    if not found:
        raise CannotBuild('apt has no linux-headers-amd64: apt-get update')
    return found[0].removeprefix('linux-headers-')


def packages(kernel: str) -> list[str]:
    """All that are unpacked."""
    headers = f'linux-headers-{kernel}'
    others = [name for name in depends(headers) if name.startswith(('linux-headers', 'linux-kbuild'))]
    return sorted({*PACKAGES, f'linux-image-{kernel}', headers, *others})


def stamp_of(names: Iterable[str]) -> str:
    """What the folder is made of: another version of a package, of the module or of this file makes it again."""
    policy = ran('apt-cache', 'policy', *names)
    octets = ' '.join(re.findall(r'Candidate: (\S+)', policy)).encode()
    return hashlib.sha256(Path(__file__).read_bytes() + ALARMS.read_bytes() + octets).hexdigest()


def unpack(its: MachineFiles, names: list[str]) -> None:
    """Downloads packages, and unpacks them."""
    (debs := its.folder / 'debs').mkdir(parents=True, exist_ok=True)
    shutil.rmtree(its.root, ignore_errors=True)
    its.root.mkdir()
    ran('apt-get', 'download', '-q', *names, cwd=debs)
    for deb in sorted(debs.glob('*.deb')):
        ran('dpkg-deb', '-x', deb, its.root)
        deb.unlink()
    ran('tar', '-xf', 'usr/src/dahdi.tar.bz2', cwd=its.root)


def build_modules(its: MachineFiles) -> None:
    """Builds DAHDI's modules, and ours. (The headers name each other by their places on an installed system.)"""
    makefile = its.headers / 'Makefile'
    makefile.write_text(makefile.read_text().replace(' /usr/src/', f' {its.root}/usr/src/'))
    for name in 'scripts', 'tools':
        place = its.headers / name
        if place.is_symlink():
            target = os.readlink(place)
            if target.startswith('/'):
                place.unlink()
                place.symlink_to(f'{its.root}{target}')
    put(ALARMS, its.drivers / ALARMS.name)
    dahdi = its.root / 'modules' / 'dahdi'
    (dahdi / 'include' / 'dahdi' / 'version.h').touch()
    ran('make', '-s', '-C', dahdi, f'KVERS={its.kernel}', f'KSRC={its.headers}', 'include/dahdi/version.h')
    ran('make', '-s', f'-j{os.cpu_count()}', '-C', its.headers, f'M={its.drivers}', f'KBUILD_EXTMOD={its.drivers}',
        f'DAHDI_INCLUDE={dahdi}/include', *CONFIG, 'modules')


# ---- the image ----

def staged_python(its: MachineFiles, *words: str) -> str:
    """What the unpacked Python writes."""
    return ran(its.root / PYTHON, *words, env={'PYTHONHOME': str(its.root / 'usr'), 'PYTHONDONTWRITEBYTECODE': '1',
                                               'PYTHONPATH': f'{TOP}/driver', 'LC_ALL': 'C.UTF-8'})


def library_files(its: MachineFiles) -> list[Path]:
    """The files of Python's library that are imported."""
    listed = map(Path, staged_python(its, '-c', LISTS, *IMPORTED).split())
    return sorted(path for path in listed if path.is_relative_to(its.root))


def linked(its: MachineFiles, path: Path) -> Iterator[tuple[str, str]]:
    """The libraries of a program, as the linker of this system finds them, of the unpacked ones first, and that one:
    each with its place in the machine."""
    folders = ':'.join(f'{its.root}/{name}' for name in LIBRARIES)
    done = subprocess.run(['ldd', path], capture_output=True, text=True, check=False,
                          env={'PATH': os.environ['PATH'], 'LD_LIBRARY_PATH': folders})
    for found in re.findall(r'(/\S+) \(0x', done.stdout):
        yield found, found.removeprefix(str(its.root)).lstrip('/')


def put(source: Path | str, place: Path) -> None:
    """Copies a file into the image."""
    place.parent.mkdir(parents=True, exist_ok=True)
    shutil.copy2(source, place)


def put_libraries(its: MachineFiles, path: Path, folder: Path) -> None:
    """Copies the libraries of a program into a folder, but for those of the image."""
    for library, place in linked(its, path):
        if not any((each / place).exists() for each in (its.image, folder)):
            put(library, folder / place)


def put_units(its: MachineFiles) -> None:
    """Copies targets, and what is started at boot."""
    units = its.image / UNITS
    for path in (its.root / UNITS).glob('*.target'):
        if not path.is_symlink():
            put(path, units / path.name)
    for name in WANTED:
        wants, _, unit = name.partition('/')
        put(its.root / UNITS / unit, units / unit)
        (units / wants).mkdir(exist_ok=True)
        (units / name).symlink_to(f'../{unit}')


def make_image(its: MachineFiles) -> None:
    """Makes the image: modules, tools, Python and what it imports, compiled."""
    shutil.rmtree(its.image, ignore_errors=True)
    for folder in 'dev', 'etc/dahdi', 'proc', 'run', 'sys', 'tmp', 'var':
        (its.image / folder).mkdir(parents=True)
    for name in MODULES:
        place = its.image / 'modules' / f'{name}.ko'
        put(its.drivers / f'{name}.ko', place)
        ran('strip', '-g', place)
    for copied in COPIED + FILES:
        put(its.root / copied, its.image / copied)
    (its.image / 'lib/systemd/systemd-udevd').symlink_to('/bin/udevadm')
    put_units(its)
    for path in library_files(its):
        put(path, its.image / path.relative_to(its.root))
    staged_python(its, '-m', 'compileall', '-q', str(its.image / LIBRARY))
    for each in (its.root / copied for copied in COPIED):
        put_libraries(its, each, its.image)
    for each in map(Path, glob.glob(f'{its.image}/{LIBRARY}/lib-dynload/*.so')):
        put_libraries(its, each, its.image)


def is_kept(folder: Path) -> bool:
    """Whether the folder has a machine of the packages of now."""
    try:
        return (folder / 'stamp').read_text() == stamp_of(packages(kernel_of_now()))
    except (CannotBuild, OSError):
        return False


def machine_files(folder: Path, tell: Callable[[str], None]) -> MachineFiles:
    """The folder of a machine, made if it is not there, or of other packages."""
    its = MachineFiles(folder.resolve(), kernel_of_now())
    names = packages(its.kernel)
    stamp, marker = stamp_of(names), its.folder / 'stamp'
    if marker.exists() and marker.read_text() == stamp:
        return its
    marker.unlink(missing_ok=True)
    tell(f'kernel {its.kernel}: {len(names)} packages are downloaded')
    unpack(its, names)
    tell('the modules are built')
    build_modules(its)
    make_image(its)
    marker.write_text(stamp)
    return its
