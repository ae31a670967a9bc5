"""What is in each package of a release."""
import base64
import hashlib
import shlex
import subprocess
import sys
import tempfile
from pathlib import Path

from .archives import File, ar, below, tar, zipped
from .checkout import ARCHIVE, PROGRAMS, WASM, Stop
from .machine import OLDEST, glibc_of, machine_of
from .manual import command_page, help_text, page as manual_page

NAME = 'scullpouch'
SUMMARY = 'Contract terms of stock futures and stock options'
MAINTAINER = 'Scullpouch maintainers <maintainers@users.noreply.scullpouch.example>'
DOCUMENTS = ('README.md', 'CHANGELOG.md', 'CONTRIBUTING.md', 'docs', 'examples', 'page/scullpouch.png', 'tests/README.md')
NEEDS_KIT = {'examples/run'}  # it proves the programs that it runs
PYTHON = 'bindings/python/scullpouch/'


class Built:
    """The files that are installed, of a checkout or of a folder with changes, each read once."""

    def __init__(self, checkout):
        self.checkout, self.version = checkout, checkout.version
        self.programs = {name: File(checkout.built(f'programs/{name}'), runs=True) for name in PROGRAMS}
        self.archive = File(checkout.built(ARCHIVE))
        self.shared = File(checkout.built(f'staticlib/{checkout.shared_object}'))

    # A file of the checkout.
    def file(self, name):
        return File(self.checkout.read(name), runs=(self.checkout.root / name).stat().st_mode & 0o100 != 0)


class Release(Built):
    """The files of which the packages are made."""

    def __init__(self, checkout, proved):
        super().__init__(checkout)
        self.time = checkout.time
        self.proved = File(proved)
        self.machine = machine_of(self.shared.data)
        self.page = File(page(checkout))


# The page, made of the module of target/.
def page(checkout):
    with tempfile.TemporaryDirectory() as folder:
        out, target = Path(folder, 'page.html'), checkout.root / 'target'
        ran = subprocess.run((sys.executable, checkout.root / 'page' / 'build', '--module', target / 'wasm', '--out', out),
                             capture_output=True, text=True)
        if ran.returncode != 0:
            raise Stop(f'page/build: {ran.stderr.strip()}')
        return out.read_bytes()


# A text with one part replaced, which stands in it once.
def replaced(text, old, new):
    if text.count(old) != 1:
        raise Stop(f'{old!r} does not stand once where a package needs it changed')
    return text.replace(old, new)


# A text of this folder with its marks replaced.
def filled(release, name, **values):
    text = release.checkout.text(f'tools/packages/{name}.in')
    for mark, value in values.items():
        text = replaced(text, f'@{mark}@', value)
    return text.encode()


# ---- Below a prefix: the tar archive and the Debian package ----

# The command; folder is where the programs are, as the shell reads it.
def command(release, folder):
    checkout = release.checkout
    version = f'{NAME} {release.version}, commit {checkout.commit}, {checkout.kit}, {checkout.verdict}'
    text = filled(release, NAME, FOLDER=folder, NAMES=' '.join(PROGRAMS), CHOICE=' | '.join(PROGRAMS), VERSION=shlex.quote(version))
    return File(text, runs=True)


# The file of pkg-config for a prefix and the folder of the libraries below it.
def pkg_config(release, prefix, folder):
    text = replaced(release.checkout.text('bindings/scullpouch.pc.in'), '@PREFIX@', prefix)
    return File(replaced(text, 'libdir=${prefix}/lib\n', f'libdir=${{prefix}}/{folder}\n').encode())


# The files of CMake, in two folders below that of the libraries.
def cmake(release, folder):
    include = '../' * (folder.count('/') + 3) + 'include'
    config, version = 'scullpouchConfig.cmake', 'scullpouchConfigVersion.cmake'
    return {config: File(filled(release, config, INCLUDE=include)),
            version: File(filled(release, version, VERSION=release.version, INTERFACE=release.version.split('.')[0]))}


# The man pages of the command and of its programs.
def manual(release):
    texts = {name: help_text(release.checkout.root, name) for name in PROGRAMS}
    pages = {f'{NAME}-{name}.1': manual_page(name, text, release.version) for name, text in texts.items()}
    pages[f'{NAME}.1'] = command_page(PROGRAMS, texts, release.version)
    return {name: File(text.encode()) for name, text in pages.items()}


# programs: where they are, as the shell reads it; prefix: where all is installed, as pkg-config reads it; folder: that of
# the libraries below it. bindings/install has the same.
def installed(release, programs, prefix, folder):
    name = release.checkout.shared_object
    return {'bin/scullpouch': command(release, programs), **below('lib/scullpouch', release.programs),
            'include/scullpouch.h': release.file('bindings/include/scullpouch.h'), f'{folder}/libscullpouch.a': release.archive,
            f'{folder}/{name}': release.shared, f'{folder}/libscullpouch.so': File(link=name),
            f'{folder}/pkgconfig/scullpouch.pc': pkg_config(release, prefix, folder),
            **below(f'{folder}/cmake/scullpouch', cmake(release, folder)), **below('share/man/man1', manual(release))}


# The command finds the programs beside itself, wherever the folder is, and so does pkg-config.
def movable(release):
    return installed(release, '"$(dirname -- "$(readlink -f -- "$0")")"/../lib/scullpouch', '${pcfiledir}/../..', 'lib')


PAGE = 'share/scullpouch/scullpouch.html'


# README, the documents and the examples, in the folders in which they name each other.
def documents(release):
    names = set(release.checkout.files(*DOCUMENTS)) - NEEDS_KIT
    return {**{name: release.file(name) for name in names}, 'PROVED.txt': release.proved}


def tar_archive(release):
    top = f'{NAME}-{release.version}'
    files = {**movable(release), PAGE: release.page, **documents(release)}
    return f'{top}-linux-{release.machine.name}.tar.gz', tar(below(top, files), release.time)


def control(release, files):
    size = sum(-(-len(file.data) // 1024) for file in files.values())
    glibc = glibc_of(release.shared.data, *(file.data for file in release.programs.values()))
    return (f'Package: {NAME}\nVersion: {release.version}\nArchitecture: {release.machine.debian}\nMaintainer: {MAINTAINER}\n'
            f'Installed-Size: {size}\nDepends: libc6 (>= 2.{glibc})\nSection: misc\nPriority: optional\n'
            f'Description: {SUMMARY}\n The command scullpouch with its programs, the library for C, a page for browsers, and documents.\n'
            f' What is proved of them is in /usr/share/doc/{NAME}/PROVED.txt.\n')


# The loader's list of libraries is renewed by dpkg's trigger.
def debian_package(release):
    files = below('./usr', {**installed(release, f'/usr/lib/{NAME}', '/usr', f'lib/{release.machine.triplet}'), PAGE: release.page,
                            **below(f'share/doc/{NAME}', documents(release))})
    sums = ''.join(f'{hashlib.md5(files[name].data).hexdigest()}  {name[2:]}\n' for name in sorted(files) if not files[name].link)
    about = {'./control': control(release, files), './md5sums': sums, './triggers': 'activate-noawait ldconfig\n'}
    first = tar({name: File(text.encode()) for name, text in about.items()}, release.time)
    members = (('debian-binary', b'2.0\n'), ('control.tar.gz', first), ('data.tar.gz', tar(files, release.time)))
    return f'{NAME}_{release.version}_{release.machine.debian}.deb', ar(members, release.time)


# ---- Python, JavaScript, Rust ----

# The module for Python, which takes the shared object beside it.
def python_module(release, shared):
    return {**{name: release.file(PYTHON + name) for name in ('__init__.py', 'py.typed')}, release.checkout.shared_object: shared}


# The lines of RECORD: each file's sum and length, and its own name without them.
def record(files, own):
    def digest(data):
        return base64.urlsafe_b64encode(hashlib.sha256(data).digest()).rstrip(b'=').decode()

    lines = [f'{name},sha256={digest(files[name].data)},{len(files[name].data)}\n' for name in sorted(files)]
    return File(''.join([*lines, f'{own},,\n']).encode())


def wheel(release):
    tag = f'py3-none-manylinux_2_{max(OLDEST, glibc_of(release.shared.data))}_{release.machine.name}'
    about = f'{NAME}-{release.version}.dist-info'
    metadata = (f'Metadata-Version: 2.1\nName: {NAME}\nVersion: {release.version}\nSummary: {SUMMARY}: the proved calls\n'
                'Requires-Python: >=3.8\n')
    files = {**below(NAME, python_module(release, release.shared)), f'{about}/PROVED.txt': release.proved,
             f'{about}/METADATA': File(metadata.encode()),
             f'{about}/WHEEL': File(f'Wheel-Version: 1.0\nGenerator: {NAME}\nRoot-Is-Purelib: false\nTag: {tag}\n'.encode())}
    files[f'{about}/RECORD'] = record(files, f'{about}/RECORD')
    return f'{NAME}-{release.version}-{tag}.whl', zipped(files, release.time)


def npm_archive(release):
    files = {name: release.file(f'bindings/js/{name}') for name in ('package.json', 'scullpouch.js', 'scullpouch.d.ts')}
    files.update({'scullpouch.wasm': File(release.checkout.built(WASM)), 'PROVED.txt': release.proved})
    return f'{NAME}-{release.version}.tgz', tar(below('package', files), release.time)


# The crate for Rust, whose build takes the archive in its folder lib.
def rust_crate(release, archive):
    names = release.checkout.files('bindings/rust')
    return {**{name[len('bindings/rust/'):]: release.file(name) for name in names}, 'lib/libscullpouch.a': archive}


def crate(release):
    files = {**rust_crate(release, release.archive), 'PROVED.txt': release.proved}
    top = f'{NAME}-{release.version}'
    return f'{top}.crate', tar(below(top, files), release.time)


PACKAGES = (tar_archive, debian_package, wheel, npm_archive, crate)
