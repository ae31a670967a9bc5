"""Tests of tools/release, its packages and the gate's mark (tools/passed): python3 -m tests.gate.release

Two clones of this commit are made, with what target/ has (or the folder of --target), and a release of each. The packages
are looked into by the standard library, and installed where there is the tool: what they then print of the stored session
and of the morning is what is stored in examples/. What has no tool is left out, and a line says so. Nothing is proved,
and nothing is fetched from a network.

.ci/run runs it last, after target/ is whole.
"""

import argparse
import base64
import csv
import hashlib
import io
import os
import re
import shutil
import subprocess
import sys
import tarfile
import tempfile
import unittest
import zipfile
from glob import glob
from importlib.util import find_spec

from tests import ROOT
from tests.second.status import status

EXAMPLES = os.path.join(ROOT, 'examples')
PARTS = ('log', 'programs', 'staticlib', 'wasm')
SECONDS = 300
TOOLS = {'dpkg-deb': 'the Debian package', 'dpkg': 'the Debian package as it is installed', 'npm': 'the archive for JavaScript',
         'node': 'the archive for JavaScript', 'cargo': 'the crate for Rust', 'cc': 'the library for C',
         'pkg-config': 'the library for C', 'cmake': 'the library for CMake', 'chroot': 'the programs beside libc6 alone',
         'dash': 'the command beside libc6 alone', 'nm': 'what the programs take of the C library'}
NO_NETWORK = {'PIP_NO_INDEX': '1', 'PIP_DISABLE_PIP_VERSION_CHECK': '1', 'CARGO_NET_OFFLINE': 'true', 'npm_config_offline': 'true',
              'npm_config_audit': 'false', 'npm_config_fund': 'false', 'npm_config_update_notifier': 'false'}
KIT = 'kit-of-the-test logic 0123'
TARGET = os.path.join(ROOT, 'target')
WORK = CLONES = RELEASES = None


def has(*tools):
    return unittest.skipUnless(all(map(shutil.which, tools)), f'no {" or no ".join(tools)}')


def read(*path):
    with open(os.path.join(*path), 'rb') as file:
        return file.read()


def write(data, *path):
    with open(os.path.join(*path), 'wb') as file:
        file.write(data)


# Without the variables by which a library of elsewhere would be found.
def environment(**more):
    mine = ('SCULLPOUCH', 'SCULLPOUCH_LIB', 'PYTHONPATH', 'PKG_CONFIG_PATH', 'LD_LIBRARY_PATH', 'SOURCE_DATE_EPOCH')
    return {**{name: value for name, value in os.environ.items() if name not in mine}, **NO_NETWORK, **more}


def ran(*command, env=None, **ways):
    return subprocess.run(command, stdout=subprocess.PIPE, stderr=subprocess.PIPE, timeout=SECONDS, env=env or environment(), **ways)


# What a command prints, which must succeed.
def run(*command, **ways):
    done = ran(*command, **ways)
    if done.returncode != 0:
        raise AssertionError(f'{command}: status {done.returncode}\n{done.stdout.decode()}{done.stderr.decode()}')
    return done.stdout


def git(clone, *words):
    return run('git', '-C', clone, '-c', 'user.name=t', '-c', 'user.email=t@t.example', *words).decode().strip()


def clone_to(name):
    clone = os.path.join(WORK, name)
    run('git', 'clone', '-q', ROOT, clone)
    for part in PARTS:
        shutil.copytree(os.path.join(TARGET, part), os.path.join(clone, 'target', part))
    return clone


def release(clone, folder, *words, **ways):
    return ran(os.path.join(clone, 'tools', 'release'), *words, folder, **ways)


# The second clone is in a folder of another depth, and its release is made under another umask, in another zone and language.
def setUpModule():
    global WORK, CLONES, RELEASES
    WORK = tempfile.mkdtemp(prefix='release-')
    CLONES = [clone_to('one'), clone_to(os.path.join('a', 'longer', 'name', 'two'))]
    RELEASES = [os.path.join(WORK, 'first'), os.path.join(WORK, 'more', 'second')]
    others = ({}, {'env': environment(TZ='Asia/Kolkata', LC_ALL='C', PYTHONHASHSEED='7'), 'umask': 0o077})
    for clone, folder, ways in zip(CLONES, RELEASES, others):
        done = release(clone, folder, '--unpassed', **ways)
        if done.returncode != 0:
            raise AssertionError(done.stderr.decode())


def tearDownModule():
    shutil.rmtree(WORK)


def version():
    return read(ROOT, 'VERSION').decode().strip()


def when():
    return int(git(CLONES[0], 'log', '-1', '--format=%ct'))


# The programs, by the headings of docs/OPERATIONS.md.
def programs():
    part = re.search(r'^## The programs\n(.*?)^## ', read(ROOT, 'docs', 'OPERATIONS.md').decode(), re.M | re.S)[1]
    return re.findall(r'^### (\w+)$', part, re.M)


# The one package whose name ends so: its path.
def package(ending):
    [path] = glob(os.path.join(RELEASES[0], '*' + ending))
    return path


def shared_object():
    return 'libscullpouch.so.' + version().split('.')[0]


# ---- The same bytes, the sums, the sheet ----

class Whole(unittest.TestCase):

    def test_names(self):
        endings = {'.tar.gz', '.deb', '.whl', '.tgz', '.crate', 'PROVED.txt', 'SHA256SUMS'}
        self.assertEqual(sorted(os.path.basename(package(ending)) for ending in endings), sorted(os.listdir(RELEASES[0])))

    def test_same_bytes(self):
        self.assertEqual(*(sorted(os.listdir(folder)) for folder in RELEASES))
        for name in os.listdir(RELEASES[0]):
            self.assertTrue(read(RELEASES[0], name) == read(RELEASES[1], name), name)

    def test_sums(self):
        lines = dict(line.split('  ')[::-1] for line in read(RELEASES[0], 'SHA256SUMS').decode().splitlines())
        self.assertEqual(lines, {name: hashlib.sha256(read(RELEASES[0], name)).hexdigest() for name in os.listdir(RELEASES[0])
                                 if name != 'SHA256SUMS'})

    # What is printed says which package it is at, and that the gate has not passed.
    def test_progress(self):
        lines = release(CLONES[0], os.path.join(WORK, 'third'), '--unpassed').stdout.decode().splitlines()
        self.assertEqual([line for line in lines if re.match(r'part: .* took \d+ s$|\d of 5 packages: |release: 7 files ', line)], lines)
        self.assertEqual(sum(line.startswith('part: ') for line in lines), 4)
        self.assertIn('the gate has not passed', lines[-1])


# The numbers of the sheet, counted here in another way.
class Sheet(unittest.TestCase):

    def setUp(self):
        self.text = read(RELEASES[0], 'PROVED.txt').decode()

    def test_commit(self):
        self.assertIn(f'commit: {git(CLONES[0], "rev-parse", "HEAD")}\n', self.text)
        self.assertIn('The gate has not passed on this commit', self.text)
        self.assertNotIn('gate has passed', self.text)

    def test_counts(self):
        names = [line.split(':')[0].split()[0] for line in read(ROOT, 'crates.txt').decode().splitlines() if ':' in line and not line.startswith('#')]
        results = {name: os.path.join(TARGET, 'log', f'{name}.res') for name in names}
        proved = [name for name, path in results.items() if os.path.exists(path) and read(path).strip() in (b'proved', b'kept')]
        functions = sum(int(line.split(b' ')[1].split(b'=')[1]) for name in proved
                        for line in read(TARGET, 'log', f'{name}.say').splitlines() if line.startswith(b'logic=proved '))
        edits = len(glob(os.path.join(CLONES[0], 'crates', '*', 'must-fail', '*.edit')))
        self.assertGreater(functions, 0)
        for line in (f'crates proved: {len(proved)} of {len(names)}\n', f'functions proved: {functions}', f'refused: 0 of {edits}\n'):
            self.assertIn(line, self.text)
        kept = sum(read(path).strip() == b'kept' for path in results.values() if os.path.exists(path))
        said = f' {kept} were proved by earlier runs of the same files on the same machine\n'
        self.assertEqual(said in self.text, kept > 0)

    # Every program has its line, and what it calls of the C library is among what is assumed of each.
    def test_assumed(self):
        for name in programs():
            line = re.search(rf'^- {name}: ((?:.*\n)(?:  .*\n)*)', self.text, re.M)[1]
            self.assertRegex(line, r'\b(libc|os)::|^no log|^proved by an earlier run')

    @has('nm')
    def test_taken(self):
        lines = [line.split() for name in programs() for line in run('nm', '-D', os.path.join(TARGET, 'programs', name)).decode().splitlines()]
        expected = sorted({words[1].split('@')[0] for words in lines if words[0] == 'U'})
        said = re.search(r'^- what the built programs take of the C library: ((?:.*\n)(?:  .*\n)*)', self.text, re.M)[1]
        self.assertEqual(said.replace(',', ' ').split(), expected)


# ---- What stops a release, and the gate's mark ----

class Stops(unittest.TestCase):

    # A clone of the first one, whose target/ has links to the files of it.
    def setUp(self):
        self.folder = tempfile.mkdtemp(dir=WORK)
        self.clone = os.path.join(self.folder, 'clone')
        self.out = os.path.join(self.folder, 'out')
        run('git', 'clone', '-q', CLONES[0], self.clone)
        shutil.copytree(os.path.join(CLONES[0], 'target'), os.path.join(self.clone, 'target'))

    def tearDown(self):
        shutil.rmtree(self.folder)

    # The release is not made, and the line that says why has these words.
    def stopped(self, words, *flags):
        done = release(self.clone, self.out, *flags)
        self.assertEqual(done.returncode, 2, done.stderr.decode())
        self.assertRegex(done.stderr.decode(), f'^release: .*{words}.*\n\\Z')
        self.assertFalse(os.path.exists(self.out))
        self.assertEqual(glob(os.path.join(self.folder, '.release-*')), [])

    # rt's log where every edit was refused but so many.
    def log(self, but=0):
        edits = sorted(glob(os.path.join(self.clone, 'crates', '*', 'must-fail', '*.edit')))
        said = ['NOT REFUSED'] * but + ['refused, as it must be: note: src/lib.rt:1:1: it is not proved'] * (len(edits) - but)
        names = [f'{path.split(os.sep)[-3]}/{os.path.basename(path)[:-len(".edit")]}' for path in edits]
        lines = [f'rt: must-fail {name}.edit: {one}\n' for name, one in zip(names, said)]
        path = os.path.join(self.folder, 'log')
        write(''.join([*lines, '453 passed, 0 failed\n']).encode(), path)
        return path

    # The gate's mark, by a kit that is none.
    def mark(self, commit=None, **ways):
        tools = os.path.join(self.folder, 'tools')
        os.makedirs(tools, exist_ok=True)
        write(f'#!/bin/sh\necho "{KIT}"\n'.encode(), tools, 'rt')
        os.chmod(os.path.join(tools, 'rt'), 0o755)
        return run(os.path.join(self.clone, 'tools', 'passed'), commit or git(self.clone, 'rev-parse', 'HEAD'), self.log(**ways),
                   env=environment(PATH=f'{tools}:{os.environ["PATH"]}'))

    # Logs of all crates, so that the sheet of a passed commit can be made of any target/.
    def complete_logs(self):
        folder = os.path.join(self.clone, 'target', 'log')
        for name in re.findall(r'^(\w+)[\w= ]*:', read(ROOT, 'crates.txt').decode(), re.M):
            if not os.path.exists(os.path.join(folder, f'{name}.res')) or read(folder, f'{name}.res').strip() not in (b'proved', b'kept'):
                write(b'proved\n', folder, f'{name}.res')
                write(b'logic=proved functions=0 sum=0123 native=nat\n', folder, f'{name}.say')

    def test_not_clean(self):
        write(b'x', self.clone, 'new.txt')
        self.stopped('the checkout is not clean', '--unpassed')

    def test_changed(self):
        write(b'9.9.9\n', self.clone, 'VERSION')
        self.stopped('the checkout is not clean', '--unpassed')

    def test_no_mark(self):
        self.stopped('the gate has not passed on commit')

    def test_mark_of_another_commit(self):
        self.mark()
        git(self.clone, 'commit', '-q', '--allow-empty', '-m', 'next')
        self.stopped('the gate has not passed on commit')

    def test_passed(self):
        self.complete_logs()
        self.mark()
        done = release(self.clone, self.out)
        self.assertEqual((done.returncode, done.stderr), (0, b''))
        text = read(self.out, 'PROVED.txt').decode()
        edits = len(glob(os.path.join(self.clone, 'crates', '*', 'must-fail', '*.edit')))
        for words in ('\nThe gate has passed.\n', f'\nkit: {KIT}\n', f'refused: {edits} of {edits}\n'):
            self.assertIn(words, text)

    def test_program_changed_after_the_gate(self):
        self.complete_logs()
        self.mark()
        write(read(self.clone, 'target', 'programs', 'query') + b'\0', self.clone, 'target', 'programs', 'query')
        self.stopped('target/programs/query is not the one that the gate has tested')

    def test_edit_not_refused(self):
        self.complete_logs()
        self.mark(but=1)
        self.stopped('does not say that the edit \\w+/\\w+ was refused')

    def test_crate_without_a_proof(self):
        self.complete_logs()
        write(b'failed\n', self.clone, 'target', 'log', 'days.res')
        self.mark()
        self.stopped('does not say that days is proved')

    def test_no_program(self):
        os.remove(os.path.join(self.clone, 'target', 'programs', 'terms'))
        self.stopped('target/programs/terms is missing', '--unpassed')

    def test_module_of_another_archive(self):
        write(read(self.clone, 'target', 'staticlib', 'libscullpouch.a') + b'\n', self.clone, 'target', 'staticlib', 'libscullpouch.a')
        self.stopped('is not that of target/staticlib/libscullpouch.a', '--unpassed')

    def test_folder_with_files(self):
        os.mkdir(self.out)
        write(b'mine', self.out, 'kept')
        done = release(self.clone, self.out, '--unpassed')
        self.assertEqual((done.returncode, os.listdir(self.out)), (2, ['kept']))

    # No mark is left of a checkout with changes, or of another commit than the one that was tested; an older one goes.
    def test_no_mark_left(self):
        path = os.path.join(self.clone, 'target', 'passed')
        self.mark()
        self.assertTrue(os.path.exists(path))
        self.assertIn(b'no mark is left', self.mark(commit='0' * 40))
        self.assertFalse(os.path.exists(path))
        write(b'x', self.clone, 'new.txt')
        self.assertIn(b'no mark is left', self.mark())
        self.assertFalse(os.path.exists(path))


# ---- What is in each archive ----

# The members of a tar archive by name.
def members(data):
    with tarfile.open(fileobj=io.BytesIO(data), mode='r:gz') as archive:
        return {member.name: (member, archive.extractfile(member).read() if member.isfile() else None) for member in archive}


# The parts of an archive of ar, by its own description.
def parts(data):
    found, at = {}, 8
    assert data[:8] == b'!<arch>\n'
    while at < len(data):
        name, size = data[at:at + 16].decode().strip(), int(data[at + 48:at + 58])
        assert data[at + 58:at + 60] == b'`\n'
        found[name], at = data[at + 60:at + 60 + size], at + 60 + size + size % 2
    return found


class Contents(unittest.TestCase):

    # Sorted names, one time, root, and modes that do not depend on the checkout.
    def plain(self, found):
        names = list(found)
        self.assertEqual(names, sorted(name for name in names if found[name][0].isdir())
                         + sorted(name for name in names if not found[name][0].isdir()))
        for name, (member, _) in found.items():
            self.assertEqual((member.mtime, member.uid, member.gid, member.uname), (when(), 0, 0, 'root'), name)
            self.assertIn(member.mode, (0o755, 0o777) if member.isdir() or member.issym() else (0o644, 0o755), name)

    # The files of target/ and of the commit, byte by byte, below a prefix.
    def below(self, found, top, libraries, documents):
        for name in programs():
            self.assertEqual(found[f'{top}/lib/scullpouch/{name}'][1], read(TARGET, 'programs', name), name)
            self.assertEqual(found[f'{top}/lib/scullpouch/{name}'][0].mode, 0o755, name)
        for name in ('libscullpouch.a', shared_object()):
            self.assertEqual(found[f'{top}/{libraries}/{name}'][1], read(TARGET, 'staticlib', name), name)
        self.assertEqual(found[f'{top}/{libraries}/libscullpouch.so'][0].linkname, shared_object())
        self.assertEqual(found[f'{top}/include/scullpouch.h'][1], read(CLONES[0], 'bindings', 'include', 'scullpouch.h'))
        self.assertIn(base64.b64encode(read(TARGET, 'wasm', 'scullpouch.wasm')), found[f'{top}/share/scullpouch/scullpouch.html'][1])
        for name in ('README.md', 'CHANGELOG.md', 'docs/CLERK.md', 'docs/OPERATIONS.md', 'docs/LIBRARY.md', 'examples/master.bin'):
            self.assertEqual(found[f'{documents}/{name}'][1], read(CLONES[0], name), name)
        self.assertEqual(found[f'{documents}/PROVED.txt'][1], read(RELEASES[0], 'PROVED.txt'))

    def test_tar(self):
        found, top = members(read(package('.tar.gz'))), f'scullpouch-{version()}'
        self.plain(found)
        self.below(found, top, 'lib', top)

    def test_debian(self):
        found = parts(read(package('.deb')))
        self.assertEqual(list(found), ['debian-binary', 'control.tar.gz', 'data.tar.gz'])
        self.assertEqual(found['debian-binary'], b'2.0\n')
        data, about = members(found['data.tar.gz']), members(found['control.tar.gz'])
        self.plain(data)
        [libraries] = {os.path.dirname(name)[len('./usr/'):] for name in data if name.endswith('/libscullpouch.a')}
        self.below(data, './usr', libraries, './usr/share/doc/scullpouch')
        sums = dict(line.split('  ')[::-1] for line in about['./md5sums'][1].decode().splitlines())
        self.assertEqual(sums, {name[2:]: hashlib.md5(data[name][1]).hexdigest() for name in data if data[name][0].isfile()})
        self.assertIn(f'\nVersion: {version()}\n', about['./control'][1].decode())
        # nothing of it has a name that another package may have
        own = re.compile(r'\./usr/(bin/scullpouch|include/scullpouch\.h|(lib/|share/|share/doc/)scullpouch/.*'
                         r'|share/man/man1/scullpouch(-[a-z]*)?\.1'
                         r'|lib/[^/]*/(pkgconfig/scullpouch\.pc|cmake/scullpouch/[^/]*|libscullpouch\.[^/]*))')
        self.assertEqual([name for name in data if not data[name][0].isdir() and not own.fullmatch(name)], [])

    def test_wheel(self):
        about = f'scullpouch-{version()}.dist-info'
        with zipfile.ZipFile(package('.whl')) as archive:
            found = {name: archive.read(name) for name in archive.namelist()}
        self.assertEqual(sorted(found), sorted([f'scullpouch/{name}' for name in ('__init__.py', 'py.typed', shared_object())]
                                               + [f'{about}/{name}' for name in ('METADATA', 'WHEEL', 'RECORD', 'PROVED.txt')]))
        self.assertEqual(found[f'scullpouch/{shared_object()}'], read(TARGET, 'staticlib', shared_object()))
        rows = {row[0]: row[1:] for row in csv.reader(found[f'{about}/RECORD'].decode().splitlines())}
        self.assertEqual(rows.keys(), found.keys())
        for name, (digest, size) in rows.items():
            if name != f'{about}/RECORD':
                sum_of = base64.urlsafe_b64encode(hashlib.sha256(found[name]).digest()).decode().rstrip('=')
                self.assertEqual((digest, size), (f'sha256={sum_of}', str(len(found[name]))), name)
        self.assertEqual(found['scullpouch/__init__.py'], read(CLONES[0], 'bindings', 'python', 'scullpouch', '__init__.py'))
        self.assertIn(re.search(r'^Tag: (.*)$', found[f'{about}/WHEEL'].decode(), re.M)[1], package('.whl'))

    def test_npm(self):
        found = members(read(package('.tgz')))
        self.plain(found)
        names = ('package.json', 'scullpouch.js', 'scullpouch.d.ts', 'scullpouch.wasm', 'PROVED.txt')
        self.assertEqual({name for name in found if found[name][0].isfile()}, {f'package/{name}' for name in names})
        self.assertEqual(found['package/scullpouch.wasm'][1], read(TARGET, 'wasm', 'scullpouch.wasm'))

    def test_crate(self):
        found, top = members(read(package('.crate'))), f'scullpouch-{version()}'
        self.plain(found)
        for name in git(CLONES[0], 'ls-files', 'bindings/rust').replace('bindings/rust/', '').split():
            self.assertEqual(found[f'{top}/{name}'][1], read(CLONES[0], 'bindings', 'rust', name), name)
        self.assertEqual(found[f'{top}/lib/libscullpouch.a'][1], read(TARGET, 'staticlib', 'libscullpouch.a'))


# ---- Installed ----

class Installed(unittest.TestCase):

    def setUp(self):
        self.folder = tempfile.mkdtemp(dir=WORK)

    def tearDown(self):
        shutil.rmtree(self.folder)

    def path(self, *names):
        return os.path.join(self.folder, *names)

    # The stored session: commands to standard input in the folder of the master file, and what `terms` prints; the
    # status of an installed `terms` is the second program's.
    def session(self, *command, **ways):
        done = ran(*command, input=read(EXAMPLES, 'session.txt'), **{'cwd': EXAMPLES, **ways})
        self.assertTrue(done.stdout == read(EXAMPLES, 'session.out'), done.stdout[:2000])
        installed = any(os.path.basename(word) == 'terms' for word in command)
        self.assertEqual(done.returncode, status('terms', done.stdout, b'') if installed else 0)

    # Whether CMake configures a project that asks for a version of what is installed below a folder.
    def configured(self, top, asked):
        lines = ('cmake_minimum_required(VERSION 3.13)', 'project(mine C)', f'find_package(scullpouch {asked} REQUIRED)',
                 f'add_executable(mine {os.path.join(ROOT, "bindings", "c", "session.c")})',
                 'target_link_libraries(mine scullpouch::scullpouch)', '')
        shutil.rmtree(self.path('built'), ignore_errors=True)
        write('\n'.join(lines).encode(), self.path('CMakeLists.txt'))
        done = ran('cmake', '-S', self.folder, '-B', self.path('built'), f'-DCMAKE_PREFIX_PATH={top}')
        return done.returncode == 0


class Tar(Installed):

    def setUp(self):
        super().setUp()
        run('tar', '-xzf', package('.tar.gz'), '-C', self.folder)
        self.top = self.path(f'scullpouch-{version()}')
        self.command = os.path.join(self.top, 'bin', 'scullpouch')

    def test_session(self):
        self.session(self.command, 'terms')

    # By a link of another folder, as in ~/bin.
    def test_link(self):
        os.symlink(self.command, self.path('link'))
        self.session(self.path('link'), 'terms')

    # The morning of the examples by the programs of the archive, in its own copy of them.
    def test_morning(self):
        found = run(os.path.join(self.top, 'examples', 'morning', 'run'), os.path.join(self.top, 'lib', 'scullpouch'))
        self.assertEqual(found, b''.join(read(EXAMPLES, 'morning', name) for name in ('delivery.csv', 'differences.csv', 'answers.txt')))

    # The words after the program's name reach it as they are: gateway takes no blank after its number.
    def test_words(self):
        blocks = str(len(read(EXAMPLES, 'master.bin')) // 512)
        file = read(EXAMPLES, 'master.bin')
        self.assertRegex(run(self.command, 'gateway', blocks, input=file), rb'^OK ')
        done = ran(self.command, 'gateway', f'{blocks} ', input=file)
        self.assertEqual((done.returncode, done.stdout), (2, b'NO 1\n'))

    # A word that is no program: status 2, a line, and nothing is read.
    def test_no_program(self):
        for words in ([], ['compare_rules'], ['../../bin/sh'], ['ls'], ['terms '], ['*'], ['--helpp']):
            with open(os.path.join(EXAMPLES, 'session.txt'), 'rb') as file:
                done = ran(self.command, *words, stdin=file)
                self.assertEqual((done.returncode, done.stdout, os.lseek(file.fileno(), 0, os.SEEK_CUR)), (2, b'', 0), words)
            self.assertIn(b'usage: scullpouch PROGRAM', done.stderr)

    def test_about(self):
        said = run(self.command, '--version').decode()
        commit, kit = git(CLONES[0], 'rev-parse', 'HEAD'), read(CLONES[0], 'bindings', 'js', 'kit').decode().strip()
        self.assertEqual(said, f'scullpouch {version()}, commit {commit}, {kit}, the gate has not passed\n')
        self.assertEqual(run(self.command, 'query', '--version').decode(), f'query ({said[:-1]})\n')
        self.assertIn(f'programs: {" ".join(programs())}\n', run(self.command, '--help').decode())

    # Each program has a man page that its help is in, and man shows it.
    @has('man', 'groff')
    def test_manual(self):
        for name in programs():
            path = os.path.join(self.top, 'share', 'man', 'man1', f'scullpouch-{name}.1')
            shown = run('man', '-l', '-P', 'cat', path, env=environment(MANWIDTH='200', LC_ALL='C')).decode()
            words = read(CLONES[0], 'docs', 'help', f'{name}.txt').decode()
            for word in set(re.findall(r'[A-Za-z]{4,}', words)) - {'usage', 'Reads', 'Writes', 'Example', 'Status'}:
                self.assertIn(word, shown, f'{name}: {word}')

    # A program in C by the lines that pkg-config says, over the archive and over the shared object.
    @has('cc', 'pkg-config')
    def test_c(self):
        known = environment(PKG_CONFIG_PATH=os.path.join(self.top, 'lib', 'pkgconfig'))
        self.assertEqual(run('pkg-config', '--modversion', 'scullpouch', env=known).decode().strip(), version())
        words = run('pkg-config', '--cflags', '--libs', 'scullpouch', env=known).decode().split()
        run('cc', os.path.join(ROOT, 'bindings', 'c', 'session.c'), *words, '-o', self.path('session'))
        self.session(self.path('session'), env=environment(LD_LIBRARY_PATH=os.path.join(self.top, 'lib')))
        archive = os.path.join(self.top, 'lib', 'libscullpouch.a')
        run('cc', os.path.join(ROOT, 'bindings', 'c', 'session.c'), words[0], archive, '-o', self.path('session'))
        self.session(self.path('session'))

    # Another interface or a later version is refused.
    @has('cc', 'cmake')
    def test_cmake(self):
        first, second, third = map(int, version().split('.'))
        for asked in (f'{first}.{second}.{third + 1}', f'{first - 1}.0', f'{first + 1}.0'):
            self.assertFalse(self.configured(self.top, asked), asked)
        for asked in (f'{first}.0', version(), ''):
            self.assertTrue(self.configured(self.top, asked), asked)
        run('cmake', '--build', self.path('built'))
        self.session(self.path('built', 'mine'))


@has('dpkg-deb')
class Debian(Installed):

    def setUp(self):
        super().setUp()
        run('dpkg-deb', '-x', package('.deb'), self.path('root'))

    # dpkg reads it, and has the files that the standard library has.
    def test_list(self):
        listed = run('dpkg-deb', '-c', package('.deb')).decode().splitlines()
        self.assertEqual([line.split()[5] for line in listed if line.split()[5].startswith('./usr/lib/scullpouch/') and line[0] == '-'],
                         [f'./usr/lib/scullpouch/{name}' for name in sorted(programs())])
        self.assertEqual({line.split()[1] for line in listed}, {'root/root'})
        self.assertEqual(run('dpkg-deb', '-f', package('.deb'), 'Package').decode(), 'scullpouch\n')

    # The files that a program is linked with, by its loader, put beside the package's own.
    def put(self, program, root='root'):
        for path in re.findall(r'(/\S+) \(0x', run('ldd', program).decode()):
            os.makedirs(os.path.dirname(self.path(root, path[1:])), exist_ok=True)
            shutil.copy(path, self.path(root, path[1:]))

    def put_examples(self, folder, root='root'):
        for name in os.listdir(folder):
            if os.path.isfile(os.path.join(folder, name)):
                shutil.copy(os.path.join(folder, name), self.path(root))

    # CMake and pkg-config find the library in Debian's folder of it.
    @has('cc', 'cmake')
    def test_cmake(self):
        self.assertTrue(self.configured(self.path('root', 'usr'), version()))
        run('cmake', '--build', self.path('built'))
        self.session(self.path('built', 'mine'))

    @has('cc', 'pkg-config')
    def test_pkg_config(self):
        [folder] = glob(self.path('root', 'usr', 'lib', '*', 'pkgconfig'))
        known = environment(PKG_CONFIG_PATH=folder, PKG_CONFIG_SYSROOT_DIR=self.path('root'), PKG_CONFIG_ALLOW_SYSTEM_CFLAGS='1',
                            PKG_CONFIG_ALLOW_SYSTEM_LIBS='1')
        words = run('pkg-config', '--cflags', '--libs', 'scullpouch', env=known).decode().split()
        run('cc', os.path.join(ROOT, 'bindings', 'c', 'session.c'), *words, '-o', self.path('session'))
        self.session(self.path('session'), env=environment(LD_LIBRARY_PATH=os.path.dirname(folder)))

    @unittest.skipUnless(shutil.which('chroot') and os.getuid() == 0, 'no chroot')
    def test_alone(self):
        for name in programs():
            self.put(os.path.join(TARGET, 'programs', name))
        files = {os.path.basename(path) for path in glob(self.path('root', 'lib*', '**'), recursive=True) if os.path.isfile(path)}
        self.assertEqual({name for name in files if not re.match(r'ld-linux|libc\.so\.6$', name)}, set())
        self.put_examples(EXAMPLES)
        self.session('chroot', self.path('root'), '/usr/lib/scullpouch/terms')
        self.put_examples(os.path.join(EXAMPLES, 'morning'))
        done = ran('chroot', self.path('root'), '/usr/lib/scullpouch/deliver')
        self.assertEqual((done.returncode, done.stdout), (status('deliver', done.stdout, done.stderr), read(EXAMPLES, 'morning', 'delivery.csv')))

    # dpkg in a system of its own where libc6 of a version is installed and nothing else: its status.
    def dpkg(self, *words, libc6=None):
        system = self.path('system', 'var', 'lib', 'dpkg')
        if libc6:
            shutil.rmtree(self.path('system'), ignore_errors=True)
            for name in ('info', 'updates', 'triggers'):
                os.makedirs(os.path.join(system, name))
            machine = run('dpkg', '--print-architecture').decode().strip()
            lines = ('Package: libc6', 'Status: install ok installed', f'Version: {libc6}', f'Architecture: {machine}', 'Maintainer: m',
                     'Description: d', '')
            write('\n'.join(lines).encode(), system, 'status')
        return ran('dpkg', f'--root={self.path("system")}', '--log=/dev/null', *words).returncode

    # It is installed beside a libc6 that its programs can run with, is as its sums say, and leaves nothing when it goes.
    @unittest.skipUnless(shutil.which('dpkg') and os.getuid() == 0, 'no dpkg')
    def test_dpkg(self):
        needed = max(int(number) for name in programs() for number in re.findall(rb'GLIBC_2\.(\d+)', read(TARGET, 'programs', name)))
        self.assertNotEqual(self.dpkg('-i', package('.deb'), libc6=f'2.{needed - 1}-1'), 0)
        self.assertEqual(self.dpkg('-i', package('.deb'), libc6=f'2.{needed}-1'), 0)
        self.assertEqual(read(self.path('system', 'usr', 'lib', 'scullpouch', 'query')), read(TARGET, 'programs', 'query'))
        self.assertEqual(self.dpkg('-V', 'scullpouch'), 0)
        if shutil.which('chroot'):
            for name in programs():
                self.put(os.path.join(TARGET, 'programs', name), 'system')
            self.put_examples(EXAMPLES, 'system')
            self.session('chroot', self.path('system'), '/usr/lib/scullpouch/terms')
        self.assertEqual(self.dpkg('-P', 'scullpouch'), 0)
        self.assertEqual(glob(self.path('system', 'usr', '**', '*scullpouch*'), recursive=True), [])

    # The command needs a shell beside, and no other program.
    @unittest.skipUnless(shutil.which('chroot') and shutil.which('dash') and os.getuid() == 0, 'no chroot or no dash')
    def test_command_alone(self):
        self.put(shutil.which('dash'))
        os.makedirs(self.path('root', 'bin'))
        shutil.copy(shutil.which('dash'), self.path('root', 'bin', 'sh'))
        self.put_examples(EXAMPLES)
        self.session('chroot', self.path('root'), '/usr/bin/scullpouch', 'terms')
        done = ran('chroot', self.path('root'), '/usr/bin/scullpouch', 'sh')
        self.assertEqual((done.returncode, done.stdout), (2, b''))


# Debian has pip for a fresh environment in a package of its own.
@unittest.skipUnless(find_spec('venv') and find_spec('ensurepip'), 'no venv or no ensurepip')
class Wheel(Installed):

    # A fresh environment, whose module finds the shared object beside itself.
    def test_installed(self):
        run(sys.executable, '-m', 'venv', self.path('venv'))
        python = self.path('venv', 'bin', 'python')
        run(python, '-m', 'pip', 'install', '-q', '--no-index', package('.whl'))
        self.assertEqual(run(python, '-c', 'import scullpouch; print(scullpouch.__version__)').decode().strip(), version())
        self.assertTrue(run(python, '-c', 'import scullpouch; print(scullpouch.__file__)').decode().startswith(self.folder))
        shutil.copy(os.path.join(ROOT, 'bindings', 'python', 'session.py'), self.folder)
        self.session(python, self.path('session.py'))
        source = "from datetime import date; import scullpouch; print(scullpouch.Master(open('master.bin', 'rb').read()).open('AXA', date(2008, 3, 20)))"
        self.assertEqual(run(python, '-c', source, cwd=EXAMPLES).decode(),
                         "<Table of 'AXA' on 2008-03-20: 12 maturities, 2008-03 to 2012-12>\n")
        run(python, '-m', 'pip', 'uninstall', '-q', '-y', 'scullpouch')
        self.assertNotEqual(ran(python, '-c', 'import scullpouch').returncode, 0)


@has('npm', 'node')
class Npm(Installed):

    def test_installed(self):
        write(b'{ "name": "mine", "version": "1.0.0", "type": "module" }', self.path('package.json'))
        run('npm', 'install', '--offline', '--cache', self.path('cache'), package('.tgz'), cwd=self.folder)
        source = "import * as s from 'scullpouch'; await s.start(); console.log(s.INTERFACE)"
        self.assertEqual(run('node', '--input-type=module', '-e', source, cwd=self.folder).decode().strip(), version().split('.')[0])
        self.session('node', os.path.join(ROOT, 'bindings', 'js', 'session.js'), self.path('node_modules', 'scullpouch'))


@has('cargo')
class Crate(Installed):

    def test_added(self):
        run('tar', '-xzf', package('.crate'), '-C', self.folder)
        known = environment(CARGO_TARGET_DIR=self.path('built'))
        run('cargo', 'new', '--quiet', '--vcs', 'none', self.path('mine'), env=known)
        run('cargo', 'add', '--quiet', '--offline', '--path', self.path(f'scullpouch-{version()}'), cwd=self.path('mine'), env=known)
        shutil.copy(os.path.join(ROOT, 'bindings', 'rust', 'examples', 'session.rs'), self.path('mine', 'src', 'main.rs'))
        run('cargo', 'build', '--quiet', '--offline', cwd=self.path('mine'), env=known)
        self.session(self.path('built', 'debug', 'mine'))


def main(arguments):
    global TARGET
    parser = argparse.ArgumentParser(description=__doc__, formatter_class=argparse.RawDescriptionHelpFormatter)
    parser.add_argument('--target', default=TARGET)
    asked, rest = parser.parse_known_args(arguments)
    TARGET = os.path.abspath(asked.target)
    missing = [part for part in PARTS if not os.path.isdir(os.path.join(TARGET, part))]
    if missing and not (shutil.which('cc') and shutil.which('node')):
        print(f'release: no cc or no node, so there is no target/{missing[0]}, and all is left out')
        return 0
    for tool, what in TOOLS.items():
        if not shutil.which(tool):
            print(f'release: no {tool}, so {what} is left out')
    if os.getuid() != 0:
        print('release: not root, so dpkg -i and the programs beside libc6 alone are left out')
    if not (find_spec('venv') and find_spec('ensurepip')):
        print('release: no venv or no ensurepip, so the wheel in a fresh environment is left out')
    unittest.main(argv=[__file__, *rest])


if __name__ == '__main__':
    sys.exit(main(sys.argv[1:]))
