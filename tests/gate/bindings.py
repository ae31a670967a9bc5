"""Tests of the calls for C, Rust and Python: python3 -m tests.gate.bindings

They are installed in a folder of their own by the lines of docs/LIBRARY.md, which needs rt
and a C compiler (cc); the programs of bindings/ are built over them and compared with
the second program. What has no tool on the machine (cc, c++, cargo, cmake, pkg-config,
valgrind) is left out, and a line says so.

--seed N repeats the scripts and sessions of a run; without it they are others each time.
"""

import argparse
import os
import re
import resource
import shutil
import subprocess
import sys
import tempfile
import unittest
from functools import lru_cache
from itertools import islice

from tests import ROOT
from tests.inputs import calls, sessions
from tests.inputs.runs.case import WHOLE, Chance
from tests.second import terms
from tests.second.status import status

GATE = os.path.join(ROOT, 'tests', 'gate')
BINDINGS = os.path.join(ROOT, 'bindings')
EXAMPLES = os.path.join(ROOT, 'examples')
HEADER = os.path.join('include', 'scullpouch.h')
MODULE = os.path.join('scullpouch', '__init__.py')
CRATE = (ROOT, 'crates', 'scullpouch_c', 'src', 'lib.rt')
INTERFACE = (ROOT, 'crates', 'scullpouch', 'src', 'lib.rt')
FIXED_SCRIPTS, SCRIPTS, CHECKED_SCRIPTS, SESSIONS = 10, 4, 4, 20
SECONDS = 120
STACK = 65536
PREFIX_LINE = 'prefix=$HOME/scullpouch'
WARNINGS = ('-std=c11', '-Wall', '-Wextra', '-Wpedantic', '-Werror')
SANITIZERS = ('-g', '-fsanitize=address,undefined', '-fno-sanitize-recover=all')
TOOLS = {'c++': 'the header in C++', 'cargo': 'the crate for Rust', 'pkg-config': "the programs of docs/LIBRARY.md",
         'cmake': 'the library for CMake',
         'valgrind': 'reads past the lent bytes in the library itself'}


def read(*path):
    with open(os.path.join(*path), encoding='utf-8') as file:
        return file.read()


# The three numbers of the release (tests/unit/version.py), and the shared object's name, which ends with the first.
def version():
    return read(ROOT, 'VERSION').strip()


def soname():
    return 'libscullpouch.so.' + version().split('.')[0]


# Runs a command, which must succeed: what it printed.
def run(*command, **ways):
    ran = subprocess.run(command, stdout=subprocess.PIPE, stderr=subprocess.PIPE, timeout=10 * SECONDS, **ways)
    if ran.returncode != 0:
        raise AssertionError(f'{command}: status {ran.returncode}\n{ran.stdout.decode()}{ran.stderr.decode()}')
    return ran.stdout


# Whether the C compiler has the sanitizers.
@lru_cache(maxsize=1)
def has_sanitizers():
    with tempfile.TemporaryDirectory() as folder:
        tried = subprocess.run(['cc', *SANITIZERS, '-x', 'c', '-', '-o', os.path.join(folder, 'tried')],
                               input=b'int main(void) { return 0; }\n', stderr=subprocess.DEVNULL)
    return tried.returncode == 0


# ---- The sections of docs/LIBRARY.md ----

LIBRARY = (ROOT, 'docs', 'LIBRARY.md')


def section(title='From C, Rust and Python'):
    text = read(*LIBRARY)
    start = text.index(f'## {title}\n')
    return text[start:text.index('\n## ', start)]


# The fenced parts of a language in a section, in order.
def fenced(language, *title):
    return re.findall(rf'^```{language}\n(.*?)^```$', section(*title), re.M | re.S)


# ---- What is built, once for all tests ----

class Built:
    """A folder with the installed library and the programs over it. copies: folders that stand in for parts of
    bindings/, by name."""

    def __init__(self, prefix=None, **copies):
        self.folder = tempfile.mkdtemp(prefix='bindings-')
        self.prefix = prefix or os.path.join(self.folder, 'prefix')
        self.copies = copies

    def __enter__(self):
        return self

    def __exit__(self, *_):
        shutil.rmtree(self.folder)

    def path(self, *names):
        return os.path.join(self.folder, *names)

    # A folder of bindings/, or its copy.
    def source(self, name):
        return self.copies.get(name, os.path.join(BINDINGS, name))

    @property
    def library(self):
        return os.path.join(self.prefix, 'lib', 'libscullpouch.a')

    # The environment in which the programs are built and run.
    @property
    def environment(self):
        return {**os.environ, 'SCULLPOUCH_LIB': os.path.join(self.prefix, 'lib'),
                'SCULLPOUCH': os.path.join(self.prefix, 'lib', soname()),
                'CARGO_TARGET_DIR': self.path('cargo'), 'PYTHONDONTWRITEBYTECODE': '1'}

    # The section's first lines, with this folder for the one in the reader's home.
    def install(self):
        lines = fenced('sh')[0]
        assert PREFIX_LINE in lines
        run('bash', '-euc', lines.replace(PREFIX_LINE, f'prefix={self.prefix}'), cwd=ROOT)

    # A program in C: its path.
    def c(self, name, *flags):
        out = self.path(f'{name}_{len(flags)}')
        run('cc', *WARNINGS, '-O1', *flags, f'-I{self.source("include")}', os.path.join(BINDINGS, 'c', f'{name}.c'),
            self.library, '-o', out)
        return out

    # The programs in Rust: their paths by name.
    def rust(self, *names, release=False):
        words = [*(word for name in names for word in ('--example', name)), *(['--release'] if release else [])]
        run('cargo', 'build', '--offline', '--locked', '--quiet', *words, cwd=self.source('rust'), env=self.environment)
        return {name: self.path('cargo', 'release' if release else 'debug', 'examples', name) for name in names}

    def python(self, name):
        return os.path.join(self.source('python'), f'{name}.py')


BUILT = None
SEED = None
PROGRAMS = {}  # by language: the programs calls and session


def setUpModule():
    global BUILT
    BUILT = Built()
    BUILT.install()
    PROGRAMS['C'] = {name: [BUILT.c(name)] for name in ('calls', 'session')}
    PROGRAMS['Python'] = {name: [sys.executable, BUILT.python(name)] for name in ('calls', 'session')}
    if shutil.which('cargo'):
        PROGRAMS['Rust'] = {name: [path] for name, path in BUILT.rust('calls', 'session').items()}


def tearDownModule():
    shutil.rmtree(BUILT.folder)


# What a program prints on an input in a folder; where its status is not 0, that and what it said last.
def printed(command, folder, data, **ways):
    ran = subprocess.run(command, cwd=folder, input=data, stdout=subprocess.PIPE, stderr=subprocess.PIPE,
                         timeout=SECONDS, **(ways if 'env' in ways else {'env': BUILT.environment, **ways}))
    said = ran.stderr.strip().split(b'\n')[-1]
    return ran.stdout + (b'status %d: %s\n' % (ran.returncode, said) if ran.returncode else b'')


# The first line that differs, with the line of the script that asked for it; '' where none does.
def difference(script, command, **ways):
    with tempfile.TemporaryDirectory() as folder:
        calls.put(script, folder)
        found = printed(command, folder, '\n'.join([*script.lines, '']).encode(), **ways)
    lines = found.decode(errors='replace').split('\n')
    asked = [line for line in script.lines if line.split()[0] not in calls.SILENT]
    for number, expected in enumerate([*script.answers, '']):
        other = lines[number] if number < len(lines) else 'nothing'
        if other != expected or number >= len(asked) and len(lines) > number + 1:
            line = asked[number] if number < len(asked) else 'the end'
            return f'{line!r}: the second program says {expected!r}, the program {other!r}'
    return ''


# ---- Comparisons ----

# A script that several tests ask for.
kept_script = lru_cache(maxsize=None)(calls.script_of)


# The seeds of this run's scripts.
def some_seeds(count):
    return [f'{SEED} {number}' for number in range(count)]


# Runs of every family of sessions.py whose input comes at once.
def some_sessions():
    makers = list(enumerate(islice(sessions.makers(), sessions.COUNT)))[::sessions.COUNT // SESSIONS]
    chosen = [maker(Chance(f'{SEED} {number}')) for number, maker in makers]
    return [case for case in chosen if case.feed == WHOLE]


class Same(unittest.TestCase):

    # The stored session, byte for byte as `terms` prints it.
    def test_session(self):
        commands, expected = (read(EXAMPLES, name).encode() for name in ('session.txt', 'session.out'))
        for language, programs in PROGRAMS.items():
            self.assertEqual(printed(programs['session'], EXAMPLES, commands), expected, language)

    # Sessions of other files and commands, as `terms` is asked them.
    def test_sessions(self):
        for case in some_sessions():
            with tempfile.TemporaryDirectory() as folder:
                sessions.put(case, folder)
                expected = terms.answers(terms.read_master(os.path.join(folder, 'master.bin')), case.commands)
                for language, programs in PROGRAMS.items():
                    self.assertEqual(printed(programs['session'], folder, case.commands), expected,
                                     f'{language}, {case.name}, --seed {SEED}')

    # Scripts of every call, on sound tables and others: some that are the same each time and have every refusal, and
    # others.
    def test_calls(self):
        seen = set()
        for seed in (*(f'fixed {number}' for number in range(FIXED_SCRIPTS)), *some_seeds(SCRIPTS)):
            script = kept_script(seed)
            seen |= script.seen if seed.startswith('fixed') else set()
            for language, programs in PROGRAMS.items():
                self.assertEqual(difference(script, programs['calls']), '', f'{language}, script {seed}')
        self.assertEqual(sorted(calls.WANTED - seen), [])

    # The same under the sanitizers of addresses and of undefined behaviour.
    def test_sanitizers(self):
        if not has_sanitizers():
            self.skipTest('no sanitizers')
        program, session = (BUILT.c(name, *SANITIZERS) for name in ('calls', 'session'))
        for seed in some_seeds(CHECKED_SCRIPTS):
            self.assertEqual(difference(kept_script(seed), [program]), '', f'script {seed}')
        commands, expected = (read(EXAMPLES, name).encode() for name in ('session.txt', 'session.out'))
        self.assertEqual(printed([session], EXAMPLES, commands), expected)

    # "64 KB of stack are enough for every call", and here for the program around them.
    def test_stack(self):
        def limit():
            resource.setrlimit(resource.RLIMIT_STACK, (STACK, STACK))

        for seed in some_seeds(1):
            self.assertEqual(difference(kept_script(seed), PROGRAMS['C']['calls'], env={}, preexec_fn=limit), '',
                             f'script {seed}')

    # The sanitizers do not see what the library itself reads and writes; valgrind does.
    @unittest.skipUnless(shutil.which('valgrind'), 'no valgrind')
    def test_valgrind(self):
        checked = ['valgrind', '--quiet', '--error-exitcode=9', '--leak-check=full', *PROGRAMS['C']['calls']]
        for seed in some_seeds(1):
            self.assertEqual(difference(kept_script(seed), checked), '', f'script {seed}')


# ---- Words, layouts, names ----

# The questions of docs/REFUSALS.md by number.
def questions():
    rows = re.findall(r'^\| <a id="refusal-\d+"></a>(\d+) \| (.*?) \|', read(ROOT, 'docs', 'REFUSALS.md'), re.M)
    return {int(number): question for number, question in rows}


class Words(unittest.TestCase):

    def test_questions(self):
        asked, known = range(256), questions()
        self.assertGreater(len(known), 25)
        data = ''.join(f'question {number}\n' for number in asked).encode()
        expected = ''.join(f'{known.get(number, "")}\n' for number in asked)
        for language, programs in PROGRAMS.items():
            self.assertEqual(printed(programs['calls'], ROOT, data).decode(), expected, language)

    # Each number with its question, where the crate's documents say what a refusal is.
    def test_documented(self):
        documented = read(BINDINGS, 'rust', 'src', 'refusals.rs').split('pub struct Refusal')[0]
        rows = re.findall(r'^/// \| (\d+) \| (.*) \|$', documented, re.M)
        self.assertEqual({int(number): question for number, question in rows}, questions())

    # Texts that are no decimals, and one that is; Python takes a Decimal, which reads texts by its own rule.
    def test_decimals(self):
        wrong = ('12.', '.5', '.', '+1', '1e3', '12.34000', '1,5', '0x10', '1_000', '١٢')
        data = ''.join(f'read_decimal {word}\n' for word in (*wrong, '12.5')).encode()
        for language in PROGRAMS.keys() - {'Python'}:
            self.assertEqual(printed(PROGRAMS[language]['calls'], ROOT, data).decode(), '0 0\n' * len(wrong) + '1 125000\n', language)

    # Amounts above those that every language's script can have.
    def test_amounts(self):
        data = b'amount 1 18446744073709551615 9999\namount 0 18446744073709551615 65535\n'
        for language, programs in PROGRAMS.items():
            self.assertEqual(printed(programs['calls'], ROOT, data), b'-1844674407370955.16159999\n1844674407370955.16215535\n', language)


# Structs of the crates whose name in C is another.
NAMES = {'FlatProduct': 'product', 'FlatTable': 'table', 'FlatOutcome': 'outcome', 'FlatMeasured': 'measured',
         'FlatRecord': 'record_bytes', 'VerdictReply': 'verdict', 'WrittenFile': 'written', 'Queue': 'round',
         'FlatDelivered': 'delivered', 'TextReply': 'text', 'TextLine': 'line', 'FlatReceipt': 'receipt',
         'FoundLines': 'found', 'SaidNotices': 'notices'}
NUMBERS = {'u8': 1, 'bool': 1, 'u16': 2, 'u32': 4, 'u64': 8, 'usize': 8}


def snake(name):
    return NAMES.get(name, re.sub('(?<!^)([A-Z])', r'_\1', name).lower())


# The fields, name and type, of every #[repr(C)] struct of the crates.
def structs():
    found = {}
    for folder in sorted(os.listdir(os.path.join(ROOT, 'crates'))):
        path = os.path.join(ROOT, 'crates', folder, 'src', 'lib.rt')
        text = read(path) if os.path.exists(path) else ''
        for name, body in re.findall(r'^#\[repr\(C\)\]\n(?:#\[[^\n]*\n)*pub struct (\w+) \{\n(.*?)^\}', text, re.M | re.S):
            found[name] = re.findall(r'^    pub (\w+): (.+),$', body, re.M)
    return found


# The size and the alignment of a type by C's rules.
def size_of(kind, known):
    array = re.fullmatch(r'\[(\w+); (\d+)\]', kind)
    if array:
        size, alignment = size_of(array[1], known)
        return size * int(array[2]), alignment
    if kind in NUMBERS:
        return NUMBERS[kind], NUMBERS[kind]
    size, alignment, _ = layout_of(kind, known)
    return size, alignment


# The size, the alignment and the offsets of a struct.
def layout_of(name, known):
    end, widest, offsets = 0, 1, {}
    for field, kind in known[name]:
        size, alignment = size_of(kind, known)
        offsets[field] = -(-end // alignment) * alignment
        end, widest = offsets[field] + size, max(widest, alignment)
    return -(-end // widest) * widest, widest, offsets


# The layouts that the header, the crate for Rust and the module for Python assert.
def header_layouts():
    text = read(BINDINGS, HEADER)
    layouts = {name: (int(size), {}) for name, size in re.findall(r'SCULLPOUCH_SIZE\((\w+), (\d+)\);', text)}
    for name, field, offset in re.findall(r'SCULLPOUCH_AT\((\w+), (\w+), (\d+)\);', text):
        layouts[name][1][field] = int(offset)
    return layouts


def rust_layouts():
    text = read(BINDINGS, 'rust', 'src', 'layout.rs')
    return {snake(name): (int(size), {field: int(offset) for field, offset in re.findall(r'(\w+) (\d+)', fields)})
            for name, size, fields in re.findall(r'^layout!\((\w+), (\d+), (.*?)\);', text, re.M | re.S)}


def python_layouts():
    text = read(BINDINGS, 'python', MODULE)
    rows = re.findall(r'^    _(\w+): \((\d+), dict\((.*?)\)\),$', text, re.M | re.S)
    return {snake(name): (int(size), {field: int(offset) for field, offset in re.findall(r'(\w+)=(\d+)', fields)})
            for name, size, fields in rows}


class Interface(unittest.TestCase):

    # Every struct that the crates export, with every field, in each language.
    def test_layouts(self):
        known = structs()
        expected = {snake(name): layout_of(name, known)[::2] for name in known}
        self.assertGreater(len(expected), 20)
        for layouts in (header_layouts(), rust_layouts(), python_layouts()):
            self.assertEqual(layouts, expected)

    # The functions that the crate exports are those of the header, of Rust, of Python and of the shared object.
    def test_names(self):
        exported = set(re.findall(r'^pub extern "C" fn scullpouch_(\w+)\(', read(*CRATE), re.M))
        self.assertGreater(len(exported), 20)
        header = re.findall(r'^\w+ scullpouch_(\w+)\([^{]*?\);', read(BINDINGS, HEADER), re.M)
        rust = re.findall(r'pub fn scullpouch_(\w+)\(', read(BINDINGS, 'rust', 'src', 'calls.rs'))
        signatures = read(BINDINGS, 'python', MODULE).split('_SIGNATURES = {')[1].split('\n}')[0]
        python = re.findall(r"^    '(\w+)': \(", signatures, re.M)
        for names in (header, rust, python):
            self.assertEqual(sorted(names), sorted(exported))
        self.assertEqual(self.symbols('--defined-only'), {f'scullpouch_{name}' for name in exported})

    # Names of the shared object.
    def symbols(self, which):
        lines = run('nm', '--dynamic', which, BUILT.environment['SCULLPOUCH']).decode().splitlines()
        return {line.split()[-1].split('@')[0] for line in lines}

    # No call keeps or allocates anything: the library calls nothing that could, and has no data of its own.
    def test_nothing_kept(self):
        self.assertLessEqual(self.symbols('--undefined-only'), {
            'memcpy', 'memset', 'memmove', 'memcmp',
            # what every shared object has from its linker
            '__cxa_finalize', '__gmon_start__', '_ITM_deregisterTMCloneTable', '_ITM_registerTMCloneTable'})
        _, data, bss, *_ = map(int, re.findall(r'\d+', run('size', '-t', BUILT.library).decode().splitlines()[-1]))
        self.assertEqual((data, bss), (0, 0))

    # The numbers of the release, wherever they stand.
    def test_versions(self):
        for name in ('Cargo.toml', 'Cargo.lock'):
            self.assertIn(f'name = "scullpouch"\nversion = "{version()}"\n', read(BINDINGS, 'rust', name))
        major = version().split('.')[0]
        self.assertIn(f'#define SCULLPOUCH_INTERFACE {major} ', read(BINDINGS, HEADER))
        self.assertIn(f'\nINTERFACE = {major}\n', read(BINDINGS, 'python', MODULE))
        self.assertIn(f'soname,{soname()} ', read(BINDINGS, 'install'))
        self.assertIn(f'result ≡ {major} }}\n{{\n    {major}\n}}', read(*INTERFACE).split('scullpouch_interface')[1])
        self.assertIn(f'the contract has the number, {major};', read(ROOT, 'docs', 'READING.md'))
        for text in (section(), *(read(BINDINGS, *path) for path in (
                ('README.md',), ('install',), ('python', MODULE)))):
            self.assertEqual({name for name in re.findall(r'libscullpouch\.so\.\w+', text)}, {soname()})

    # The module is installed with the file that says that it has types.
    def test_types(self):
        for name in ('__init__.py', 'py.typed'):
            self.assertTrue(os.path.isfile(os.path.join(BUILT.prefix, 'share', 'scullpouch', 'python', 'scullpouch', name)))

    # The command, its programs and what it says of itself, as a package has them.
    def test_command(self):
        command = os.path.join(BUILT.prefix, 'bin', 'scullpouch')
        commands, expected = (read(EXAMPLES, name).encode() for name in ('session.txt', 'session.out'))
        ran = subprocess.run([command, 'terms'], cwd=EXAMPLES, input=commands, capture_output=True, timeout=SECONDS)
        self.assertEqual((ran.returncode, ran.stdout), (status('terms', expected, b''), expected))
        self.assertTrue(run(command, '--version').decode().startswith(f'scullpouch {version()}, commit '))
        part = re.search(r'^## The programs\n(.*?)^## ', read(ROOT, 'docs', 'OPERATIONS.md'), re.M | re.S)[1]
        self.assertEqual(sorted(os.listdir(os.path.join(BUILT.prefix, 'lib', 'scullpouch'))),
                         sorted(re.findall(r'^### (\w+)$', part, re.M)))

    # Where all is proved and built, bindings/install says one line; the rt of this test proves and builds nothing.
    def test_second_run(self):
        with tempfile.TemporaryDirectory() as folder:
            with open(os.path.join(folder, 'rt'), 'w', encoding='utf-8') as out:
                out.write(f"#!/bin/sh\n[ \"$1\" = version ] && exec '{shutil.which('rt')}' version\nexit 9\n")
            os.chmod(os.path.join(folder, 'rt'), 0o755)
            environment = {**os.environ, 'PATH': folder + os.pathsep + os.environ['PATH']}
            for _ in range(2):
                said = run(os.path.join(BINDINGS, 'install'), os.path.join(folder, 'prefix'), env=environment).decode()
                self.assertEqual(said, f'bindings: installed in {folder}/prefix\n')
            for name in (os.path.join('lib', 'libscullpouch.a'), os.path.join('lib', 'scullpouch', 'query')):
                with open(os.path.join(folder, 'prefix', name), 'rb') as one, open(os.path.join(BUILT.prefix, name), 'rb') as other:
                    self.assertEqual(one.read(), other.read(), name)

    # The module finds the shared object beside itself, with no variable that names one.
    def test_beside(self):
        mine = ('SCULLPOUCH', 'LD_LIBRARY_PATH', 'PYTHONPATH')
        environment = {name: value for name, value in os.environ.items() if name not in mine}
        environment.update(PYTHONPATH=os.path.join(BUILT.prefix, 'share', 'scullpouch', 'python'), PYTHONDONTWRITEBYTECODE='1')
        said = run(sys.executable, '-c', 'import scullpouch; print(scullpouch.__version__)', env=environment, cwd=BUILT.folder)
        self.assertEqual(said.decode().strip(), version())

    # A project of CMake finds the library, of this interface and not of a later version.
    @unittest.skipUnless(shutil.which('cmake'), 'no cmake')
    def test_cmake(self):
        lines = ('cmake_minimum_required(VERSION 3.13)', 'project(mine C)', 'find_package(scullpouch ${ASKED} REQUIRED)',
                 f'add_executable(mine {os.path.join(BINDINGS, "c", "session.c")})',
                 'target_link_libraries(mine scullpouch::scullpouch)', '')
        os.makedirs(BUILT.path('cmake'))
        with open(BUILT.path('cmake', 'CMakeLists.txt'), 'w', encoding='utf-8') as out:
            out.write('\n'.join(lines))
        words = ('cmake', '-S', BUILT.path('cmake'), f'-DCMAKE_PREFIX_PATH={BUILT.prefix}', '-B')
        run(*words, BUILT.path('cmake', 'built'), f'-DASKED={version()}')
        run('cmake', '--build', BUILT.path('cmake', 'built'))
        commands, expected = (read(EXAMPLES, name).encode() for name in ('session.txt', 'session.out'))
        self.assertEqual(printed([BUILT.path('cmake', 'built', 'mine')], EXAMPLES, commands), expected)
        first, second, third = map(int, version().split('.'))
        for asked in (f'{first}.{second}.{third + 1}', f'{first + 1}.0', f'{first - 1}.0'):
            with self.assertRaises(AssertionError):
                run(*words, BUILT.path('cmake', asked), f'-DASKED={asked}')

    # `unsafe` stands only at the calls.
    def test_unsafe(self):
        for name in os.listdir(os.path.join(BINDINGS, 'rust', 'src')):
            text = read(BINDINGS, 'rust', 'src', name)
            at_calls = re.findall(r'unsafe \{\s*calls::scullpouch_', text)
            self.assertEqual(len(re.findall(r'\bunsafe\b', text)), len(at_calls), name)

    # The header in older and later C, and in C++.
    def test_header(self):
        flags = ('-Wall', '-Wextra', '-Wpedantic', '-Werror', f'-I{os.path.join(BINDINGS, "include")}', '-fsyntax-only')
        for standard in ('c99', 'c11'):
            run('cc', f'-std={standard}', *flags, '-x', 'c', '-', input=b'#include <scullpouch.h>\n')
        if shutil.which('c++'):
            for standard in ('c++11', 'c++17'):
                run('c++', f'-std={standard}', *flags, '-x', 'c++', '-', input=b'#include <scullpouch.h>\n')


# What every language's documents say of a calendar that has more days than its cover, and the header of a refused
# announcement.
SAID = (
    ("after the cover's last year", (
        ('docs', 'LIBRARY.md'), ('docs', 'REFUSALS.md'), ('bindings', 'include', 'scullpouch.h'),
        ('bindings', 'rust', 'src', 'lib.rs'), ('bindings', 'python', MODULE))),
    ('/* Of a refused announcement the state is all zeros. */\ntypedef struct {\n    uint8_t refusal;\n'
     '    scullpouch_intake state;\n} scullpouch_taken;', (('bindings', 'include', 'scullpouch.h'),)),
)

# The calls that can be refused, by the row of docs/REFUSALS.md that has the numbers of each.
ASKED = {
    'load a file': ('load', 'judge_file'), 'open (`O`)': ('open',), 'roll (`R`)': ('roll',), 'close (`C`)': ('close',),
    'open of a file that was judged before': ('open_in', 'deliver'), 'reopen a day': ('reopen',),
    'measure, p for q': ('measure',), 'last trading day of a listed month or Friday': ('last_trading_day',),
    'due day': ('due',), 'tick': ('tick',), 'cash': ('cash',), 'judge a listing from elsewhere': ('judge',),
    'date to day, day to date': ('day', 'date'), 'make a calendar from a seed': ('make',),
    'a call of the round': ('handle',), 'joining, leaving a queue': ('join', 'leave'), 'write a file': ('write',),
    'load block by block: announce the number of blocks; hand over a block': ('announce', 'take'),
    'its final call': ('finish',), 'the product at a place of a file': ('product_at',),
    'the rows of a table, the differences of a product': ('rows', 'differences'),
}


# The numbers of a text in their order, as '1–8, 25' or '1 to 8, then 25' names them.
def numbers(text):
    found = []
    for first, last in re.findall(r'(\d+)(?:(?:–| to )(\d+))?', text.replace('kind 5', '').replace('512', '')):
        found += range(int(first), int(last or first) + 1)
    return found


class Said(unittest.TestCase):

    def test_said(self):
        for words, paths in SAID:
            for path in paths:
                self.assertIn(words, read(ROOT, *path), path)

    # Every exported call has a section of its own in docs/LIBRARY.md, with its refusals.
    def test_sections(self):
        exported = re.findall(r'extern "C" fn scullpouch_(\w+)\(', read(*CRATE))
        sections = dict(re.findall(r'^### (\w+)\n(.*?)(?=^##)', read(*LIBRARY), re.M | re.S))
        self.assertEqual(sorted(sections), sorted(exported))
        for name, text in sections.items():
            self.assertIn(f'scullpouch_{name}', text, name)
            self.assertRegex(text, r'- Refusals: |has no refusal', name)

    # The refusals of a section, in their order, are those that docs/REFUSALS.md has of the call.
    def test_refusals(self):
        rows = dict(re.findall(r'^\| (.*?) \| (.*) \|$', read(ROOT, 'docs', 'REFUSALS.md').split('Which call asks which')[1], re.M))
        said = dict(re.findall(r'^### (\w+)\n(?:(?!^##).)*?^- Refusals: (.*?)$', read(*LIBRARY), re.M | re.S))
        asked = {name: numbers(rows[row]) for row, names in ASKED.items() for name in names}
        self.assertEqual({name: numbers(text) for name, text in said.items() if not text.startswith('none')}, asked)


# ---- Hostile input ----

# What an attempt of hostile.py says on a module; '' where all is answered as it should be. A process that a signal ends
# has a negative status; one whose memory a wrong module has written over may also have no end.
def attempted(name, built):
    environment = {**built.environment, 'PYTHONPATH': os.pathsep.join((ROOT, built.source('python')))}
    try:
        ran = subprocess.run([sys.executable, '-m', 'tests.gate.hostile', name], stdout=subprocess.PIPE,
                             stderr=subprocess.STDOUT, timeout=SECONDS, env=environment)
    except subprocess.TimeoutExpired:
        return 'no end in time'
    return f'status {ran.returncode}: {ran.stdout.decode(errors="replace")}' if ran.returncode or ran.stdout else ''


# The attempts of hostile.py, each with a line of the module as it must not be: what stands there, and what stands there
# instead.
ATTEMPTS = {
    'ids': ("str.encode(text, 'ascii', 'replace')", "str.encode(text, 'latin-1')"),
    'items': ('    data = _bytes(data, name)\n    if len(data)', '    if len(data)'),
    'counts': ("_fit(entered, 'entered'), _fit(left, 'left')", 'entered, left'),
    'numbers': ('        number = int(index(number))\n', '        index(number)\n'),
    'lengths': ('if type(data) is bytes', 'if isinstance(data, bytes)'),
    'room': ('        room = memoryview(buffer).nbytes\n        lent = (c_uint8 * room).from_buffer(buffer)\n',
             '        lent = (c_uint8 * len(buffer)).from_buffer(buffer)\n        room = len(buffer)\n'),
    'changes': ("        self._lent = _lent(file, 'file')\n        self._said = _judged(_call['judge_file'](*self._lent))\n",
                "        self._said = _judged(_call['judge_file'](*_lent(file, 'file')))\n        self._file = file\n\n"
                "    @property\n    def _lent(self):\n        return _lent(self._file, 'file')\n"),
    'locks': ('del lent', 'pass'),
    'verdicts': ('return self.same', 'return bool(self.key)'),
    'marks': ('after = YEAR_MAP * held.cover.years', 'after = MAP'),
    'deliveries': ("_call['read_notices'](*_lent(text, 'text'), *self._lists)",
                   "_call['read_notices'](bytes(text), len(text), *self._lists)"),
    'days': ('    if isinstance(value, datetime.datetime):\n', '    if value is None:\n'),
    'decimals': ('value.is_signed() or ', ''),
    'names': ("f'{name}: {number} does not fit", "f'{number} does not fit"),
}


# ---- Planted faults ----

# The part of bindings/, a file of it, what stands there and what stands there instead.
LAYOUT_FAULTS = (
    ('include', 'scullpouch.h', '    uint16_t date;\n    uint16_t given;', '    uint16_t given;\n    uint16_t date;'),
    ('rust', 'src/lib.rs', '    pub date: Day,\n    pub given: u16,', '    pub given: u16,\n    pub date: Day,'),
    ('python', MODULE, "('entered', c_uint16), ('left', c_uint16)",
     "('left', c_uint16), ('entered', c_uint16)"),
)
FAULTS = (
    ('include', 'scullpouch.h', '    if (o->refusal != 0) return o->refusal;\n    *table = o->table;',
     '    *table = o->table;\n    if (o->refusal != 0) return o->refusal;'),
    ('include', 'scullpouch.h', '= scullpouch_reopen(*table, day);', '= scullpouch_close(*table, day);'),
    ('include', 'scullpouch.h', '* calendar->cover.years; i <', '* calendar->cover.years + 1; i <'),
    ('rust', 'src/lib.rs', 'if r.same { Verdict::Same }', 'if r.key == 0 { Verdict::Same }'),
    ('include', 'scullpouch.h', 'if (j.refusal == 0) *judged = j;', '*judged = j;'),
    ('rust', 'src/lib.rs', '.chain(self.exchange.iter().skip(after))', ''),
    ('python', MODULE, 'Moved(outcome.entered, outcome.left)', 'Moved(outcome.left, outcome.entered)'),
    ('python', MODULE, 'Verdict(reply.same, None', 'Verdict(True, None'),
    ('python', MODULE, "_call['open_in'](self._said,", "_call['open_in'](_FileCalendar(),"),
    ('include', 'scullpouch.h', '(size_t)SCULLPOUCH_PLACES * (length / SCULLPOUCH_BLOCK)',
     '(size_t)SCULLPOUCH_PLACES * (length / SCULLPOUCH_BLOCK - 1)'),
    ('rust', 'src/delivery.rs', '(self.calls[5 * i], *number)', '(self.calls[5 * i + 1], *number)'),
    ('python', MODULE, 'for i in range(self._said.count + 1)', 'for i in range(self._said.count)'),
    ('include', 'scullpouch.h', 'if (scullpouch_calendar_refusal(calendar) == 0) return 0;', 'return 0;'),
    ('include', 'scullpouch.h', 'for (; after < 4; after++) sum *= 10;', 'for (; after < 3; after++) sum *= 10;'),
    ('include', 'scullpouch.h', 'scullpouch_put_number(at, amount.rest % 10000u, 4);',
     'scullpouch_put_number(at, amount.rest % 10000u, 1);'),
    ('rust', 'src/calendars.rs', '        self.exchange[place / 8] &= !(128 >> (place % 8));\n', ''),
    ('rust', 'src/stored.rs', '&size, &tick, &[0; 2]', '&size, &[0; 2], &tick'),
    ('rust', 'src/texts.rs', '{parts:0<4}', '{parts:0>4}'),
    ('python', MODULE, 'for one in (held.closed, held.exchange):', 'for one in (held.closed,):'),
    ('python', MODULE, 'if self.kind == WEEKLY else month_text', 'if self.kind > WEEKLY else month_text'),
)


class Faults(unittest.TestCase):

    # The bindings with one text of one file exchanged for another.
    def planted(self, part, name, old, new):
        copy = tempfile.mkdtemp(prefix='fault-')
        self.addCleanup(shutil.rmtree, copy)
        shutil.copytree(os.path.join(BINDINGS, part), os.path.join(copy, part), ignore=shutil.ignore_patterns('target'))
        path = os.path.join(copy, part, name)
        text = read(path)
        self.assertEqual(text.count(old), 1, (name, old))
        with open(path, 'w', encoding='utf-8') as out:
            out.write(text.replace(old, new))
        built = Built(BUILT.prefix, **{part: os.path.join(copy, part)})
        self.addCleanup(shutil.rmtree, built.folder)
        return built

    # The program calls of the part's language.
    def program(self, part, built):
        if part == 'include':
            return [built.c('calls')]
        return [built.rust('calls')['calls']] if part == 'rust' else [sys.executable, built.python('calls')]

    def with_tool(self, faults):
        return [fault for fault in faults if fault[0] != 'rust' or shutil.which('cargo')]

    # What the first of some scripts finds in the program, or '' where none of them does.
    def found(self, program, built):
        scripts = (kept_script(f'fixed {number}') for number in range(FIXED_SCRIPTS))
        return next(filter(None, (difference(script, program, env=built.environment) for script in scripts)), '')

    # Two fields exchanged: the program is not built, or does not start.
    def test_layouts(self):
        for fault in self.with_tool(LAYOUT_FAULTS):
            built = self.planted(*fault)
            with self.subTest(fault=fault[:3]), self.assertRaisesRegex(AssertionError, 'layout'):
                self.assertEqual(self.found(self.program(fault[0], built), built), '')

    # The module answers hostile input as it should, and with a wrong line it does not.
    def test_hostile(self):
        self.assertEqual(re.findall(r'^def (\w+)\(\):', read(GATE, 'hostile.py'), re.M), list(ATTEMPTS))
        for name, (old, new) in ATTEMPTS.items():
            with self.subTest(attempt=name):
                self.assertEqual(attempted(name, BUILT), '')
                self.assertNotEqual(attempted(name, self.planted('python', MODULE, old, new)), '')

    # A module of another interface is not imported.
    def test_interface(self):
        major = version().split('.')[0]
        built = self.planted('python', MODULE, f'INTERFACE = {major}', f'INTERFACE = {major}0')
        self.assertIn('has another interface', self.found(self.program('python', built), built))

    # Another wrong line: the comparison finds it.
    def test_comparisons(self):
        for fault in self.with_tool(FAULTS):
            built = self.planted(*fault)
            with self.subTest(fault=fault[:3]):
                self.assertIn('the second program says', self.found(self.program(fault[0], built), built))


# ---- The programs of docs/LIBRARY.md ----

# The programs with texts and decimals print what their section says, over what was installed and with no variable that names
# it.
class OverTheCalls(unittest.TestCase):

    TITLE = 'A program with texts and decimals'

    def setUp(self):
        self.folder = tempfile.mkdtemp(dir=BUILT.folder)
        shutil.copy(os.path.join(EXAMPLES, 'master.bin'), self.folder)
        mine = ('SCULLPOUCH', 'SCULLPOUCH_LIB', 'PKG_CONFIG_PATH', 'LD_LIBRARY_PATH', 'PYTHONPATH')
        self.environment = {name: value for name, value in os.environ.items() if name not in mine}

    def put(self, language, *name):
        [text] = fenced(language, self.TITLE)
        with open(os.path.join(self.folder, *name), 'w', encoding='utf-8') as out:
            out.write(text)

    def prints(self, *command, **more):
        found = run(*command, cwd=self.folder, env={**self.environment, **more}).decode()
        self.assertEqual(found, fenced('text', self.TITLE)[0])

    def test_c(self):
        self.put('c', 'program.c')
        include = f'-I{os.path.join(BUILT.prefix, "include")}'
        run('cc', *WARNINGS, '-O1', include, 'program.c', BUILT.library, '-o', 'program', cwd=self.folder)
        self.prints('./program')

    def test_python(self):
        self.put('python', 'program.py')
        module = os.path.join(BUILT.prefix, 'share', 'scullpouch', 'python')
        self.prints(sys.executable, 'program.py', PYTHONPATH=module, PYTHONDONTWRITEBYTECODE='1')

    @unittest.skipUnless(shutil.which('cargo'), 'no cargo')
    def test_rust(self):
        crate = os.path.join(BUILT.prefix, 'share', 'scullpouch', 'rust')
        run('cargo', 'new', '--quiet', '--vcs', 'none', 'program', cwd=self.folder)
        run('cargo', 'add', '--quiet', '--offline', '--manifest-path', 'program/Cargo.toml', '--path', crate, cwd=self.folder)
        self.put('rust', 'program', 'src', 'main.rs')
        self.prints('cargo', 'run', '--quiet', '--offline', '--manifest-path', 'program/Cargo.toml', CARGO_TARGET_DIR=BUILT.path('cargo'))


@unittest.skipUnless(shutil.which('pkg-config'), 'no pkg-config')
class Programs(unittest.TestCase):

    # They print what the section says, run by its lines in a folder with the example file.
    def test_programs(self):
        install, *lines = fenced('sh')
        [expected] = fenced('text')
        parts = dict(zip(('c', 'rust', 'python'), lines, strict=True))
        with tempfile.TemporaryDirectory() as folder:
            shutil.copy(os.path.join(EXAMPLES, 'master.bin'), folder)
            for language, ending in (('c', 'c'), ('rust', 'rs'), ('python', 'py')):
                with open(os.path.join(folder, f'roll.{ending}'), 'w') as out:
                    out.write(fenced(language)[0])
            for language, part in parts.items():
                if language == 'rust' and not shutil.which('cargo'):
                    continue
                exports = install.replace(PREFIX_LINE, f'prefix={BUILT.prefix}').replace('bindings/install', 'true')
                environment = {**os.environ, 'CARGO_TARGET_DIR': BUILT.path('cargo')}
                found = run('bash', '-euc', exports + part, cwd=folder, env=environment)
                self.assertEqual(found.decode(), expected, language)

    # A delivery and its differences in Python, in the folder of examples/morning.
    def test_delivery(self):
        [lines] = fenced('python', 'A delivery in Python')
        folder = os.path.join(EXAMPLES, 'morning')
        environment = {**BUILT.environment, 'PYTHONPATH': BUILT.source('python')}
        found = run(sys.executable, '-c', lines, cwd=folder, env=environment).decode()
        names = ('delivery.csv', 'differences.csv', 'refused.txt')
        delivery, differences, refused = (read(folder, name) for name in names)
        products = sum(line.startswith('P ') for line in read(folder, 'master.txt').splitlines())
        told = refused or 'nothing refused'
        last = f"{differences.count(chr(10)) - 1} differ, 0 bad\n"
        self.assertEqual(found, f"{delivery.count(chr(10))} lines of {products} products; {told}\n{differences}{last}")


def main(arguments):
    global SEED
    parser = argparse.ArgumentParser(description=__doc__, formatter_class=argparse.RawDescriptionHelpFormatter)
    parser.add_argument('--seed', type=int, default=int.from_bytes(os.urandom(4), 'big'))
    asked, rest = parser.parse_known_args(arguments)
    SEED = asked.seed
    if not shutil.which('cc'):
        print('bindings: no C compiler (cc), so the calls for C, Rust and Python are left out')
        return 0
    for tool, part in TOOLS.items():
        if not shutil.which(tool):
            print(f'bindings: no {tool}, so {part} is left out')
    if not has_sanitizers():
        print('bindings: cc has no sanitizers, so the runs under them are left out')
    print(f'bindings: seed {SEED}', flush=True)
    unittest.main(argv=[__file__, *rest])


if __name__ == '__main__':
    sys.exit(main(sys.argv[1:]))
