"""Tests of the programs where a read or a write is interrupted or short, takes nothing,
or standard input cannot be read: python3 -m tests.gate.streams [FOLDER [PROGRAM ..]]

FOLDER holds the programs; without it they are those of target/bin. Where programs are
named, these are tested and no others. The tests of calls that are interrupted or short
need a C compiler (cc), which makes the libraries of faults; without one they are
skipped.
"""

import errno
import os
import subprocess
import sys
import tempfile
import unittest
from typing import NamedTuple

from tests import ROOT
from tests.gate import failing
from tests.inputs import cases
from tests.inputs.products import AXAF_LINE, AXA_LINE
from tests.inputs.runs.case import write
from tests.second import confirm, lists, terms
from tests.second.deliver import deliver
from tests.second.query import query
from tests.second.reconcile import reconcile

SECONDS = 60
NAMES = ('terms', 'compose', 'decompose', 'confirm', 'gateway', 'deliver', 'reconcile', 'query')

FILE = cases.example()
OPENS = b'O XTAF 2008-03-20\nR 2008-03-21\nO XTAF\n' * 100
TEXT = b'\n'.join((b'Y 2008 3', b'C 2008-03-21', AXA_LINE, AXAF_LINE, b''))
SMALL = lists.compose(TEXT)[0]
NOTICES = b'O 2008-03-20\nR 2008-03-25\nC 2008-03-25\nC 2008-04-18\nM AXAF 3 2 12.3400\nM XXXX 3 2 1\n'
ROWS = deliver(SMALL, NOTICES)[0]
QUESTIONS = b'AXA last 2008-04\nAXAF size\nXXXX size\nnothing\n' * 100
LISTING = open(os.path.join(ROOT, 'examples', 'listing.txt'), 'rb').read()


# A run: the program, what stands at master.bin and notices.txt, its arguments, what comes
# on standard input (nothing where it reads none), and what it prints on both outputs.
class Run(NamedTuple):
    name: str
    file: bytes
    notices: bytes
    arguments: tuple
    input: bytes
    reads: bool
    printed: bytes
    told: bytes


def runs():
    yield Run('terms', FILE, b'', (), OPENS, True, terms.answers(FILE, OPENS), b'')
    for text in (TEXT, TEXT + b'x\n'):
        yield Run('compose', b'', b'', (), text, True, *lists.compose(text))
    yield Run('deliver', SMALL, NOTICES, (), b'', False, *deliver(SMALL, NOTICES))
    yield Run('deliver', SMALL, b'x\n', (), b'', False, *deliver(SMALL, b'x\n'))
    yield Run('confirm', FILE, b'', (), LISTING, True, confirm.answer(FILE, LISTING), b'')
    blocks = str(len(SMALL) // 512)
    yield Run('gateway', b'', b'', (blocks,), SMALL, True, b'OK 3 2\n', b'')
    yield Run('decompose', b'', b'', (), SMALL, True, lists.decompose(SMALL), b'')
    yield Run('reconcile', SMALL, NOTICES, (), ROWS, True, *reconcile(SMALL, NOTICES, ROWS))
    yield Run('query', SMALL, NOTICES, (), QUESTIONS, True, *query(SMALL, NOTICES, QUESTIONS))


PRINTED_UNREAD = {'gateway': b'NO 1\n'}  # what a program prints where its input cannot be read


# The reason of a call that failed, and the words for a write that took nothing; gateway, which has no room for the
# system's words, has the name of the error.
def reason(name, number):
    return errno.errorcode[number] if name == 'gateway' else os.strerror(number)


def nothing_written(name):
    return '0 bytes' if name == 'gateway' else 'nothing was written'


programs = os.path.join(ROOT, 'target', 'bin')


def tested():
    return [run for run in runs() if run.name in NAMES]


class Programs(unittest.TestCase):

    # A folder for each test.
    def setUp(self):
        folder = tempfile.TemporaryDirectory()
        self.addCleanup(folder.cleanup)
        self.folder = folder.name

    def path(self, name):
        return os.path.join(self.folder, name)

    # A run with some words of the environment: what it printed and what it told. Its status is 0.
    def run_of(self, run, source=None, out=subprocess.PIPE, **words):
        write(self.path('master.bin'), run.file)
        write(self.path('notices.txt'), run.notices)
        write(self.path('input'), run.input)
        with open(self.path('input'), 'rb') as own:
            ran = subprocess.run([os.path.join(programs, run.name), *run.arguments], cwd=self.folder,
                                 stdin=own if source is None else source, stdout=out, stderr=subprocess.PIPE,
                                 env={**os.environ, **words}, timeout=SECONDS)
        self.assertEqual(ran.returncode, 0)
        return ran.stdout, ran.stderr

    # That a run prints and tells what it does without a fault.
    def assert_whole(self, run, **words):
        with self.subTest(f'{run.name}: {words}'):
            self.assertEqual(self.run_of(run, **words), (run.printed, run.told))


class Directories(Programs):

    # A directory opens, and every read of it fails.
    def test_directory(self):
        for run in tested():
            if run.reads:
                with self.subTest(run.name):
                    source = os.open(self.folder, os.O_RDONLY)
                    try:
                        printed, told = self.run_of(run, source)
                    finally:
                        os.close(source)
                    self.assertEqual(told, f'{run.name}: standard input: {reason(run.name, errno.EISDIR)}\n'.encode())
                    self.assertEqual(printed, PRINTED_UNREAD.get(run.name, b''))

    def test_no_fault(self):
        for run in tested():
            self.assert_whole(run)


class Reads(Programs, failing.FailingReads):

    # Each read of a file or of standard input is interrupted once, twice or many times, whole or short.
    def test_interrupted(self):
        for run in tested():
            for place in ('master.bin', 'notices.txt', 'input'):
                for interrupts, most in (('1', '7'), ('1', '65537'), ('1000', '65537')):
                    self.assert_whole(run, LD_PRELOAD=self.library, FAULT_FILE=self.path(place),
                                      FAULT_INTERRUPTS=interrupts, FAULT_MOST=most)


class Writes(Programs, failing.FailingWrites):

    # Each write is interrupted once or many times, or takes only some bytes.
    def test_interrupted(self):
        for run in tested():
            for interrupts, most in (('0', '1'), ('1', '7'), ('1', '65537'), ('1000', '65537')):
                self.assert_whole(run, LD_PRELOAD=self.library, FAULT_WRITE_INTERRUPTS=interrupts,
                                  FAULT_WRITE_MOST=most)

    # A write that takes no byte is told, not as a success, and nothing is written after it.
    def test_nothing(self):
        for run in tested():
            if run.printed:
                for taken in (0, 1, len(run.printed) - 1):
                    with self.subTest(f'{run.name}: {taken}'):
                        printed, told = self.run_of(run, LD_PRELOAD=self.library, FAULT_WRITE_NOTHING=str(taken))
                        self.assertEqual(printed, run.printed[:taken])
                        last = f'{run.name}: standard output: {nothing_written(run.name)}\n'.encode()
                        self.assertTrue(told.endswith(last), told)


if __name__ == '__main__':
    if len(sys.argv) > 1 and os.path.isdir(sys.argv[1]):
        programs = os.path.abspath(sys.argv.pop(1))
    if len(sys.argv) > 1:
        NAMES = tuple(sys.argv[1:])
        del sys.argv[1:]
    for one in NAMES:
        if not os.access(os.path.join(programs, one), os.X_OK):
            sys.exit(f'streams: no program {one} in {programs}; run `tools/built {one}` first')
    if not failing.COMPILER:
        print('streams: no C compiler (cc), so the tests of interrupted and short calls are skipped', file=sys.stderr)
    unittest.main()
