"""Tests of the programs deliver, reconcile and query where a read or a write fails:
python3 -m tests.gate.delivery_faults [FOLDER [PROGRAM ..]]

FOLDER holds the programs; without it they are those of target/bin. Where programs are
named, only these are tested. The tests of reads that fail in the middle need a
C compiler (cc), which makes the library of faults/failing_read.c; without one they are
skipped.
"""

import errno
import os
import resource
import subprocess
import sys
import tempfile
import unittest

from tests import ROOT
from tests.gate import failing
from tests.inputs import cases
from tests.inputs.products import AXAF_LINE, AXA_LINE
from tests.inputs.runs.case import write
from tests.second import lists
from tests.second.deliver import deliver
from tests.second.query import query
from tests.second.reconcile import reconcile

SECONDS = 60
NAMES = ('deliver', 'reconcile', 'query')
READERS = NAMES[1:]  # those that read standard input

# A small file whose products all open, notices none of which is refused, rows and questions.
FILE = lists.compose(b'\n'.join((b'Y 2008 3', b'C 2008-03-21', AXA_LINE, AXAF_LINE, b'')))[0]
NOTICES = b'O 2008-03-20\nR 2008-03-25\nC 2008-04-18\nM AXAF 3 2 12.3400\n'
ROWS = deliver(FILE, NOTICES)[0]
QUESTIONS = b'AXA last 2008-04\nAXAF size\nXXXX size\nnothing\n' * 100
INPUTS = {'deliver': b'', 'reconcile': ROWS, 'query': QUESTIONS}

# The example of 788 products: its delivery needs several writes.
LARGE = cases.example()
LARGE_ROWS = deliver(LARGE, b'O 2008-03-20\n')[0]
LARGE_INPUTS = {'deliver': b'', 'reconcile': b'', 'query': b'AXA size\n' * 20_000}

programs = os.path.join(ROOT, 'target', 'bin')


# What the second program prints.
def expected(name, file=FILE, notices=NOTICES, more=None):
    more = INPUTS[name] if more is None else more
    if name == 'deliver':
        return deliver(file, notices)
    return (reconcile if name == 'reconcile' else query)(file, notices, more)


# The line that says what failed.
def line(name, what, why):
    return f'{name}: {what}: {os.strerror(why)}\n'.encode()


class Programs(unittest.TestCase):
    # Leaves a test out where its program is not tested.
    def needs(self, name):
        if name not in NAMES:
            self.skipTest(f'{name} is not tested')

    # A folder for each test, with a file and notices.
    def setUp(self):
        folder = tempfile.TemporaryDirectory()
        self.addCleanup(folder.cleanup)
        self.folder = folder.name
        self.put(FILE, NOTICES)

    def path(self, name):
        return os.path.join(self.folder, name)

    def put(self, file, notices):
        write(self.path('master.bin'), file)
        write(self.path('notices.txt'), notices)

    # A run: what it printed, what it said on standard error. The status is 0.
    def run_program(self, name, more=None, out=subprocess.PIPE, words=None, command=None, **ways):
        write(self.path('input'), INPUTS[name] if more is None else more)
        with open(self.path('input'), 'rb') as source:
            ran = subprocess.run(command or [os.path.join(programs, name)], cwd=self.folder, stdin=source, stdout=out,
                                 stderr=subprocess.PIPE, env={**os.environ, **(words or {})}, timeout=SECONDS, **ways)
        self.assertEqual(ran.returncode, 0)
        return ran.stdout, ran.stderr

    # The same through a shell, which opens or closes something first.
    def run_shell(self, name, redirection):
        return self.run_program(name, command=['sh', '-c', f'exec "$0" {redirection}', os.path.join(programs, name)])


class Files(Programs):

    # In each place in turn: no file, a folder, a link that ends nowhere or in itself.
    def others(self, place):
        path = self.path(place)
        os.unlink(path)
        yield errno.ENOENT
        os.mkdir(path)
        yield errno.EISDIR
        os.rmdir(path)
        for target, why in (('nowhere', errno.ENOENT), (place, errno.ELOOP)):
            os.symlink(target, path)
            yield why
            os.unlink(path)

    def test_no_fault(self):
        for name in NAMES:
            self.assertEqual(self.run_program(name), expected(name))

    # "A file that cannot be read [..] is told with the system's reason [..] and ends the run
    # with nothing more printed."
    def test_unreadable(self):
        for place in ('master.bin', 'notices.txt'):
            self.put(FILE, NOTICES)
            for why in self.others(place):
                for name in NAMES:
                    with self.subTest(f'{name}: {place}: {os.strerror(why)}'):
                        self.assertEqual(self.run_program(name), (b'', line(name, place, why)))

    # The file is read before the notices, and judged before they are.
    def test_order(self):
        os.unlink(self.path('notices.txt'))
        for name in NAMES:
            write(self.path('master.bin'), FILE[:-1])
            self.assertEqual(self.run_program(name), (b'', b'master.bin: NO 1\n'))
            os.unlink(self.path('master.bin'))
            self.assertEqual(self.run_program(name), (b'', line(name, 'master.bin', errno.ENOENT)))

    # An empty file is no unreadable one; one that does not end is too long.
    def test_lengths(self):
        for name in NAMES:
            self.put(b'', NOTICES)
            self.assertEqual(self.run_program(name), (b'', b'master.bin: NO 1\n'))
            self.put(FILE, b'')
            self.assertEqual(self.run_program(name), (b'', b'notices.txt:1: BAD\n'))
            os.unlink(self.path('notices.txt'))
            os.symlink('/dev/zero', self.path('notices.txt'))
            self.assertEqual(self.run_program(name), (b'', b'notices.txt:1: BAD\n'))
            os.unlink(self.path('notices.txt'))
            os.unlink(self.path('master.bin'))
            os.symlink('/dev/zero', self.path('master.bin'))
            self.assertEqual(self.run_program(name), (b'', b'master.bin: NO 1\n'))
            os.unlink(self.path('master.bin'))

    # A standard input that is closed or cannot be read is told; deliver reads none. Where the
    # file is refused or the notices are bad, it is not read.
    def test_input(self):
        for redirection in ('<&-', '0>/dev/null'):
            self.put(FILE, NOTICES)
            self.assertEqual(self.run_shell('deliver', redirection), expected('deliver'))
            for name in READERS:
                self.put(FILE, NOTICES)
                self.assertEqual(self.run_shell(name, redirection), (b'', line(name, 'standard input', errno.EBADF)))
                self.put(FILE, NOTICES + NOTICES)
                self.assertEqual(self.run_shell(name, redirection), (b'', b'notices.txt:5: BAD\n'))
                self.put(FILE[1:], NOTICES)
                self.assertEqual(self.run_shell(name, redirection), (b'', b'master.bin: NO 1\n'))


class Reads(Programs, failing.FailingReads):

    # A run in which reads of a file fail or are short.
    def run_with(self, name, place, more=None, **words):
        return self.run_program(name, more, words={'LD_PRELOAD': self.library, 'FAULT_FILE': self.path(place), **words})

    # Files and inputs whose reads are short and do not fail are read whole.
    def test_short_reads(self):
        for name in NAMES:
            for place in ('master.bin', 'notices.txt', 'input'):
                for most in ('1', '7', '511', '512', '65537'):
                    with self.subTest(f'{name}: {place}, {most}'):
                        self.assertEqual(self.run_with(name, place, FAULT_MOST=most), expected(name))

    # Whichever read fails, and whether those after it go on or find the end.
    def test_files(self):
        for place, end in (('master.bin', len(FILE)), ('notices.txt', len(NOTICES))):
            for at in (0, 1, end // 2, end - 1, end):
                for name in NAMES:
                    for ends in ('0', '1'):
                        with self.subTest(f'{name}: {place} at {at}, {ends}'):
                            self.assertEqual(self.run_with(name, place, FAULT_AT=str(at), FAULT_ENDS=ends),
                                             (b'', line(name, place, errno.EIO)))

    # Standard input of reconcile: nothing on standard output, and the fault is all that is
    # told, as there is no refused opening and no bad row.
    def test_rows(self):
        self.needs('reconcile')
        for at in (0, 1, len(ROWS) // 2, len(ROWS) - 1, len(ROWS)):
            for ends in ('0', '1'):
                self.assertEqual(self.run_with('reconcile', 'input', FAULT_AT=str(at), FAULT_ENDS=ends),
                                 (b'', line('reconcile', 'standard input', errno.EIO)), at)

    # With bad rows before it: what was told of them stays, and the fault is the last line. The
    # heading after them is a bad row too.
    def test_bad_rows(self):
        self.needs('reconcile')
        rows = b'x\n' * 5 + ROWS
        printed, errors = self.run_with('reconcile', 'input', rows, FAULT_AT=str(len(rows) - 3))
        told = b''.join(b'standard input:%d: BAD\n' % place for place in range(1, 7))
        fault = line('reconcile', 'standard input', errno.EIO)
        self.assertTrue(errors.endswith(fault), errors)
        self.assertTrue(told.startswith(errors.removesuffix(fault)), errors)
        self.assertEqual(printed, b'')

    # Of query: what was answered are the first questions.
    def test_questions(self):
        self.needs('query')
        answers, _ = expected('query')
        for at in (0, 1, 20, len(QUESTIONS) // 2, len(QUESTIONS)):
            printed, errors = self.run_with('query', 'input', FAULT_AT=str(at))
            self.assertEqual(errors, line('query', 'standard input', errno.EIO))
            self.assertTrue(answers.startswith(printed) and (not printed or printed.endswith(b'\n')), printed[-80:])
            self.assertLessEqual(printed.count(b'\n'), QUESTIONS[:at].count(b'\n') + 1)

    # After the first row too many nothing is read.
    def test_too_many_rows(self):
        self.needs('reconcile')
        row = b'AXA,2008-04,2008-04-17\n'
        rows = row * (65_537 + 50_000)
        self.assertEqual(self.run_with('reconcile', 'input', rows, FAULT_AT=str(len(rows) - 1)),
                         (b'', b'standard input:65537: BAD\n'))


class Writes(Programs):

    # An output that takes nothing: one line says so, and nothing more is said, the last line
    # of reconcile among it.
    def test_full_and_closed(self):
        for file, inputs in ((FILE, INPUTS), (LARGE, LARGE_INPUTS)):
            self.put(file, b'O 2008-03-20\n')
            for name in NAMES:
                with open('/dev/full', 'wb') as out:
                    self.assertEqual(self.run_program(name, inputs[name], out)[1],
                                     line(name, 'standard output', errno.ENOSPC))
                closed = ['sh', '-c', 'exec "$0" >&-', os.path.join(programs, name)]
                self.assertEqual(self.run_program(name, inputs[name], command=closed)[1],
                                 line(name, 'standard output', errno.EBADF))

    # Nothing is written after a write that fails. The output takes some bytes first.
    def test_limit(self):
        self.put(LARGE, b'O 2008-03-20\n')
        for name in NAMES:
            right, _ = expected(name, LARGE, b'O 2008-03-20\n', LARGE_INPUTS[name])
            self.assertGreater(len(right), 150_000)
            with tempfile.TemporaryFile() as out:
                _, errors = self.run_program(
                    name, LARGE_INPUTS[name], out, restore_signals=False,
                    preexec_fn=lambda: resource.setrlimit(resource.RLIMIT_FSIZE, (100_000, 100_000)))
                out.seek(0)
                self.assertEqual(out.read(), right[:100_000])
            self.assertEqual(errors, line(name, 'standard output', errno.EFBIG))

    # Where nothing is printed no write fails: query without a question, bad notices, a
    # refused file.
    def test_nothing_printed(self):
        with open('/dev/full', 'wb') as out:
            if 'query' in NAMES:
                self.assertEqual(self.run_program('query', b'\n# x\n', out)[1], b'')
        for file, notices, said in ((FILE, b'', b'notices.txt:1: BAD\n'), (b'', NOTICES, b'master.bin: NO 1\n')):
            self.put(file, notices)
            for name in NAMES:
                with open('/dev/full', 'wb') as out:
                    self.assertEqual(self.run_program(name, out=out)[1], said)

    # The large outputs without a fault.
    def test_large(self):
        self.put(LARGE, b'O 2008-03-20\n')
        for name in NAMES:
            self.assertEqual(self.run_program(name, LARGE_INPUTS[name]),
                             expected(name, LARGE, b'O 2008-03-20\n', LARGE_INPUTS[name]))
        self.needs('reconcile')
        self.assertEqual(self.run_program('reconcile', LARGE_ROWS)[1], b'788 products, 10676 rows, 0 differ, 0 bad\n')


if __name__ == '__main__':
    if len(sys.argv) > 1 and os.path.isdir(sys.argv[1]):
        programs = os.path.abspath(sys.argv.pop(1))
    if len(sys.argv) > 1:
        NAMES = tuple(name for name in NAMES if name in sys.argv[1:])
        READERS = tuple(name for name in READERS if name in NAMES)
        del sys.argv[1:]
    for one in NAMES:
        if not os.access(os.path.join(programs, one), os.X_OK):
            sys.exit(f'faults: no program {one} in {programs}; run `tools/built {one}` first')
    if not failing.COMPILER:
        print('faults: no C compiler (cc), so the tests of failed reads are skipped', file=sys.stderr)
    unittest.main()
