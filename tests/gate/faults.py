"""Tests of the program terms where a read or a write fails: python3 -m tests.gate.faults

Run `tools/built terms` first, which builds target/bin/terms. The tests of reads need
a C compiler (cc), which makes the library of faults/failing_read.c; without one
they are skipped.
"""

import errno
import os
import resource
import subprocess
import sys
import tempfile
import unittest

from tests import ROOT
from tests.gate import failing
from tests.second import terms

PROGRAM = os.path.join(ROOT, 'target', 'bin', 'terms')
EXAMPLES = os.path.join(ROOT, 'examples')
MASTER = os.path.join(EXAMPLES, 'master.bin')
OPEN = b'O XTAF 2008-03-20\n'
MANY = 5000  # as many opens need several reads and several writes
SECONDS = 20


# What the second program prints on the example file.
def answers(commands):
    return terms.answers(terms.read_master(MASTER), commands)


# A run of terms on the example file with some words of the environment: its status,
# what it printed and what it said on standard error.
def run(source, **words):
    ran = subprocess.run([PROGRAM], cwd=EXAMPLES, stdin=source, stdout=subprocess.PIPE, stderr=subprocess.PIPE,
                         env={**os.environ, **words}, timeout=SECONDS)
    return ran.returncode, ran.stdout, ran.stderr


# A file with some commands.
def commands_in(data):
    file = tempfile.NamedTemporaryFile()
    file.write(data)
    file.seek(0)
    return file


class Reads(failing.FailingReads):

    # A run on some commands in which reads of a file fail.
    def run_with(self, commands, file=None, **words):
        with commands_in(commands) as source:
            return run(source, LD_PRELOAD=self.library, FAULT_FILE=file or source.name, **words)

    # A master.bin whose reads are short and do not fail is read whole.
    def test_short_reads(self):
        for most in ('1', '511', '512', '10240', '65537'):
            self.assertEqual(self.run_with(OPEN, 'master.bin', FAULT_MOST=most), (0, answers(OPEN), b''), most)

    # "A `master.bin` that can't be read counts as empty": whichever read fails, and
    # whether those after it go on or find the end, question 1 is answered no.
    def test_master(self):
        end = os.path.getsize(MASTER)
        for at in (0, 1, 512, 10240, end - 512, end - 1, end):
            for ends in ('0', '1'):
                with self.subTest(at=at, ends=ends):
                    self.assertEqual(self.run_with(OPEN, 'master.bin', FAULT_AT=str(at), FAULT_ENDS=ends),
                                     (0, b'NO 1\n', b''))

    # The same where many reads come before the one that fails.
    def test_master_in_short_reads(self):
        end = os.path.getsize(MASTER)
        for at in (0, 512, 10240, end):
            with self.subTest(at=at):
                self.assertEqual(self.run_with(OPEN, 'master.bin', FAULT_MOST='512', FAULT_AT=str(at)),
                                 (0, b'NO 1\n', b''))

    # A line that asks nothing of the file is judged as ever.
    def test_other_lines(self):
        self.assertEqual(self.run_with(b'R 2008-03-21\n' + OPEN + b'O\n', 'master.bin', FAULT_AT='0'),
                         (0, b'BAD\nNO 1\nBAD\n', b''))

    # A standard input that cannot be read counts as one that has ended (docs/DECISIONS.md,
    # 22): a line begun is answered as the last one, and nothing more is read. It is told (55).
    def test_input(self):
        commands = OPEN + b'R 2008-03-21\nC 2008-03-25\n' + OPEN * MANY
        said = f'terms: standard input: {os.strerror(errno.EIO)}\n'.encode()
        for at in (0, 1, len(OPEN) - 1, len(OPEN), len(OPEN) + 3, len(OPEN) + 12, len(OPEN) + 13, 65536):
            with self.subTest(at=at):
                self.assertEqual(self.run_with(commands, FAULT_AT=str(at)), (0, answers(commands[:at]), said))


class Writes(unittest.TestCase):

    # What terms says on standard error, with an output and some commands.
    def said(self, commands, out, **ways):
        with commands_in(commands) as source:
            ran = subprocess.run(ways.pop('program', [PROGRAM]), cwd=EXAMPLES, stdin=source, stdout=out,
                                 stderr=subprocess.PIPE, timeout=SECONDS, **ways)
        self.assertEqual(ran.returncode, 0)
        return ran.stderr

    # One line says that the output did not take the answers, and why.
    def assert_said_once(self, said, why):
        self.assertEqual(said, b'terms: standard output: ' + os.strerror(why).encode() + b'\n')

    # Lines in the input, a last line that no line feed ends, both, and more than one write.
    FAILING = (OPEN, OPEN[:-1], OPEN + OPEN[:-1], OPEN * MANY)

    def test_full(self):
        for commands in self.FAILING:
            with open('/dev/full', 'wb') as out:
                self.assert_said_once(self.said(commands, out), errno.ENOSPC)

    def test_closed(self):
        closing = ['sh', '-c', 'exec "$0" >&-', PROGRAM]
        for commands in self.FAILING:
            self.assert_said_once(self.said(commands, None, program=closing), errno.EBADF)

    # Nothing is written after a write that fails. The output takes some bytes first.
    def test_limit(self):
        commands, limit = OPEN * MANY, 100_000
        with tempfile.TemporaryFile() as out:
            said = self.said(commands, out, restore_signals=False,
                             preexec_fn=lambda: resource.setrlimit(resource.RLIMIT_FSIZE, (limit, limit)))
            out.seek(0)
            self.assertEqual(out.read(), answers(commands)[:limit])
        self.assert_said_once(said, errno.EFBIG)

    # Without a failed write standard error is empty; without an answer nothing is written.
    def test_nothing_said(self):
        for commands in (*self.FAILING, b'x\n', b''):
            with tempfile.TemporaryFile() as out:
                self.assertEqual(self.said(commands, out), b'')
                out.seek(0)
                self.assertEqual(out.read(), answers(commands))
        with open('/dev/full', 'wb') as out:
            self.assertEqual(self.said(b'', out), b'')


if __name__ == '__main__':
    if not os.access(PROGRAM, os.X_OK):
        sys.exit(f'faults: {PROGRAM} is no program; run `tools/built terms` first')
    if not failing.COMPILER:
        print('faults: no C compiler (cc), so the tests of failed reads are skipped', file=sys.stderr)
    unittest.main()
