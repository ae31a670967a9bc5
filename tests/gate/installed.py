"""Tests of the programs as they are installed (bindings/programs): python3 -m tests.gate.installed

Each is a program of its own, NAME_command, which ends with a status that is held to the second
program's. What they print is compared with the second program by the same comparisons as the
programs without a status (tests/compare), fewer cases of each where a number is given; then their
arguments, and reads and writes that fail.
"""

import errno
import os
import stat
import subprocess
import sys
import tempfile
import unittest

from tests import ROOT
from tests.gate.streams import runs
from tests.inputs.runs.case import write
from tests.second.status import status

PROGRAMS = os.path.join(ROOT, 'target', 'programs')
NAMES = ('terms', 'compose', 'decompose', 'gateway', 'confirm', 'deliver', 'reconcile', 'query')
SECONDS = 60
# Runs the program with the wrapper's own input, hands on what it printed and told, and holds its status to both. A device
# that takes nothing is handed to the program itself.
WRAPPER = '''#!/bin/sh
made=$(mktemp -d)
: >"$made/printed"
if [ -c /dev/stdout ]; then
  {program} "$@" 2>"$made/told"
  status=$?
else
  {program} "$@" >"$made/printed" 2>"$made/told"
  status=$?
  cat "$made/printed" </dev/null
fi
cat "$made/told" >&2 </dev/null
PYTHONPATH={root} {python} -m tests.gate.judged {name} "$status" "$made/printed" "$made/told" </dev/null
judged=$?
rm -rf "$made"
exit "$judged"
'''
COMPARED = (('terms', 'terms', '--cases', '60'), ('lists', '', '--cases', '40'), ('confirm', 'confirm', '--cases', '20'),
            ('delivery', '', '--cases', '60'))


def setUpModule():
    subprocess.run([os.path.join(ROOT, 'bindings', 'programs')], check=True)


def version():
    with open(os.path.join(ROOT, 'VERSION')) as file:
        return file.read().strip()


def help_of(name):
    with open(os.path.join(ROOT, 'docs', 'help', f'{name}.txt'), 'rb') as file:
        return file.read()


class Installed(unittest.TestCase):

    # A folder for each test.
    def setUp(self):
        folder = tempfile.TemporaryDirectory()
        self.addCleanup(folder.cleanup)
        self.folder = folder.name

    def run_program(self, name, *words, source=subprocess.DEVNULL, out=subprocess.PIPE, command=None):
        ran = subprocess.run(command or [os.path.join(PROGRAMS, name), *words], cwd=self.folder, stdin=source, stdout=out,
                             stderr=subprocess.PIPE, timeout=SECONDS)
        return ran.returncode, ran.stdout, ran.stderr


# The comparisons with the second program, each program held to its status too.
class Same(Installed):

    def test_compared(self):
        for name in NAMES:
            path = os.path.join(self.folder, name)
            with open(path, 'w') as file:
                file.write(WRAPPER.format(program=os.path.join(PROGRAMS, name), name=name, root=ROOT, python=sys.executable))
            os.chmod(path, os.stat(path).st_mode | stat.S_IXUSR)
        for module, program, *words in COMPARED:
            with self.subTest(module):
                ran = subprocess.run([sys.executable, '-m', f'tests.compare.{module}', os.path.join(self.folder, program), *words],
                                     cwd=ROOT, capture_output=True, text=True)
                self.assertEqual(ran.returncode, 0, ran.stdout + ran.stderr)

    # Each program on an input that all is well with, and what it prints without a status.
    def test_well(self):
        for run in runs():
            with self.subTest(run.name):
                write(os.path.join(self.folder, 'master.bin'), run.file)
                write(os.path.join(self.folder, 'notices.txt'), run.notices)
                write(os.path.join(self.folder, 'input'), run.input)
                with open(os.path.join(self.folder, 'input'), 'rb') as source:
                    got = self.run_program(run.name, *run.arguments, source=source)
                self.assertEqual(got, (status(run.name, run.printed, run.told), run.printed, run.told))


class Arguments(Installed):

    def test_help(self):
        for name in NAMES:
            with self.subTest(name):
                self.assertEqual(self.run_program(name, '--help'), (0, help_of(name), b''))

    def test_version(self):
        for name in NAMES:
            with self.subTest(name):
                self.assertEqual(self.run_program(name, '--version'), (0, f'{name} (scullpouch) {version()}\n'.encode(), b''))

    # Words that are none of a program's: one line, and nothing is read, so the input is left to the next command.
    def test_unknown(self):
        for name in NAMES:
            for words in (['--helpp'], ['--hel'], ['-h'], ['--version', '--help'], ['--help', 'x'], ['--' + 'x' * 100]):
                with self.subTest(f'{name} {words}'):
                    status_, printed, told = self.run_program(name, *words)
                    line = f'{name}: unknown argument; --help says what there is\n'.encode()
                    wanted = (2, b'NO 1\n', b'') if name == 'gateway' else (2, b'', line)
                    self.assertEqual((status_, printed, told), wanted)
                command = ['sh', '-c', 'printf kept | { "$0" "$@" >/dev/null 2>&1; cat; }', os.path.join(PROGRAMS, name), *words]
                self.assertEqual(self.run_program(name, command=command)[1], b'kept', f'{name} {words}')

    # A help that cannot be written.
    def test_full(self):
        for name in NAMES:
            with open('/dev/full', 'wb') as full, self.subTest(name):
                status_, _, told = self.run_program(name, '--help', out=full)
                self.assertEqual((status_, told.startswith(f'{name}: standard output: '.encode())), (2, True))


class Faults(Installed):

    # An input that is a folder opens, and every read of it fails.
    def test_unread(self):
        for run in runs():
            if run.reads:
                write(os.path.join(self.folder, 'master.bin'), run.file)
                write(os.path.join(self.folder, 'notices.txt'), run.notices)
                source = os.open(self.folder, os.O_RDONLY)
                try:
                    status_, _, told = self.run_program(run.name, *run.arguments, source=source)
                finally:
                    os.close(source)
                with self.subTest(run.name):
                    self.assertEqual(status_, 2)
                    self.assertTrue(told.startswith(f'{run.name}: standard input: '.encode()), told)

    # A full device takes nothing of what is written.
    def test_unwritten(self):
        for run in runs():
            write(os.path.join(self.folder, 'master.bin'), run.file)
            write(os.path.join(self.folder, 'notices.txt'), run.notices)
            write(os.path.join(self.folder, 'input'), run.input)
            with open(os.path.join(self.folder, 'input'), 'rb') as source, open('/dev/full', 'wb') as full:
                status_, _, told = self.run_program(run.name, *run.arguments, source=source, out=full)
            with self.subTest(run.name):
                self.assertEqual(status_, 2 if run.printed else status(run.name, run.printed, run.told), told)

    # Files that are missing: told by those that need them; for terms and confirm they count as empty.
    def test_missing(self):
        for name in ('deliver', 'reconcile', 'query'):
            self.assertEqual(self.run_program(name), (2, b'', f'{name}: master.bin: {os.strerror(errno.ENOENT)}\n'.encode()))
        command = ['sh', '-c', 'echo O AXA 2008-03-20 | "$0"']
        self.assertEqual(self.run_program('terms', command=[*command, os.path.join(PROGRAMS, 'terms')]), (1, b'NO 1\n', b''))
        self.assertEqual(self.run_program('confirm', command=[*command, os.path.join(PROGRAMS, 'confirm')]), (1, b'REFUSED 1\n', b''))

    # The script for which the status was asked for: a text that is refused leaves the file as it was.
    def test_file_kept(self):
        write(os.path.join(self.folder, 'master.bin'), b'before')
        script = 'echo nothing | "$0" > new && mv new master.bin'
        self.assertEqual(self.run_program('compose', command=['sh', '-c', script, os.path.join(PROGRAMS, 'compose')])[0], 1)
        with open(os.path.join(self.folder, 'master.bin'), 'rb') as file:
            self.assertEqual(file.read(), b'before')


if __name__ == '__main__':
    unittest.main()
