"""Tests of the program `terms`."""

import os
import shlex
import subprocess
import tempfile
import unittest

from tests import ROOT, command
from tests.inputs import cases
from tests.inputs.march import EASTER, SESSION_INPUT
from tests.inputs.products import AXA
from tests.inputs.runs.lines import other_lines
from tests.second import master, terms


class Terms(unittest.TestCase):

    FILE = master.build(EASTER, [AXA])

    def first_words(self, commands, file=FILE):
        lines = terms.answers(file, commands).decode().splitlines()
        return [line for line in lines if line[0] in 'ORCNB']

    # 01: "`BAD` for another line". Each stands alone, and after an accepted O.
    def test_other_lines(self):
        for line in other_lines():
            self.assertEqual(terms.answers(self.FILE, line + b'\n'), b'BAD\n', line)
            self.assertEqual(self.first_words(b'O AXA 2008-03-20\n' + line + b'\nR 2008-03-20'),
                             ['O 2008-03-20 6 0 6', 'BAD', 'R 2008-03-20 0 0 6'], line)

    def test_commands(self):
        for date, day in ((b'2000-01-01', 0), (b'2000-02-29', 59), (b'2099-12-31', 36524)):
            self.assertEqual(terms.parse(b'O A ' + date), ('O', b'A', day))
            self.assertEqual(terms.parse(b'O AB09 ' + date), ('O', b'AB09', day))
            self.assertEqual(terms.parse(b'R ' + date), ('R', b'', day))
            self.assertEqual(terms.parse(b'C ' + date), ('C', b'', day))

    # 01: "a line, which ends with a line feed or with the input".
    def test_ends_of_lines(self):
        for commands, words in ((b'', []), (b'\n', ['BAD']), (b'\n\n', ['BAD', 'BAD']),
                                (b'\nX', ['BAD', 'BAD']),
                                (b'O AXA 2008-03-20', ['O 2008-03-20 6 0 6']),
                                (b'O AXA 2008-03-20\n\n', ['O 2008-03-20 6 0 6', 'BAD']),
                                (b'O AXA 2008-03-20\rR 2008-03-20\n', ['BAD'])):
            self.assertEqual(self.first_words(commands), words, commands)

    # Lines of any length: a command with other bytes before or after it.
    def test_long_lines(self):
        for length in (1, 16, 240, 65536, 65552, 3_000_000):
            for byte in (b'x', b' ', b'\0', b'0'):
                line = b'O AXA 2008-03-20' + byte * length
                self.assertEqual(terms.answers(self.FILE, line), b'BAD\n')
                self.assertEqual(terms.answers(self.FILE, byte * length + b'O AXA 2008-03-20'), b'BAD\n')

    def test_refused_open_keeps_the_table(self):
        self.assertEqual(
            self.first_words(b'O AXA 2011-01-01\nR 2008-03-20\nO AXA 2008-03-20\nO X 2008-03-20\n'
                             b'O AXA 2010-12-31\nR 2008-03-21\nR 2008-03-20\nC 2008-04-18\n'
                             b'R 2010-12-31\nC 2008-03-22'),
            ['NO 11', 'BAD', 'O 2008-03-20 6 0 6', 'NO 9', 'NO 16', 'R 2008-03-21 1 1 7',
             'NO 12', 'C 2008-03-21 0 0 7', 'NO 16', 'NO 14'])

    def test_new_open_forgets_closures(self):
        commands = b'O AXA 2008-03-20\nC 2008-04-18\nO AXA 2008-03-20\nC 2008-04-18\n'
        self.assertEqual(self.first_words(commands),
                         ['O 2008-03-20 6 0 6', 'C 2008-03-20 0 0 6'] * 2)

    # 01: "A `master.bin` that can't be read counts as empty, and one of more than
    # 65,536 bytes gets 1."
    def test_files(self):
        command = b'O AXA 2008-03-20\n'
        for file, number in ((b'', 1), (bytes(1024), 3), (bytes(65537), 1), (self.FILE[:-1], 1),
                             (self.FILE + b'\0', 1), (cases.largest() + bytes(512), 1),
                             (b'\0' + self.FILE[1:], 2)):
            self.assertEqual(terms.answers(file, command), b'NO %d\n' % number)
        self.assertEqual(terms.answers(b'', b'R 2008-03-20\n' + command + b'C 2008-03-20\n'),
                         b'BAD\nNO 1\nBAD\n')

    def test_unreadable_files(self):
        with tempfile.TemporaryDirectory() as folder:
            path = os.path.join(folder, 'master.bin')
            self.assertEqual(terms.read_master(folder), b'')
            self.assertEqual(terms.read_master(path), b'')
            for target in ('nowhere', 'master.bin', '/proc/self/mem', '/dev/null'):
                os.symlink(target, path)
                self.assertEqual(terms.read_master(path), b'', target)
                os.unlink(path)
            os.symlink('/dev/zero', path)
            self.assertEqual(len(terms.read_master(path)), 65537)

    # The stored session on the example file, and the words that its README says.
    def test_example_session(self):
        stored = {}
        for name in ('master.bin', 'session.txt', 'session.out', 'README.md'):
            with open(os.path.join(ROOT, 'examples', name), 'rb') as file:
                stored[name] = file.read()
        commands = stored['session.txt']
        self.assertEqual(terms.answers(stored['master.bin'], commands), stored['session.out'])
        for line, word in zip(commands.decode().splitlines(),
                              self.first_words(commands, stored['master.bin']), strict=True):
            self.assertIn(f'| `{line}` | `{word}` |', stored['README.md'].decode())

    # Standard input closed; standard output full and closed.
    def test_closed_streams(self):
        program = shlex.join(command('second.terms'))
        with tempfile.TemporaryDirectory() as folder:
            for redirection, status in (('<&-', 0), ('>/dev/full', 1), ('>&-', 1)):
                ran = subprocess.run(['sh', '-c', f'{program} {redirection}'], cwd=folder,
                                     input=SESSION_INPUT, capture_output=True)
                self.assertEqual((ran.returncode, ran.stdout, ran.stderr), (status, b'', b''))


if __name__ == '__main__':
    unittest.main()
