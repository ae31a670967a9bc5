"""Tests that the comparison of terms with the second program can fail, and of
the runs that it makes: python3 -m tests.unit.compare_terms"""

import os
import shlex
import subprocess
import tempfile
import unittest
from contextlib import redirect_stdout
from io import StringIO
from unittest import mock

from tests import command
from tests.compare import terms as compare
from tests.inputs import sessions
from tests.inputs.march import SESSION_INPUT, SESSION_OUTPUT
from tests.inputs.runs import files, lines
from tests.inputs.runs.case import CLOSED, PIECES, UNREADABLE, WHOLE, Chance, with_file
from tests.second import master, terms

SECOND = shlex.join(command('second.terms', '-S'))
COMPARE = command('compare.terms')
EXAMPLE = with_file('example', lines.FILE, sessions.EXAMPLE)

# Stand-ins for terms, as shell scripts. cat takes an input that Python can't
# start with, such as a folder.
RIGHT = f'cat 2>/dev/null | {SECOND}'
WRONG = {
    'another day': (f'{RIGHT} | sed "s/2009-03-20/2009-03-19/"',
                    ('output line 14 (input line 2) differs', "b'7 2009-03 2009-03-20 0\\n'",
                     "b'7 2009-03 2009-03-19 0\\n'")),
    'a day moved unseen': (f'{RIGHT} | sed "s/03-20 1$/03-20 0/"',
                           ('output line 2 (input line 1) differs', "b'1 2008-03 2008-03-20 1\\n'")),
    'another number': (f'{RIGHT} | sed "s/NO 13/NO 12/"', ('output line 15 (input line 3)', "b'NO 12\\n'")),
    'a line more': (f'{RIGHT}; echo', ('output line 16', "b'\\n'")),
    'a line less': (f'{RIGHT} | head -n 14', ('output line 15 (input line 3)', "program:        b''")),
    'no last line feed': (f'{RIGHT} | head -c -1', ('output line 15', "b'NO 13'")),
    'carriage returns': (f'{RIGHT} | sed "s/$/\\r/"', ('output line 1 (input line 1)', '6\\r\\n')),
    'nothing': ('exit 0', ('output line 1 (input line 1)', "program:        b''")),
    'a status': (f'{RIGHT}; exit 3', ('ended with status 3',)),
    'a signal': (f'{RIGHT}; kill -SEGV $$', ('ended with status -11',)),
    'input not read': ('exec <&-; echo BAD', ('output line 1 (input line 1)', "b'BAD\\n'")),
}


class Compare(unittest.TestCase):

    # A stand-in in a folder of its own.
    def program(self, script):
        folder = tempfile.TemporaryDirectory()
        self.addCleanup(folder.cleanup)
        path = os.path.join(folder.name, 'terms')
        with open(path, 'w') as out:
            out.write(f'#!/bin/sh\n{script}\n')
        os.chmod(path, 0o755)
        return path

    # What differs between a stand-in and the second program on a case.
    def found(self, script, case, limit=compare.SECONDS):
        with tempfile.TemporaryDirectory() as folder:
            return compare.compare_case(self.program(script), case, folder, limit)[0]

    def test_equal(self):
        for feed in (WHOLE, PIECES):
            self.assertEqual(self.found(RIGHT, with_file('', lines.FILE, sessions.EXAMPLE, feed)), '')
        for feed in (CLOSED, UNREADABLE):
            self.assertEqual(self.found(RIGHT, with_file('', lines.FILE, b'', feed)), '')

    def test_wrong_programs(self):
        for name, (script, words) in WRONG.items():
            found = self.found(script, EXAMPLE)
            for word in words:
                self.assertIn(word, found, name)

    def test_program_without_end(self):
        self.assertIn('no end in time', self.found('exec sleep 9', EXAMPLE, limit=0.2))

    # A program that ends while its input still comes.
    def test_program_that_ends_early(self):
        pieces = with_file('', lines.FILE, sessions.EXAMPLE, PIECES)
        self.assertIn('output line 1 (input line 1)', self.found('exit 0', pieces))

    # A set in which some answer never comes is no set to compare by.
    def test_missing_answers(self):
        with mock.patch.object(sessions, 'COUNT', 1), redirect_stdout(StringIO()) as said:
            self.assertEqual(compare.compare(self.program(RIGHT), 5, 1), 1)
        self.assertIn("terms: no case of seed 5 prints [b'BAD', b'C', b'C left', b'NO 1',", said.getvalue())

    # The command line: the first case that differs is named, its files stay, the
    # last line says that it failed, and the status is 1.
    def test_command_line(self):
        ran = subprocess.run([*COMPARE, self.program(WRONG['another number'][0]), '--seed', '5', '--cases', '9'],
                             capture_output=True, text=True)
        said = ran.stdout.splitlines()
        self.assertEqual((ran.returncode, ran.stderr), (1, ''))
        self.assertIn('case 0 of seed 5 (the example of document 01, whole): output line 15', said[1])
        self.assertEqual(said[-1], 'terms: differs from the second program, seed 5')
        folder = said[4].split()[1]
        self.assertEqual(sorted(os.listdir(folder)), ['errors', 'expected', 'input', 'master.bin', 'printed'])
        for name in os.listdir(folder):
            os.unlink(os.path.join(folder, name))
        os.rmdir(folder)

    def test_equal_command_line(self):
        ran = subprocess.run([*COMPARE, self.program(RIGHT),
                              '--seed', '5', '--cases', '3'], capture_output=True, text=True)
        self.assertEqual(ran.returncode, 0)
        self.assertEqual(ran.stdout.splitlines()[-1], 'terms: 3 cases, 45 lines equal, seed 5')

    def test_missing_program(self):
        ran = subprocess.run([*COMPARE, os.path.join(os.devnull, 'none')],
                             capture_output=True)
        self.assertEqual(ran.returncode, 2)


class Sessions(unittest.TestCase):

    # The same seed and number give the same case, whatever the count.
    def test_same_again(self):
        for case, again in zip(sessions.cases(5, 60), sessions.cases('5', 50)):
            self.assertEqual(case, again)

    def test_example_comes_first(self):
        case = next(iter(sessions.cases(1, 1)))
        self.assertEqual(case.commands, SESSION_INPUT)
        self.assertEqual(terms.answers(case.master.data, case.commands), SESSION_OUTPUT)

    # 02, note 2: August 2008 as its last days are closed, for an Italian option and
    # for another.
    def test_days_stepped_back(self):
        printed = terms.answers(lines.FILE, sessions.STEPS).decode().splitlines()
        august = [line.split()[2:] for line in printed if ' 2008-08 ' in line]
        self.assertEqual(august, [[f'2008-08-{day:02d}', back] for day, back in (
            (14, '0'), (13, '1'), (12, '2'), (11, '3'), (8, '6'),
            (15, '0'), (14, '1'), (13, '2'), (12, '3'), (11, '4'))])
        self.assertEqual([line for line in printed if line[0] == 'N'], ['NO 15', 'NO 15'])

    # 02, note 3: the first lines of the run of weekly options, and its moved days.
    def test_weekly_options(self):
        printed = terms.answers(lines.WEEKLY_FILE, sessions.WEEKS).decode().splitlines()
        self.assertEqual([line for line in printed if line[0] in 'ORCN'], [
            'O 2008-03-17 4 0 4', 'R 2008-03-28 0 0 4', 'R 2008-03-29 1 1 5', 'C 2008-03-29 0 0 5',
            'C 2008-03-29 0 0 5', 'R 2008-04-10 2 2 7',
            'O 2008-03-17 4 0 4', 'R 2008-03-29 1 1 5', 'C 2008-03-29 0 0 5', 'R 2008-04-24 2 2 7',
            'C 2008-04-24 1 1 8', 'O 2009-04-20 4 0 4', 'C 2009-04-20 0 0 4', 'R 2009-05-01 2 2 6',
            'NO 11', 'NO 24', 'NO 24', 'O 2008-01-08 4 0 4', 'O 2008-01-01 6 0 6',
            'O 2010-12-03 4 0 4', 'NO 16', 'NO 16'])
        self.assertEqual([line for line in printed if len(line.split()) == 4 and line[-1] != '0'], [
            '3 2008-04-11 2008-04-10 1', '3 2008-04-11 2008-04-09 2', '2 2009-05-01 2009-04-30 1',
            '3 2008-03 2008-03-20 1'])

    # The set holds every family whole.
    def test_count(self):
        makers = [*sessions.examples(), *sessions.inputs(), *sessions.states(), *sessions.sized_files(),
                  *sessions.tables()]
        self.assertLessEqual(len(makers), sessions.COUNT)

    # A fault of a question is answered no by it, and no earlier one.
    def test_faults(self):
        for number in files.FAULTS:
            chance = Chance(number)
            for blocks in (2, 3, 5, 20):
                layout = files.some_layout(chance, blocks)
                self.assertEqual(master.file_refusal(layout.file()), 0)
                for _ in range(6):
                    damage = files.FAULTS[number](chance, layout)
                    self.assertEqual(master.file_refusal(layout.file(damage)), number, damage)

    def test_every_legal_size(self):
        self.assertEqual({blocks for blocks, _ in sessions.file_plan()}, set(range(2, 129)))

    def test_answers(self):
        printed = (b'O 2008-03-20 6 0 6\n1 2008-03 2008-03-20 1\nR 2008-03-21 1 1 7\n'
                   b'C 2008-03-21 0 0 7\nNO 13\nBAD\n2 2009-05-01 2009-04-30 1\n')
        self.assertEqual(sessions.answers_in(printed),
                         {b'O 6', b'back 1', b'R left', b'C', b'NO 13', b'BAD', b'weekly back 1'})


if __name__ == '__main__':
    unittest.main()
