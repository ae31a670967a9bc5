"""Tests that the comparison of deliver, reconcile and query with the second program can
fail, and of the mornings that it makes: python3 -m tests.unit.compare_delivery"""

import os
import shlex
import shutil
import subprocess
import tempfile
import unittest
from contextlib import redirect_stdout
from io import StringIO
from unittest import mock

from tests import command
from tests.compare import delivery as compare_delivery
from tests.inputs.runs import mornings, wrong
from tests.second import deliver, query, reconcile, replay, table, words

SCRIPT = command('compare.delivery')
SEED = 5

# Stand-ins for the programs, as shell scripts; {} is the second program.
RIGHT = 'exec {}'
WRONG = {
    'a line more': '{}; echo',
    'nothing': 'exit 0',
    'a status': '{}; exit 3',
    'standard error on standard output': '{} 2>&1',
    'nothing on standard error': '{} 2>/dev/null',
}


class WrongPrograms(unittest.TestCase):

    # What a function gives while a part of the second program is replaced.
    def with_wrong(self, part, run):
        right = getattr(part.module, part.name)
        try:
            self.put(part, part.other(right))
            return run()
        finally:
            self.put(part, right)

    # Puts a part into its place, and where it is kept beside it.
    def put(self, part, other):
        setattr(part.module, part.name, other)
        replay.MOVES.update(R=table.roll, C=table.close, E=table.reopen)
        query.ANSWERS.update(cash=query.cash)
        replay.begin.cache_clear()

    # What all three print for a case.
    def outputs(self, case):
        return {'deliver': deliver.deliver(case.file, case.notices),
                'reconcile': reconcile.reconcile(case.file, case.notices, case.rows),
                'query': query.query(case.file, case.notices, case.questions)}

    # A run of a program in this process, in the place of compare_delivery.run; all three are
    # run at the first of them.
    def in_process(self, part):
        printed = {}

        def run(_, name, case, *__):
            if name == 'deliver':
                printed.update(self.with_wrong(part, lambda: self.outputs(case)))
            return (*printed[name], 0)
        return mock.patch.object(compare_delivery, 'run', run)

    # What is said of the first case of the seed that differs; an empty string where none does.
    def found(self, part, count=mornings.COUNT):
        with tempfile.TemporaryDirectory() as folder, self.in_process(part):
            for case in mornings.cases(SEED, count):
                found, _ = compare_delivery.compare_case('', case, folder)
                if found:
                    return found
        return ''

    def test_found(self):
        for name, part in wrong.PARTS.items():
            with self.subTest(name):
                self.assertTrue(self.found(part))

    # The same run without a wrong part finds nothing.
    def test_right(self):
        self.assertEqual(self.found(wrong.Wrong(words, 'BLANKS', wrong.value(words.BLANKS)), 60), '')


class Script(unittest.TestCase):

    # The programs in a folder, as scripts.
    def programs(self, **scripts):
        folder = tempfile.TemporaryDirectory()
        self.addCleanup(folder.cleanup)
        for name in compare_delivery.PROGRAMS:
            path = os.path.join(folder.name, name)
            second = shlex.join(command(f'second.{name}', '-S'))
            with open(path, 'w') as out:
                out.write('#!/bin/sh\n' + scripts.get(name, RIGHT).format(second) + '\n')
            os.chmod(path, 0o755)
        return folder.name

    # What differs on the first case.
    def found(self, **scripts):
        with tempfile.TemporaryDirectory() as folder:
            return compare_delivery.compare_case(self.programs(**scripts), next(iter(mornings.refusals())), folder)[0]

    def test_equal(self):
        self.assertEqual(self.found(), '')

    def test_wrong(self):
        for name in compare_delivery.PROGRAMS:
            for way, script in WRONG.items():
                if (name, way) in (('query', 'standard error on standard output'),
                                   ('query', 'nothing on standard error')):
                    continue
                with self.subTest(f'{name}: {way}'):
                    self.assertTrue(self.found(**{name: script}).startswith(name))

    def test_program_without_end(self):
        with tempfile.TemporaryDirectory() as folder:
            programs = self.programs(reconcile='exec sleep 9')
            case = next(iter(mornings.refusals()))
            with mock.patch.object(compare_delivery, 'run', self.limited(0.3)):
                self.assertIn('reconcile (rows): no end in time',
                              compare_delivery.compare_case(programs, case, folder)[0])

    # The same run with a limit of its own for reconcile.
    def limited(self, seconds):
        run = compare_delivery.run
        return lambda programs, name, case, folder, limit: run(programs, name, case, folder,
                                                               seconds if name == 'reconcile' else limit)

    # The command line: the first case that differs is named, its files stay, the last line
    # says that it failed, and the status is 1.
    def test_command_line(self):
        ran = subprocess.run([*SCRIPT, self.programs(query='{} | sed s/OK/ok/'), '--seed', '5',
                              '--cases', '5'],
                             capture_output=True, text=True)
        said = ran.stdout.splitlines()
        self.assertEqual((ran.returncode, ran.stderr), (1, ''))
        self.assertIn('case 0 of seed 5 (examples/morning, delivery.csv): query (questions): standard output, line 14',
                      said[1])
        self.assertEqual(said[-1], 'deliver: differs from the second program, seed 5')
        folder = said[2].split()[1]
        self.assertEqual(sorted(os.listdir(folder)),
                         ['errors', 'input', 'master.bin', 'notices.txt', 'printed', 'questions', 'rows'])
        shutil.rmtree(folder)

    def test_equal_command_line(self):
        ran = subprocess.run([*SCRIPT, self.programs(), '--seed', '5', '--cases', '2'],
                             capture_output=True, text=True)
        self.assertEqual((ran.returncode, ran.stderr), (0, ''))
        self.assertIn('deliver: 2 cases of deliver, reconcile and query, ', ran.stdout.splitlines()[-1])

    def test_missing_program(self):
        folder = self.programs()
        os.unlink(os.path.join(folder, 'query'))
        self.assertEqual(subprocess.run([*SCRIPT, folder], capture_output=True).returncode, 2)

    # A set in which something wanted never comes is no set to compare by.
    def test_missing_answers(self):
        with mock.patch.object(mornings, 'COUNT', 1), redirect_stdout(StringIO()) as said:
            self.assertEqual(compare_delivery.compare_all(self.programs(), 5, 1), 1)
        self.assertIn("deliver: no case of seed 5 has ['deliver BAD', 'deliver NO 11',", said.getvalue())


class Mornings(unittest.TestCase):

    # The same seed and number give the same case, whatever the count.
    def test_same_again(self):
        for case, again in zip(mornings.cases(5, 200), mornings.cases('5', 180)):
            self.assertEqual(case, again)

    # The set holds every family, and some histories.
    def test_count(self):
        self.assertLess(len(mornings.fixed()) + sum(count for _, count in mornings.MAKERS), mornings.COUNT - 80)

    # What every set must have comes in every set.
    def test_wanted(self):
        seen = set()
        for case in mornings.cases(SEED, mornings.COUNT):
            seen |= compare_delivery.seen_in(compare_delivery.expected(case))
        self.assertEqual(compare_delivery.WANTED - seen, set())

    # Too many rows come in every set. (In that of seed 3750768666 none came while the end of the rows was left to chance.)
    def test_too_many_rows(self):
        seen = set()
        for case in mornings.cases(3750768666, mornings.COUNT):
            if case.name == 'many rows':
                seen |= compare_delivery.seen_in(compare_delivery.expected(case))
        self.assertIn('too many rows', seen)


if __name__ == '__main__':
    unittest.main()
