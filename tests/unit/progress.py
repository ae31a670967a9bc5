"""Tests of the lines that show what rt is at: python3 -m tests.unit.progress"""

import os
import subprocess
import sys
import tempfile
import unittest

from tests import ROOT
from tools import progress


# What rt ci prints, and what is shown of it where the clock moves by 40 seconds at each look.
PASSED = ('''\
rt: questions is kept: an earlier run on this machine proved the same files over the same libraries
== days
struct days::Date: proved
fn days::first_day: proved
logic=proved functions=11
rt: days proved
rt: days: trying its must-fail edits (2)
rt: days: its tests are proved
rt: must-fail days/table_entry.edit: refused, as it must be: note: src/lib.rt:18:15: it is not proved: `returns`
rt: must-fail days/month_name.edit: refused, as it must be (only by a limit of the prover, which gave no verdict, so ..): x
rt: must-fail days/leap.edit: refused, as it must be (only because a proof file names what the edit took away, so ..): x
rt: terms ran, and wrote what its file stdout has
rt: ok; handles allowed: none; must-fail edits: 3 refused, 1 of them only by a limit; done in this run: 1 of the 2 proofs
5 passed, 0 failed
''', '''\
1 of 2 crates: questions is kept; 0:40 so far
2 of 2 crates: days proved; 1:20 so far
rt: days: trying its must-fail edits (2)
rt: days: its tests are proved
1 of 9 edits: days/table_entry refused
2 of 9 edits: days/month_name refused (only by a limit of the prover)
3 of 9 edits: days/leap refused (only because a proof file names what the edit took away)
rt: terms ran, and wrote what its file stdout has
rt: ok; handles allowed: none; must-fail edits: 3 refused, 1 of them only by a limit; done in this run: 1 of the 2 proofs
''')
FAILED = ('''\
== days
crates/days/proofs/weekday/Proof.antt:9:13: error: `returns`: the two types differ
fn days::weekday: not proved
rt: days NOT PROVED
rt: calendar NOT PROVED: its library days failed
rt: must-fail days/table_entry.edit: NOT REFUSED: the crate is still proved with this edit
rt: must-fail days/month_name.edit: BAD EDIT: an 'old:' text is in src/lib.rt 0 times, and not once
rt: tables: the program ended with status 1, and not 0; it said: x
rt: FAILED: days calendar days/table_entry tables (run)
0 passed, 4 failed
''', '''\
1 of 2 crates: days NOT PROVED; 0:40 so far
2 of 2 crates: calendar NOT PROVED: its library days failed; 1:20 so far
1 of 9 edits: days/table_entry NOT REFUSED: the crate is still proved with this edit
2 of 9 edits: days/month_name BAD EDIT: an 'old:' text is in src/lib.rt 0 times, and not once
rt: tables: the program ended with status 1, and not 0; it said: x
rt: FAILED: days calendar days/table_entry tables (run)
''')

# What rt run prints of a program whose one library is proved now, and of one whose library is not proved.
RUN = '''\
rt: chose --jobs 2 for days
fn days::first_day: proved
logic=proved functions=11
rt: chose --jobs 2 for tables
logic=proved functions=1
rt: running out/tables; to give it other input, run that file yourself
'''
NOT_RUN = '''\
rt: chose --jobs 2 for days
fn days::first_day: not proved
logic=not-proved
rt: the library days did not build, so nothing above it was checked
'''
NEW = ['days proved; 0:40 so far, at most 1 left', 'tables proved; 1:20 so far, at most 0 left']
NEW_FAILED = ['days NOT PROVED; 0:40 so far, at most 1 left', 'rt: the library days did not build, so nothing above it was checked']


class Progress(unittest.TestCase):

    def test_lines(self):
        for said, shown in (PASSED, FAILED):
            times = iter(range(0, 1000, 40))
            lines = progress.shown(said.splitlines(keepends=True), 2, 9, lambda: next(times))
            self.assertEqual(list(lines), shown.splitlines())

    # Only what is proved now is shown, with the time so far and what is left; nothing where all was proved before.
    def test_new_lines(self):
        for said, lines in ((RUN, NEW), (NOT_RUN, NEW_FAILED)):
            times = iter(range(0, 1000, 40))
            self.assertEqual(list(progress.shown_new(said.splitlines(keepends=True), 2, lambda: next(times))), lines)
        before = ['rt: nothing has changed since the last proved build, by out/tables.stamp, so nothing is checked now\n',
                  'rt: running out/tables; to give it other input, run that file yourself\n']
        self.assertEqual(list(progress.shown_new(before, 1)), [])

    # A crate is counted with all that it uses, each once.
    def test_counts(self):
        self.assertEqual(progress.reached(['questions']), {'questions'})
        self.assertEqual(progress.reached(['days', 'calendar']), {'questions', 'days', 'calendar'})
        self.assertEqual(progress.reached([]), set(os.listdir(os.path.join(ROOT, 'crates'))))
        self.assertEqual(progress.edits(['days', 'questions']),
                         sum(len(os.listdir(os.path.join(ROOT, 'crates', name, 'must-fail')))
                             for name in ('days', 'questions')))

    # A line is shown when it comes, not at the end.
    def test_at_once(self):
        command = [sys.executable, os.path.join(ROOT, 'tools', 'progress.py'), 'questions']
        with subprocess.Popen(command, stdin=subprocess.PIPE, stdout=subprocess.PIPE) as child:
            child.stdin.write(b'fn \xff: proved\nrt: questions proved\n')
            child.stdin.flush()
            self.assertEqual(child.stdout.readline(), b'1 of 1 crates: questions proved; 0:00 so far\n')

    # A run of a script with an rt that prints some lines and ends so: its status and what it wrote.
    def run_script(self, script, said, status):
        with tempfile.TemporaryDirectory() as folder:
            with open(os.path.join(folder, 'rt'), 'w') as out:
                out.write(f"#!/bin/sh\ncat >&2 <<'END'\n{said}END\nexit {status}\n")
            os.chmod(os.path.join(folder, 'rt'), 0o755)
            ran = subprocess.run([os.path.join(ROOT, *script[0]), *script[1:]], capture_output=True, text=True,
                                 env={**os.environ, 'PATH': folder + os.pathsep + os.environ['PATH']})
        return ran.returncode, ran.stdout, ran.stderr

    # Where rt fails, examples/run fails with rt's whole log on standard error, and prints no listing.
    def test_failing_run(self):
        for script in (('examples', 'run'), ('examples', 'morning', 'run')):
            status, printed, errors = self.run_script([script], NOT_RUN, 1)
            self.assertEqual((status, printed), (1, ''))
            self.assertIn('days NOT PROVED; 0:', errors)
            self.assertTrue(errors.endswith(NOT_RUN))

    # The same of bindings/install, which writes all to standard output.
    def test_failing_install(self):
        with tempfile.TemporaryDirectory() as prefix:
            status, printed, errors = self.run_script([('bindings', 'install'), prefix], NOT_RUN, 1)
        self.assertEqual((status, errors), (1, ''))
        self.assertIn('days NOT PROVED; 0:', printed)
        self.assertTrue(printed.endswith(NOT_RUN))


if __name__ == '__main__':
    unittest.main()
