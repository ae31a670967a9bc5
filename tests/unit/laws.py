"""Tests of tools/laws and of tools/edits --texts: what they have to find is planted in a small repository."""
import shutil
import subprocess
import tempfile
import unittest
from pathlib import Path

import tests

ROOT = Path(tests.ROOT)

LAWS = """-- Laws of sums.
use Rattle.std.specs.Prelude.{add, ◌+◌}

pub add_zero : (n : Nat) → add n 0 ≡ n
add_zero n = helper n + 0

helper : Nat → Nat
helper n = n
"""
PROOF = """-- Shown: a sum, by its law.
use Rattle.sums.proofs.Sums.{add_zero}
use Rattle.sums.proofs.sum.Goals as goal

pub returns : goal.returns
returns c = add_zero _
"""
EDIT = 'file: src/lib.rt\nold: a + b\nnew: a - b\n'


class Planted(unittest.TestCase):
    """A repository of one crate, and what the tools say of it."""

    def setUp(self):
        folder = tempfile.TemporaryDirectory()
        self.addCleanup(folder.cleanup)
        self.root = Path(folder.name)
        self.write('docs/READING.md', 'no row')
        self.write('crates.txt', 'sums:\n')
        self.write('crates/sums/src/lib.rt', 'fn sum() { a + b }\n')
        self.write('crates/sums/must-fail/less.edit', EDIT)
        self.write('crates/sums/proofs/Sums.antt', LAWS)
        self.write('crates/sums/proofs/sum/Answers.antt', PROOF)

    def write(self, name, text):
        path = self.root / name
        path.parent.mkdir(parents=True, exist_ok=True)
        path.write_text(text, encoding='utf-8')

    def said(self, tool, *words):
        (self.root / 'tools').mkdir(exist_ok=True)
        for name in (tool, 'kit.py'):
            shutil.copy(ROOT / 'tools' / name, self.root / 'tools' / name)
        done = subprocess.run([self.root / 'tools' / tool, *words], capture_output=True, text=True, check=False)
        return done.returncode, done.stdout.splitlines()


class Laws(Planted):
    def test_all_cited(self):
        self.assertEqual(self.said('laws', '--check'), (0, ['laws: each is cited, and each import is used']))

    def test_import_not_used(self):
        self.write('crates/sums/proofs/Sums.antt', LAWS.replace('{add, ◌+◌}', '{add, less, ◌+◌, ◌-◌}'))
        self.assertEqual(self.said('laws', '--check'), (1, ['crates/sums/proofs/Sums.antt:2: less is imported and not used',
                                                            'crates/sums/proofs/Sums.antt:2: ◌-◌ is imported and not used']))

    def test_used_in_a_comment_alone(self):
        self.write('crates/sums/proofs/Sums.antt', LAWS.replace('{add, ◌+◌}', '{add, less, ◌+◌}') + '-- not less\n')
        self.assertEqual(self.said('laws', '--check')[0], 1)

    def test_law_not_cited(self):
        self.write('crates/sums/proofs/Sums.antt', LAWS.replace('helper n + 0', 'n + 0'))
        self.assertEqual(self.said('laws', '--check'), (1, ['crates/sums/proofs/Sums.antt:7: helper is cited nowhere']))

    def test_row_cites(self):
        self.write('crates/sums/proofs/Sums.antt', LAWS.replace('helper n + 0', 'n + 0'))
        self.write('docs/READING.md', '| theorem `helper` |')
        self.assertEqual(self.said('laws', '--check')[0], 0)

    def test_proof_without_heading(self):
        self.write('crates/sums/proofs/sum/Answers.antt', PROOF.partition('\n')[2])
        self.assertEqual(self.said('laws', '--check'), (1, ['crates/sums/proofs/sum/Answers.antt:1: the proof does not begin with what it shows']))

    def test_long_line(self):
        for length, status in ((180, 0), (181, 1)):
            self.write('crates/sums/proofs/Sums.antt', LAWS + '--'.ljust(length, 'x') + '\n')
            self.assertEqual(self.said('laws', '--check')[0], status)
        self.assertEqual(self.said('laws', '--check')[1], ['crates/sums/proofs/Sums.antt:9: the line has over 180 characters'])

    def test_where_cited(self):
        self.assertEqual(self.said('laws', 'add_zero')[1], [
            'crates/sums/proofs/Sums.antt:4: makes add_zero', 'crates/sums/proofs/sum/Answers.antt:2: imports add_zero of Rattle.sums.proofs.Sums',
            'crates/sums/proofs/sum/Answers.antt:6: cites add_zero'])


class Texts(Planted):
    def test_stands_once(self):
        self.assertEqual(self.said('edits', '--texts'), (0, []))

    def test_not_there(self):
        self.write('crates/sums/src/lib.rt', 'fn sum() { a * b }\n')
        self.assertEqual(self.said('edits', '--texts'), (1, ['sums/less: its text stands 0 times in src/lib.rt: a + b']))

    def test_twice(self):
        self.write('crates/sums/src/lib.rt', 'fn sum() { a + b + a + b }\n')
        self.assertEqual(self.said('edits', '--texts')[0], 1)


if __name__ == '__main__':
    unittest.main()
