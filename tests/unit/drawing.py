"""Tests of tools/drawing.

The drawing of the repository shows every crate and no other; that of a small list shows the uses that do not follow
from others; and a drawing that is not what the script makes is found.
"""

import os
import re
import shutil
import subprocess
import sys
import tempfile
import unittest

import tests

ROOT = str(tests.ROOT)
DRAWING = os.path.join(ROOT, 'tools', 'drawing')
SMALL = '# Of two groups.\n\n# Low.\none:\ntwo: one\n\n# High.\nthree: one two io\nfour: three one\n'


def run(folder, *words):
    ran = subprocess.run([sys.executable, DRAWING, '--root', folder, *words], stdout=subprocess.PIPE, text=True)
    return ran.returncode, ran.stdout.strip()


# The drawing of a list of crates.
def drawn(text):
    with tempfile.TemporaryDirectory() as folder:
        os.mkdir(os.path.join(folder, 'docs'))
        with open(os.path.join(folder, 'crates.txt'), 'w', encoding='utf-8') as out:
            out.write(text)
        run(folder)
        with open(os.path.join(folder, 'docs', 'architecture.svg'), encoding='utf-8') as made:
            return made.read()


class Drawing(unittest.TestCase):

    def test_crates(self):
        with open(os.path.join(ROOT, 'docs', 'architecture.svg'), encoding='utf-8') as stored:
            boxes = re.findall(r'<text [^>]*>(\w+)</text></g>', stored.read())
        self.assertEqual(sorted(boxes), sorted(os.listdir(os.path.join(ROOT, 'crates'))))

    # Of the uses 'three: one two' and 'four: three one' those of 'one' follow from the others; io is the toolchain's.
    def test_uses(self):
        svg = drawn(SMALL)
        self.assertIn('4 crates in 2 groups, and 3 uses', svg)
        self.assertEqual(svg.count('<path '), 3)
        self.assertIn('<title>four uses three, one</title>', svg)
        self.assertEqual(re.findall(r'class="title">([^<]*)<', svg), ['Low', 'High'])

    # A crate stands above those that it uses.
    def test_above(self):
        at = {name: float(y) for y, name in re.findall(r'y="([\d.]+)" fill="#\w+">(\w+)</text></g>', drawn(SMALL))}
        self.assertTrue(at['four'] < at['three'] < at['two'] < at['one'], at)

    # Every crate has its row on the page, with its public functions; a function that is not in its row is found.
    def test_functions(self):
        with open(os.path.join(ROOT, 'docs', 'ARCHITECTURE.md'), encoding='utf-8') as page:
            rows = dict(re.findall(r'(?m)^\| `(\w+)` \| [^|]* \| ([^|]*) \|$', page.read()))
        self.assertEqual(sorted(rows), sorted(os.listdir(os.path.join(ROOT, 'crates'))))
        self.assertEqual(rows['table_prices'], '`tick`, `cash`')
        with tempfile.TemporaryDirectory() as folder:
            os.makedirs(os.path.join(folder, 'docs'))
            os.makedirs(os.path.join(folder, 'crates', 'one', 'src'))
            for name, text in (('crates.txt', SMALL), ('crates/one/src/lib.rt', 'pub fn first() {}\nfn own() {}\n'),
                               ('docs/ARCHITECTURE.md', '| crate | what it has |\n|---|---|\n| `one` | a |\n\n| program | lines |\n|---|---|\n| `two` | b |\n')):
                with open(os.path.join(folder, name), 'w', encoding='utf-8') as out:
                    out.write(text)
            self.assertEqual(run(folder)[0], 0)
            with open(os.path.join(folder, 'docs', 'ARCHITECTURE.md'), encoding='utf-8') as page:
                self.assertEqual([line for line in page.read().splitlines() if '`' in line], ['| `one` | a | `first` |', '| `two` | b |'])
            self.assertEqual(run(folder, '--check')[0], 0)
            with open(os.path.join(folder, 'crates/one/src/lib.rt'), 'a', encoding='utf-8') as out:
                out.write('pub fn second() {}\n')
            self.assertEqual(run(folder, '--check'), (1, 'docs/ARCHITECTURE.md is not what tools/drawing makes: run tools/drawing'))

    def test_check(self):
        with tempfile.TemporaryDirectory() as folder:
            os.mkdir(os.path.join(folder, 'docs'))
            shutil.copy(os.path.join(ROOT, 'crates.txt'), folder)
            wrong = (1, 'docs/architecture.svg is not what tools/drawing makes: run tools/drawing')
            self.assertEqual(run(folder, '--check'), wrong)
            self.assertEqual(run(folder)[0], 0)
            self.assertEqual(run(folder, '--check')[0], 0)
            with open(os.path.join(folder, 'crates.txt'), 'a', encoding='utf-8') as out:
                out.write('more: questions\n')
            self.assertEqual(run(folder, '--check'), wrong)


if __name__ == '__main__':
    unittest.main()
