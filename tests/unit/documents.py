"""Tests of the documents.

What README, docs/CLERK.md and docs/OPERATIONS.md print of a program is what the second program prints; README is short;
every refusal has a place in docs/REFUSALS.md that docs/CLERK.md leads to; every program has its section.
"""
import os
import re
import shutil
import subprocess
import sys
import tempfile
import unittest
from pathlib import Path

import tests

ROOT = Path(tests.ROOT)
README_AT_MOST = 9216
REFUSALS = range(1, 32)


def read(*names):
    return ROOT.joinpath(*names).read_text(encoding='utf-8')


def part(text, heading):
    """A section: from its heading to the next of the same depth or a higher one."""
    lines = text.split('\n')
    start = lines.index(heading)
    depth = len(heading) - len(heading.lstrip('#'))
    end = next((place for place in range(start + 1, len(lines)) if re.match(rf'#{{1,{depth}}} ', lines[place])), len(lines))
    return '\n'.join(lines[start:end])


def fenced(text):
    return re.findall(r'^```\w*\n(.*?)^```$', text, re.M | re.S)


def ran(program, folder, given, change=None):
    """What a program of the second program prints in a copy of a folder of the examples, and tells."""
    with tempfile.TemporaryDirectory() as where:
        copy = Path(where) / 'copy'
        shutil.copytree(ROOT / 'examples' / folder, copy)
        if change:
            change(copy)
        done = subprocess.run([sys.executable, '-m', f'tests.second.{program}'], cwd=copy, input=given.encode(), capture_output=True,
                              check=True, env={**os.environ, 'PYTHONPATH': str(ROOT)})
    return done.stdout.decode(), done.stderr.decode()


class Readme(unittest.TestCase):
    def test_short(self):
        self.assertLessEqual(len(read('README.md').encode()), README_AT_MOST)

    def test_session(self):
        """The fourteen lines are the first that the session of the examples prints."""
        [shown] = fenced(part(read('README.md'), '## A session'))
        printed, _ = ran('terms', '.', read('examples', 'session.txt'))
        self.assertEqual(len(shown.splitlines()), 14)
        self.assertEqual(shown.splitlines(), printed.splitlines()[:14])

    def test_every_column_is_explained(self):
        table = part(read('README.md'), '## A session')
        for line in ('O 2008-03-20 12 0 12', '1 2008-03 2008-03-20 1'):
            [row] = re.findall(rf'^\| `{line}` \|(.*)\|$', table, re.M)
            self.assertEqual(len([cell for cell in row.split('|') if cell.strip()]), len(line.split()))


class Clerk(unittest.TestCase):
    text = read('docs', 'CLERK.md')

    def test_delivery(self):
        [shown] = fenced(part(self.text, '### Judging a delivery'))
        printed, told = ran('reconcile', 'morning', read('examples', 'morning', 'wrong.csv'))
        self.assertEqual(shown, printed)
        self.assertIn(f'`{told.strip()}`', part(self.text, '### Judging a delivery'))

    def test_reload(self):
        """The next morning: two lines for each of the ten products that list months."""
        def another_morning(folder):
            with open(folder / 'notices.txt', 'a', encoding='utf-8') as notices:
                notices.write('R 2008-04-21\n')
        [shown] = fenced(part(self.text, '### What to reload'))
        printed, told = ran('reconcile', 'morning', read('examples', 'morning', 'delivery.csv'), another_morning)
        self.assertEqual([line for line in printed.splitlines() if line.startswith('AXA,')], shown.splitlines())
        self.assertIn(' 20 differ, 0 bad', told)

    def test_table(self):
        """The roll and the closure of the session; the maturity of a weekly option."""
        [shown] = fenced(part(self.text, '### Reading a table'))
        printed, _ = ran('terms', '.', read('examples', 'session.txt'))
        lines = printed.splitlines()
        start = lines.index('R 2008-03-21 1 1 13')
        self.assertEqual(shown.splitlines(), lines[start:start + len(shown.splitlines())])

    def test_weekly_maturity(self):
        def with_file(folder):
            made, _ = composed('Y 2009 2\nC 2009-05-01\nP AXAW FR11 XPAR 5 100 100 EUR\n')
            (folder / 'master.bin').write_bytes(made)
        printed, _ = ran('terms', '.', 'O AXAW 2009-04-27\n', with_file)
        self.assertIn(f'- `{printed.splitlines()[1]}`: a weekly option', part(self.text, '### Reading a table'))

    def test_vendor(self):
        [listing] = fenced(part(self.text, '### Checking a vendor'))
        self.assertEqual(listing, read('examples', 'listing.txt'))
        self.assertEqual(ran('confirm', '.', listing), ('YES\n', ''))
        self.assertEqual(ran('confirm', '.', listing.replace('2008-06-20', '2008-06-23')), ('DIFFERS 2008-06\n', ''))
        self.assertEqual(ran('confirm', '.', listing.replace('AXA', 'AXAX')), ('REFUSED 9\n', ''))
        self.assertEqual(ran('confirm', '.', listing.replace('2008-04 ', 'April ')), ('BAD 3\n', ''))

    def test_vendor_after_notices(self):
        """By hand: after the roll and the closure April ends on the 17th, March 2009 is there, March 2008 is not."""
        [listing] = fenced(part(self.text, '### Checking a vendor'))
        later = listing.replace('2008-03 2008-03-20\n', 'R 2008-03-21\nC 2008-04-18\n').replace('2008-04-18\n2008-05', '2008-04-17\n2008-05')
        self.assertEqual(ran('confirm', '.', later + '2009-03 2009-03-20\n'), ('YES\n', ''))

    def test_questions(self):
        rows = re.findall(r'^\| `([^`]+)` \| `([^`]+)`: ', part(self.text, '### One question'), re.M)
        printed, told = ran('query', 'morning', ''.join(f'{question}\n' for question, _ in rows))
        self.assertEqual((printed.splitlines(), told), ([answer for _, answer in rows], ''))
        self.assertEqual(len(rows), 5)

    def test_every_refusal_is_linked(self):
        for number in REFUSALS:
            self.assertIn(f'[{number}](REFUSALS.md#refusal-{number})', part(self.text, '## Refusals'))

    def test_every_kind_has_its_strip(self):
        for kind in range(6):
            self.assertRegex(part(self.text, '## Which months are listed'), rf'\*\*Kind {kind}, .*\*\*[^!]*!\[Kind {kind}: .*\]\(pictures/kind-{kind}\.svg\)')


# 01, "Where loaders go astray": for each sentence what is asked of `terms` in examples/morning, the last lines of what it prints, by
# hand, and what docs/READING.md says of it.
ASTRAY = {
    'Dropping the front month on its last trading day': (
        ['O AXA 2008-03-20'], '1 2008-03 2008-03-20 1', 'on Thursday 20 March 2008, its last trading day, March 2008 is still listed for AXA'),
    'Moving a closed Friday forward to Monday': (
        ['O AXA 2008-04-14', 'C 2008-04-18'], '1 2008-04 2008-04-17 1', 'April 2008 of AXA ends on Thursday 17 April, 1 day back'),
    'Taking the Italian Thursday after stepping back instead of before': (
        ['O ENL5 2008-03-17'], '1 2008-03 2008-03-20 0', 'the month ends on 20 March, 0 days back'),
    'Starting the quarter step from the front month': (
        ['O CIS 2008-03-20'], '6 2008-12 2008-12-19 0', 'lists March, April, May, then the quarter months after May: June, September, December 2008'),
    'Numbering the table anew at each roll': (
        ['O CIS 2008-03-20', 'R 2008-03-21'], '2 2008-04 2008-04-18 0', 'April keeps 2 and December 6, and March 2009 enters with 7'),
    'Keeping a front month whose day a closure has just moved before the date': (
        ['O AXA 2008-04-14', 'C 2008-04-17', 'R 2008-04-17', 'C 2008-04-18'], '2 2008-05 2008-05-16 0', 'May 2008 is the front')}


class Astray(unittest.TestCase):
    def test_examples(self):
        rows = dict(re.findall(r"^\| '([^']+)' \| (.*?; see )", part(read('docs', 'READING.md'), '## Where loaders go astray'), re.M))
        self.assertEqual(list(rows), list(ASTRAY))
        for sentence, (commands, line, words) in ASTRAY.items():
            printed, _ = ran('terms', 'morning', ''.join(f'{command}\n' for command in commands))
            last = re.split(r'^[ORC] ', printed, flags=re.M)[-1].splitlines()[1:]
            self.assertIn(line, last, sentence)
            self.assertIn(words, rows[sentence])
            self.assertRegex(rows[sentence], r'A loader that .* (has|takes|keeps|begins)', sentence)

    def test_front(self):
        """Where the front month is what the example is about, it is the first line."""
        for sentence in ('Dropping the front month on its last trading day', 'Keeping a front month whose day a closure has just moved before the date'):
            commands, line, _ = ASTRAY[sentence]
            printed, _ = ran('terms', 'morning', ''.join(f'{command}\n' for command in commands))
            self.assertEqual(re.split(r'^[ORC] ', printed, flags=re.M)[-1].splitlines()[1], line)


class Refusals(unittest.TestCase):
    def test_every_number_has_its_place(self):
        rows = re.findall(r'^\| <a id="refusal-(\d+)"></a>(\d+) \| (.+?) \| (.+?) \|$', read('docs', 'REFUSALS.md'), re.M)
        self.assertEqual([row[:2] for row in rows], [(str(number), str(number)) for number in REFUSALS])


class Operations(unittest.TestCase):
    text = read('docs', 'OPERATIONS.md')

    def test_every_program_has_its_section(self):
        for name in ('terms', 'compose', 'decompose', 'gateway', 'confirm', 'deliver', 'reconcile', 'query'):
            section = part(self.text, f'### {name}')
            self.assertRegex(section, rf'(?m)^    {name}\b', name)
            self.assertRegex(section, r'(?m)^\| faults \| \S', name)

    def test_text_of_a_master_file(self):
        """The lines of the table are ones that the second program takes."""
        table = part(self.text, '## The text of a master file')
        shown = re.findall(r'^\| `([YSCXP] [^`]+)` \|', table, re.M)
        self.assertEqual([line[0] for line in shown], list('YSCXP'))
        text = '\n'.join(line for line in shown if line[0] != 'S')
        made, told = composed(text)
        self.assertTrue(made)
        self.assertEqual(told, b'')


def composed(text):
    done = subprocess.run([sys.executable, '-m', 'tests.second.lists', 'compose'], cwd=ROOT, input=text.encode(), capture_output=True, check=True)
    return done.stdout, done.stderr


if __name__ == '__main__':
    unittest.main()
