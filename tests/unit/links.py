"""Tests of tools/links.

A folder with a link of each kind is made, and each fault that has to be found is planted in it.
"""

import os
import subprocess
import sys
import tempfile
import unittest

import tests

ROOT = str(tests.ROOT)
LINKS = os.path.join(ROOT, 'tools', 'links')
RIGHT = {
    'README.md': '# A house\n\n[the page](docs/PAGE.md), [its second part](docs/PAGE.md#the-second-part-of-two), [here](#a-house), '
                 '![a picture](docs/picture.svg), [elsewhere](https://example.org/none), [the edition](docs/reading/index.html#one)\n'
                 '\n`[no link](none.md)`\n\n```\n[no link](none.md)\n# no heading\n```\n',
    'docs/PAGE.md': '# Page\n\n## The `second` part, of two\n\n## Page\n\n[up](../README.md), [the other](#page-1)\n',
    'docs/picture.svg': '<svg xmlns="http://www.w3.org/2000/svg"/>\n',
    'docs/reading/index.html': '<!DOCTYPE html><p id="one"><a href="#one">one</a> <a href="../PAGE.md">page</a></p>\n',
}
# A file, what stands there, what stands there instead, and the line that has to come.
FAULTS = (
    ('README.md', '(docs/PAGE.md)', '(docs/PAGES.md)', 'README.md:3: docs/PAGES.md: there is no such file'),
    ('README.md', '#the-second-part-of-two', '#the-second-part', 'docs/PAGE.md#the-second-part: docs/PAGE.md has no such anchor'),
    ('README.md', '(#a-house)', '(#no-heading)', 'README.md:3: #no-heading: README.md has no such anchor'),
    ('README.md', 'picture.svg', 'picture.png', 'README.md:3: docs/picture.png: there is no such file'),
    ('README.md', 'index.html#one', 'index.html#two', 'docs/reading/index.html#two: docs/reading/index.html has no such anchor'),
    ('README.md', '(docs/PAGE.md)', '(../../..)', 'README.md:3: ../../..: it leads out of the repository'),
    ('docs/PAGE.md', '#page-1', '#page-2', 'docs/PAGE.md:7: #page-2: docs/PAGE.md has no such anchor'),
    ('docs/reading/index.html', '"#one"', '"#three"', 'docs/reading/index.html:1: #three: docs/reading/index.html has no such anchor'),
    ('docs/reading/index.html', '../PAGE.md', '../PAPER.md', 'docs/reading/index.html:1: ../PAPER.md: there is no such file'),
)


# What tools/links says of a folder with these files: its status and its lines.
def said(files):
    with tempfile.TemporaryDirectory() as folder:
        for name, text in files.items():
            path = os.path.join(folder, name)
            os.makedirs(os.path.dirname(path), exist_ok=True)
            with open(path, 'w', encoding='utf-8') as out:
                out.write(text)
        ran = subprocess.run([sys.executable, LINKS, '--root', folder], stdout=subprocess.PIPE, text=True)
    return ran.returncode, ran.stdout.splitlines()


class Links(unittest.TestCase):

    def test_right(self):
        self.assertEqual(said(RIGHT), (0, ['links: 10 links in 3 documents name what there is']))

    def test_faults(self):
        for name, old, new, line in FAULTS:
            with self.subTest(line=line):
                self.assertEqual(RIGHT[name].count(old), 1)
                status, lines = said({**RIGHT, name: RIGHT[name].replace(old, new)})
                self.assertEqual((status, len(lines)), (1, 1), lines)
                self.assertIn(line, lines[0])


if __name__ == '__main__':
    unittest.main()
