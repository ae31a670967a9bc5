"""Tests of tools/pictures.

What the pictures say is held to answers worked by hand from the papers; no text lies over another or leaves its picture,
by widths that are those of a wide font; words stand out from their ground in light and dark; and the check finds a
picture that is changed or missing.
"""
import re
import shutil
import subprocess
import tempfile
import unittest
import xml.etree.ElementTree as ElementTree
from pathlib import Path

import tests
from tools.pictured.svg import DARK, LIGHT

ROOT = Path(tests.ROOT)
FOLDER = ROOT / 'docs' / 'pictures'
NAMES = ['march-2008.svg', 'numbers.svg'] + [f'kind-{kind}.svg' for kind in range(6)]
SVG = '{http://www.w3.org/2000/svg}'

# The width of a character of a wide font, and of a bold one, by its size.
WIDE, BOLD = 0.6, 0.68

# By hand, from 01, "Listed months", and 02, notes 1 and 3, on 20 March 2008, the last trading day of March.
LISTED = {
    0: 'ALVF lists 15 months: Mar 2008, Apr 2008, May 2008, Jun 2008, Jul 2008, Aug 2008, Sep 2008, Oct 2008, Nov 2008, Dec 2008, '
       'Jan 2009, Feb 2009, Mar 2009, Dec 2009, Dec 2010.',
    1: 'CIS lists 6 months: Mar 2008, Apr 2008, May 2008, Jun 2008, Sep 2008, Dec 2008.',
    2: 'BMW lists 8 months: Mar 2008, Apr 2008, May 2008, Jun 2008, Sep 2008, Dec 2008, Jun 2009, Dec 2009.',
    3: 'AXA lists 12 months: Mar 2008, Apr 2008, May 2008, Jun 2008, Sep 2008, Dec 2008, Jun 2009, Dec 2009, Jun 2010, Dec 2010, '
       'Dec 2011, Dec 2012.',
    4: 'TOT5 lists 7 months: Mar 2008, Apr 2008, May 2008, Jun 2008, Jul 2008, Sep 2008, Dec 2008.',
    5: 'AXAW lists 4 Fridays: 28 Mar, 4 Apr, 11 Apr, 25 Apr.'}


def parsed(name):
    return ElementTree.parse(FOLDER / name).getroot()


def described(name):
    return parsed(name).find(SVG + 'desc').text


def box(text):
    """A text and where it stands: left, top, right, bottom."""
    size, words = float(text.get('font-size')), text.text
    width = size * len(words) * (BOLD if text.get('font-weight') else WIDE)
    x, y = float(text.get('x')), float(text.get('y'))
    left = x - {'middle': width / 2, 'end': width}.get(text.get('text-anchor'), 0)
    return words, left, y - size * 0.8, left + width, y + size * 0.25


def over(one, other):
    return one[1] < other[3] and other[1] < one[3] and one[2] < other[4] and other[2] < one[4]


def brightness(colour):
    parts = [int(colour[place:place + 2], 16) / 255 for place in (1, 3, 5)]
    linear = [part / 12.92 if part <= 0.04045 else ((part + 0.055) / 1.055) ** 2.4 for part in parts]
    return 0.2126 * linear[0] + 0.7152 * linear[1] + 0.0722 * linear[2]


def contrast(one, other):
    lighter, darker = sorted((brightness(one), brightness(other)), reverse=True)
    return (lighter + 0.05) / (darker + 0.05)


class Said(unittest.TestCase):
    def test_listed(self):
        for kind, words in LISTED.items():
            self.assertEqual(described(f'kind-{kind}.svg'), words)

    def test_as_many_cells_as_are_listed(self):
        """The filled cells of a strip are those that are listed; the squares of the legend are 14 wide."""
        for kind, words in LISTED.items():
            filled = [each for each in parsed(f'kind-{kind}.svg').iter(SVG + 'rect')
                      if each.get('class') in ('one', 'two', 'three', 'four') and each.get('width') != '14']
            self.assertEqual(len(filled), len(words.partition(': ')[2].split(',')), kind)

    def test_march(self):
        words = described('march-2008.svg')
        self.assertIn('AXA: the usual day is the third Friday, 21 March 2008. It is closed, so the month ends on Thursday, 20 March 2008, '
                      'the latest trading day before it: 1 day back.', words)
        self.assertIn('ENL5, an Italian option: the usual day is the Thursday before, 20 March 2008, a trading day: 0 days back.', words)

    def test_numbers(self):
        """By hand: April to December 2008 have 2 to 6 from the opening; each roll lets one month in, in May July, and so on."""
        words = described('numbers.svg')
        self.assertIn('Mar 2008 has 1, Apr 2008 has 2, May 2008 has 3, Jun 2008 has 4, Jul 2008 has 8, Aug 2008 has 9, Sep 2008 has 5,', words)
        self.assertIn('Mar 2009 has 7, Apr 2009 has 17, May 2009 has 18, Jun 2009 has 10, Sep 2009 has 13, Dec 2009 has 16.', words)
        self.assertTrue(words.endswith('Rolled once only, to the last date: Apr 2009 8 instead of 17, May 2009 9 instead of 18, '
                                       'Sep 2009 11 instead of 13, Dec 2009 12 instead of 16.'), words)


class Drawn(unittest.TestCase):
    def test_names_for_those_who_hear_it(self):
        for name in NAMES:
            root = parsed(name)
            self.assertEqual((root.get('role'), root.get('aria-labelledby')), ('img', 'title description'), name)
            self.assertEqual([root.find(SVG + tag).get('id') for tag in ('title', 'desc')], ['title', 'description'], name)
            self.assertTrue(all(len(root.find(SVG + tag).text) > 20 for tag in ('title', 'desc')), name)

    def test_no_text_over_another_or_outside(self):
        for name in NAMES:
            root = parsed(name)
            boxes = [box(text) for text in root.iter(SVG + 'text')]
            self.assertGreater(len(boxes), 4, name)
            for place, one in enumerate(boxes):
                self.assertTrue(0 <= one[1] and one[3] <= float(root.get('width')) and one[4] <= float(root.get('height')), (name, one))
                for other in boxes[place + 1:]:
                    self.assertFalse(over(one, other), (name, one, other))

    def test_words_stand_out(self):
        for colours in (LIGHT, DARK):
            for word, grounds in {'word': ('ground', 'empty', 'stop'), 'weak': ('ground', 'empty'), 'mark': ('ground',),
                                  'in': ('one', 'two', 'three', 'four')}.items():
                for ground in grounds:
                    self.assertGreaterEqual(contrast(colours[word], colours[ground]), 4.5, (word, ground))

    def test_ask_nothing_of_the_network(self):
        for name in NAMES:
            text = (FOLDER / name).read_text(encoding='utf-8')
            self.assertEqual(re.findall(r'https?://[^"\s]+', text), ['http://www.w3.org/2000/svg'], name)
            self.assertNotRegex(text, r'<script|url\(|@import|href', name)


class Check(unittest.TestCase):
    def checked(self, change):
        """What the check says of a copy of the pictures after a change of the folder."""
        with tempfile.TemporaryDirectory() as folder:
            root = Path(folder)
            shutil.copytree(FOLDER, root / 'docs' / 'pictures')
            shutil.copytree(ROOT / 'examples' / 'morning', root / 'examples' / 'morning')
            change(root / 'docs' / 'pictures')
            done = subprocess.run([ROOT / 'tools' / 'pictures', '--check', '--root', root], capture_output=True, text=True, check=False)
            return done.returncode, done.stdout.splitlines()

    def test_nothing_changed(self):
        self.assertEqual(self.checked(lambda folder: None), (0, ['the pictures: 8 drawn from the second program']))

    def test_changed(self):
        def change(folder):
            path = folder / 'march-2008.svg'
            path.write_text(path.read_text(encoding='utf-8').replace('20 March', '24 March'), encoding='utf-8')
        self.assertEqual(self.checked(change), (1, ['docs/pictures/march-2008.svg is not what tools/pictures draws: run tools/pictures']))

    def test_missing(self):
        self.assertEqual(self.checked(lambda folder: (folder / 'kind-4.svg').unlink()), (1, ['docs/pictures/kind-4.svg is missing: run tools/pictures']))


if __name__ == '__main__':
    unittest.main()
