"""Tests of how the page reads a delivery, and where it finds a master file wrong: python3 -m tests.gate.page_reading

Against the second program's reading (second/rows.py): texts of the form that `deliver` writes are
read line by line as it reads them; the same rows in the forms of other vendors are read as they
are there. Of every stored master file that is refused the page names the block that was damaged.
Faults that are planted in the page's modules are found. Without node these tests are left out, and
a line says so.
"""

import base64
import json
import os
import re
import shutil
import subprocess
import sys
import tempfile
import unittest
from itertools import permutations

from tests import ROOT
from tests.inputs import cases
from tests.inputs.runs import rows as some_rows
from tests.inputs.runs.case import Chance
from tests.inputs.runs.histories import ITEMS
from tests.second import dates, rows, terms

EXAMPLE = os.path.join(ROOT, 'examples', 'morning')
KINDS = {'ABBN': 3, 'ALVF': 0, 'AXA': 3, 'AXAF': 0, 'AXAW': 5, 'BMW': 2, 'CIS': 1, 'EIA': 1, 'ENL5': 3, 'ENTF': 0, 'SIEW': 5, 'TOT5': 4}
MONTHS = ('Jan', 'Feb', 'Mar', 'Apr', 'May', 'Jun', 'Jul', 'Aug', 'Sep', 'Oct', 'Nov', 'Dec')
NAMES = ('January', 'February', 'March', 'April', 'May', 'June', 'July', 'August', 'September', 'October', 'November', 'December')


def stored(name):
    with open(os.path.join(EXAMPLE, name), 'rb') as file:
        return file.read()


SOURCE = None  # the page's modules, where they are not those of page/src


# What the page's modules say of some texts or files.
def answers(asked):
    ran = subprocess.run(['node', os.path.join(ROOT, 'tests', 'gate', 'page_reading.mjs'), *([SOURCE] if SOURCE else [])], input=json.dumps(asked).encode(), capture_output=True, timeout=300)
    if ran.returncode != 0:
        raise AssertionError(ran.stderr.decode())
    return json.loads(ran.stdout)


# What the page reads of some texts.
def read(texts, kinds=None, order=None):
    return answers([{'bytes': base64.b64encode(text).decode(), 'kinds': kinds or KINDS, 'order': order} for text in texts])


# The second program's rows of a text, as fields.
def second(text, kinds=None):
    known = {name.encode().ljust(4): kind for name, kind in (kinds or KINDS).items()}
    read = rows.read(text, known)
    return [fields(row, known) for row in read.good], read.bad


def fields(row, known):
    # of an id that is not in the file the second program keeps no key
    maturity = None if row.key is None else terms.key_text(known[row.code], row.key)
    numbers = [] if row.number is None else [row.number, row.back]
    return [row.code.decode().rstrip(), maturity, terms.day_text(row.day), *numbers]


# The page's rows, as the second program's are told.
def told(found, kinds=None):
    return [[id, maturity if id in (kinds or KINDS) else None, day, *map(int, numbers)] for id, maturity, day, *numbers in found['rows']]


# Whether a text is one that the page reads as this program does: it has no byte that makes it no text, and a line ends
# with a line feed alone (the page takes any line end).
def plain(text):
    return not re.search(rb'[\0-\x08\x0b-\x0c\x0e-\x1f\x80-\xff]', text.removeprefix(b'\xef\xbb\xbf')) and not re.search(rb'\r(?![\r\t ]*(\n|$))', text)


@unittest.skipUnless(shutil.which('node'), 'no node')
class Own(unittest.TestCase):
    """Texts of the form that `deliver` writes."""

    def test_the_morning(self):
        texts = [stored('delivery.csv'), stored('wrong.csv')]
        for text, found in zip(texts, read(texts), strict=True):
            self.assertEqual((told(found), found['bad']), second(text))
            self.assertTrue(found['plan']['own'])

    # Rows in any order, with three fields and five, quotes, separators, faults, bad lines among them.
    def test_many(self):
        kinds = {item.id.decode().rstrip(): item.kind for item in ITEMS}
        texts = []
        for number in range(400):
            chance = Chance(f'page {number}')
            text = some_rows.text_of(chance, stored('delivery.csv'), list(ITEMS))
            if plain(text):
                texts.append(text)
        self.assertGreater(len(texts), 200)
        compared = 0
        for text, found in zip(texts, read(texts, {**KINDS, **kinds}), strict=True):
            good, bad = second(text, {**KINDS, **kinds})
            if found['plan']['own']:
                compared += 1
                # a heading in other words is one for the page
                first = [found['first']] if found['plan']['heading'] else []
                self.assertEqual((told(found, {**KINDS, **kinds}), found['bad']), (good, [line for line in bad if line not in first]), text[:300])
        self.assertGreater(compared, 150)


# ---- Forms of other vendors ----

DAY_FORMS = ('iso', 'dots', 'short dots', 'slashes', 'american', 'named', 'upper', 'words', 'digits', 'year first', 'time', 'english')
MONTH_FORMS = ('iso', 'named', 'short', 'upper', 'slashes', 'digits', 'dots')


def day_in(form, day):
    _, year, month, of_month = dates.day_to_date(day)
    return {
        'iso': f'{year}-{month:02}-{of_month:02}', 'dots': f'{of_month:02}.{month:02}.{year}', 'short dots': f'{of_month}.{month}.{year % 100:02}',
        'slashes': f'{of_month:02}/{month:02}/{year}', 'american': f'{month:02}/{of_month:02}/{year}',
        'named': f'{of_month:02}-{MONTHS[month - 1]}-{year % 100:02}', 'upper': f'{of_month:02}{MONTHS[month - 1].upper()}{year}',
        'words': f'{of_month} {NAMES[month - 1]} {year}', 'english': f'{NAMES[month - 1]} {of_month}, {year}', 'digits': f'{year}{month:02}{of_month:02}',
        'year first': f'{year}/{month:02}/{of_month:02}', 'time': f'{year}-{month:02}-{of_month:02} 00:00:00',
    }[form]


def month_in(form, key):
    year, month = 2000 + key // 12, key % 12 + 1
    return {'iso': f'{year}-{month:02}', 'named': f'{MONTHS[month - 1]} {year}', 'short': f'{MONTHS[month - 1]}-{year % 100:02}', 'upper': f'{MONTHS[month - 1].upper()}{year % 100:02}',
            'slashes': f'{month:02}/{year}', 'digits': f'{year}{month:02}', 'dots': f'{month:02}.{year}'}[form]


# The rows of the morning: id, number, key, day, back.
def morning():
    known = {name.encode().ljust(4): kind for name, kind in KINDS.items()}
    return [(row.code.decode().rstrip(), row.number, row.key, row.day, row.back) for row in rows.read(stored('delivery.csv'), known).good]


# The morning in a form: which columns stand in which order, what parts them, and how dates and months are written.
def written(columns, separator=',', day='iso', month='iso', heading=None, quotes=False, end='\n'):
    lines = [separator.join(heading)] if heading else []
    for id, number, key, last, back in morning():
        maturity = day_in(day, key) if KINDS[id] == 5 else month_in(month, key)
        held = {'product': id, 'number': str(number), 'maturity': maturity, 'day': day_in(day, last), 'back': str(back), 'other': 'XPAR', 'empty': ''}
        lines.append(separator.join(f'"{held[column]}"' if quotes else held[column] for column in columns))
    return end.join(lines) + end


FIVE, THREE = ('product', 'number', 'maturity', 'day', 'back'), ('product', 'maturity', 'day')
TITLES = {'product': 'Symbol', 'number': 'Listing no', 'maturity': 'Contract month', 'day': 'Last trading day', 'back': 'Moved', 'other': 'Venue', 'empty': ''}


@unittest.skipUnless(shutil.which('node'), 'no node')
class Forms(unittest.TestCase):

    # The rows of the second program's reading, with five fields or three.
    def right(self, columns):
        found = second(stored('delivery.csv'))[0]
        return [row if 'number' in columns and 'back' in columns else row[:3] for row in found]

    def same(self, cases, order=None):
        texts = [written(*case[:1], **case[1]).encode(case[2] if len(case) > 2 else 'utf-8') for case in cases]
        for case, found in zip(cases, read(texts, order=order), strict=True):
            self.assertEqual((told(found), found['bad']), (self.right(case[0]), []), (case, found['plan']))

    def test_separators_and_quotes(self):
        self.same([(columns, {'separator': separator, 'quotes': quotes, 'end': end}) for columns in (THREE, FIVE) for separator in (*',;\t| ', '    ')
                   for quotes in (False, True) for end in ('\n', '\r\n', '\r')])

    # Columns that are lined up with spaces, their dates in several words.
    def test_lined_up(self):
        self.same([(columns, {'separator': '   ', 'day': day, 'month': 'named'}) for columns in (THREE, FIVE) for day in ('words', 'named', 'english')])

    # A first line for spreadsheets.
    def test_spreadsheets(self):
        text = written(FIVE, separator=';', heading=[TITLES[name] for name in FIVE])
        for first in ('sep=;\r\n', '"sep=;"\n', 'SEP=;\r'):
            [found] = read([(first + text).encode()])
            self.assertEqual((told(found), found['bad']), (self.right(FIVE), []))

    def test_marks_and_letters(self):
        self.same([(FIVE, {'end': '\r\n'}, encoding) for encoding in ('utf-8-sig', 'utf-16', 'utf-8', 'latin-1')])

    def test_dates(self):
        self.same([(FIVE, {'day': day, 'month': month, 'separator': ';'}) for day in DAY_FORMS for month in MONTH_FORMS])

    # Columns in any order, with others between them, under any heading or none.
    def test_columns(self):
        cases = []
        for columns in permutations(THREE):
            for others in (columns, ('other', *columns), (*columns, 'empty', 'other')):
                cases.append((others, {'day': 'named', 'month': 'named'}))
                cases.append((others, {'separator': ';', 'heading': [TITLES[name] for name in others], 'day': 'dots'}))
                cases.append((others, {'separator': '\t', 'heading': ['?'] * len(others)}))
        for columns in list(permutations(FIVE))[::7]:
            cases.append((columns, {'heading': [TITLES[name] for name in columns], 'day': 'digits', 'month': 'digits'}))
        self.same(cases)

    # Two columns of days: the heading's words say which is the maturity.
    def test_full_dates(self):
        weekly = [(id, key, day - 1) for id, _, key, day, _ in morning() if KINDS[id] == 5]
        for heading, swapped in ((('Id', 'Expiry Friday', 'Last trading day'), False), (('Id', 'Last trading day', 'Maturity'), True), (None, False)):
            lines = [','.join(heading)] if heading else []
            for id, key, day in weekly:
                lines.append(','.join([id, *[day_in('dots', one) for one in ((day, key) if swapped else (key, day))]]))
            [found] = read(['\n'.join(lines).encode()])
            self.assertEqual(found['rows'], [[id, day_in('iso', key), day_in('iso', day)] for id, key, day in weekly], heading)

    # What is ambiguous is told, and no row of it is read before it is answered.
    def test_asked(self):
        text = b'AXA;May 2008;06/05/2008\nABBN;Jun 2008;05/06/2008\n'
        [found] = read([text])
        self.assertEqual((found['rows'], found['bad'], found['open']), ([], [1, 2], {'number': 1, 'text': '06/05/2008'}))
        for order, days in (('day', ['2008-05-06', '2008-06-05']), ('month', ['2008-06-05', '2008-05-06'])):
            [found] = read([text], order=order)
            self.assertEqual([row[2] for row in found['rows']], days)
        [found] = read([text + b'BMW;Jun 2008;20/06/2008\n'])
        self.assertEqual((found['order'], [row[2] for row in found['rows']]), ('day', ['2008-05-06', '2008-06-05', '2008-06-20']))
        [found] = read([text + b'BMW;Jun 2008;20/06/2008\nCIS;Jun 2008;06/20/2008\n'])
        self.assertEqual((found['order'], found['rows']), (None, [['BMW', '2008-06', '2008-06-20'], ['CIS', '2008-06', '2008-06-20']]))
        [found] = read([b'AXA;Jun 2008;06/06/2008\nABBN;Jun 2008;6/6/08\n'])
        self.assertEqual((found['open'], [row[2] for row in found['rows']]), (None, ['2008-06-06'] * 2))

    # Days that only some years have, and quotes within quotes.
    def test_days_and_quotes(self):
        [found] = read([b'Id;Note;Month;Last\nAXA;"a ""b;"" c";Feb 2008;29.02.2008\nAXA;"";Feb 2009;29.02.2009\nBMW;x;Mar 2008;31-Mar-08\nBMW;x;Apr 2008;31-Apr-08\nBMW;x;May 2008;16-May-08\nBMW;x;Jun 2008;20-Jun-08\n'])
        self.assertEqual((found['rows'], found['bad']), ([['AXA', '2008-02', '2008-02-29'], ['BMW', '2008-03', '2008-03-31'], ['BMW', '2008-05', '2008-05-16'], ['BMW', '2008-06', '2008-06-20']], [3, 5]))

    # Lines that are no rows, each with its number; the others are read.
    def test_bad(self):
        text = 'Product;Month;Last day\nAXA;Jun 2008;20 Jun 2008\n\nAXA;Jul 2008;31 Jun 2008\nAXAW;Jun 2008;20 Jun 2008\n;Jun 2008;20 Jun 2008\n<b>AXA</b>;Jun 2008;20 Jun 2008\nAXA;Jun 2108;20 Jun 2008\nAXA\nBMW;20 Jun 2008;20 Jun 2008\nBMW;Sep 2008;19 Sep 2008\n'
        [found] = read([text.encode()])
        self.assertEqual(found['bad'], [4, 5, 6, 7, 8, 9])
        self.assertEqual(found['rows'], [['AXA', '2008-06', '2008-06-20'], ['BMW', '2008-06', '2008-06-20'], ['BMW', '2008-09', '2008-09-19']])

    def test_no_text(self):
        for data in (bytes(1000), bytes(range(256)) * 10, b'\x7fELF\x02\x01\x01\0\0\0', b'PK\x03\x04' + b'x' * 100):
            [found] = read([data])
            self.assertEqual((found['binary'], found['rows']), (True, []))
        for data in (b'', b'\n\n', b'   ', b'x', b'\xef\xbb\xbf', b'"', b'"' * 1000, b',' * 1000):
            [found] = read([data])
            self.assertEqual(found['rows'], [])


# ---- Master files ----

# The blocks of the six-block files that the names of cases speak of, and the word that the page has for a field.
PLACES = {'block': {'first': 0, 'middle': 2, 'last': 5}, 'calendar': {'first': 0, 'middle': 1, 'last': 2}, 'products': {'first': 3, 'middle': 4, 'last': 5}}
FIELDS = {'id': 'its id', 'group': 'its group', 'market': 'market', 'kind': 'kind', 'size': 'size', 'tick': 'tick', 'currency': 'currency'}


@unittest.skipUnless(shutil.which('node'), 'no node')
class Where(unittest.TestCase):

    # Of every refused file something is named; of those with one damage the block and the field of it.
    def test_cases(self):
        refused = [(name, data) for name, data in cases.cases() if cases.refusal_of(name)]
        found = answers([{'bytes': base64.b64encode(data).decode(), 'refusal': cases.refusal_of(name)} for name, data in refused])
        blocks = fields = 0
        for (name, _), words in zip(refused, found, strict=True):
            self.assertIsNotNone(words, name)
            place = re.search(r'(first|middle|last)-(block|calendar|products)', name)
            if place and name[:2] in ('q2', 'q3', 'q5'):
                blocks += 1
                self.assertTrue(words.startswith(f'block {PLACES[place[2]][place[1]]}: '), (name, words))
            field = re.match(r'q7-(id|group|market|kind|size|tick|currency)-\d+-[0-9a-f]+$', name)
            if field:
                fields += 1
                self.assertIn(FIELDS[field[1]], words, name)
        self.assertGreater(blocks, 25)
        self.assertGreater(fields, 40)


# ---- Planted faults ----

# A module of the page, what stands there, what stands there instead, and the test that finds it.
FAULTS = (
    ('dates.js', 'as_day(year_of(m[3]), +m[2], +m[1])]', 'as_day(year_of(m[3]), +m[1], +m[2])]', 'Forms.test_dates'),
    ('dates.js', 'first === second ? by_day : { either: { day: by_day.day, month: by_month.day } }', 'by_day', 'Forms.test_asked'),
    ('dates.js', '2000 + Number(digits)', '1900 + Number(digits)', 'Forms.test_dates'),
    ('dates.js', 'leap ? 29 : 28', '28', 'Forms.test_days_and_quotes'),
    ('rows.js', r'const ends = /\r\n|\n|\r/g;', r'const ends = /\n/g;', 'Forms.test_separators_and_quotes'),
    ('rows.js', """else if (line[i + 1] === '"') field += line[++i];""", '', 'Forms.test_days_and_quotes'),
    ('rows.js', "take('maturity', swapped ? other : one);", "take('maturity', one);", 'Forms.test_full_dates'),
    ('rows.js', 'iso(date.month ?? day.slice(0, 2))', 'iso(date.month ?? day)', 'Forms.test_bad'),
    ('rows.js', '[id, maturity, day, ...numbers] : null', '[id, maturity, day] : null', 'Own.test_the_morning'),
    ('rows.js', 'bytes[0] === 0xff && bytes[1] === 0xfe', 'false', 'Forms.test_marks_and_letters'),
    ('rows.js', 'if (weekly && !day)', 'if (false)', 'Forms.test_bad'),
    ('rows.js', 'found.open = { number, text: field }', 'found.open = null', 'Forms.test_asked'),
    ('master.js', '(sum + (i + 1) * block[i]) % MODULUS', '(sum + i * block[i]) % MODULUS', 'Where.test_cases'),
    ('master.js', 'if (word(block, 4) !== index)', 'if (false)', 'Where.test_cases'),
    ('master.js', '![1, 5, 10, 100].includes', '![1, 2, 5, 10, 100].includes', 'Where.test_cases'),
)


@unittest.skipUnless(shutil.which('node'), 'no node')
class Faults(unittest.TestCase):

    # Whether a test fails with the modules of a folder.
    def fails(self, folder, test):
        global SOURCE
        SOURCE = folder
        try:
            with open(os.devnull, 'w', encoding='utf-8') as nowhere:
                tests = unittest.defaultTestLoader.loadTestsFromName(test, sys.modules[__name__])
                return not unittest.TextTestRunner(stream=nowhere).run(tests).wasSuccessful()
        finally:
            SOURCE = None

    def test_found(self):
        for name, old, new, test in FAULTS:
            with self.subTest(fault=(name, new)), tempfile.TemporaryDirectory() as folder:
                source = shutil.copytree(os.path.join(ROOT, 'page'), os.path.join(folder, 'page'), ignore=shutil.ignore_patterns('*.html', '*.png'))
                path = os.path.join(source, 'src', name)
                with open(path, encoding='utf-8') as file:
                    text = file.read()
                self.assertEqual(text.count(old), 1, (name, old))
                with open(path, 'w', encoding='utf-8') as out:
                    out.write(text.replace(old, new))
                self.assertTrue(self.fails(os.path.join(source, 'src'), test))


if __name__ == '__main__':
    if not shutil.which('node'):
        print("page: no node, so the page's reading of deliveries and master files is left out")
    sys.exit(unittest.main())
