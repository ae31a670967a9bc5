"""Tests of tools/reading: each fault is planted in a copy of the repository, and the check names it.

The script that keeps the ticks runs in node; without node its tests are left out, and a line says so.
"""
import json
import re
import shutil
import subprocess
import sys
import tempfile
import unittest
from html import unescape
from pathlib import Path

import tests
from tools.edition import days, specs
from tools.edition.book import Book
from tools.edition.pages import SCRIPT, Press, file_of

ROOT = Path(tests.ROOT)

READING = 'docs/READING.md'
GREGORIAN = 'crates/days/specs/Gregorian.antt'
ROW = "| 'Weekday = (day + 5) mod 7, Monday 0' | `days` Gregorian: `weekday_of` | `weekday` | contract | |"


class Copy:
    """A copy of the repository in which a file is changed for a time."""

    def __init__(self):
        self.folder = tempfile.TemporaryDirectory()
        self.root = Path(self.folder.name) / 'copy'
        shutil.copytree(ROOT, self.root, ignore=shutil.ignore_patterns('target', '.git', '__pycache__'))

    def check(self, *arguments):
        """Status and lines of the check."""
        done = subprocess.run([sys.executable, ROOT / 'tools' / 'reading', '--root', self.root, *(arguments or ['--check'])],
                              capture_output=True, text=True, check=False)
        return done.returncode, done.stdout.splitlines() + done.stderr.splitlines()

    def with_file(self, name, text):
        """What the check says while a file has another text; None for a file that is gone."""
        path = self.root / name
        before = path.read_bytes() if path.exists() else None
        if text is None:
            path.unlink()
        else:
            path.write_text(text, encoding='utf-8')
        try:
            return self.check()
        finally:
            if before is None:
                path.unlink()
            else:
                path.write_bytes(before)

    def with_change(self, name, old, new):
        text = (self.root / name).read_text(encoding='utf-8')
        assert text.count(old) == 1, f'{name} has {text.count(old)} times: {old}'
        return self.with_file(name, text.replace(old, new))


class Faults(unittest.TestCase):
    @classmethod
    def setUpClass(cls):
        cls.copy = Copy()

    @classmethod
    def tearDownClass(cls):
        cls.copy.folder.cleanup()

    def named(self, found, *parts):
        """The check failed, and one of its lines has all these parts."""
        status, lines = found
        self.assertEqual(status, 1, lines)
        self.assertTrue(any(all(part in line for part in parts) for line in lines), lines)

    def in_row(self, old, new):
        line = (self.copy.root / READING).read_text(encoding='utf-8').split('\n').index(ROW) + 1
        return self.copy.with_change(READING, ROW, ROW.replace(old, new)), f'{READING}, line {line}: '

    def test_without_a_fault(self):
        status, lines = self.copy.check()
        self.assertEqual((status, len(lines)), (0, 1), lines)

    def test_definition_without_a_row(self):
        text = (self.copy.root / GREGORIAN).read_text(encoding='utf-8')
        found = self.copy.with_file(GREGORIAN, text + '\n-- a new one\nabbrev pub new_one : ℕ\nnew_one = 1\n')
        self.named(found, f'{GREGORIAN}: definition `new_one` has no row in {READING}')

    def test_definition_that_lost_its_row(self):
        self.named(self.copy.with_change(READING, ROW + '\n', ''), f'{GREGORIAN}: definition `weekday_of` has no row in {READING}')

    def test_definition_that_is_only_mentioned(self):
        found, _ = self.in_row('`days` Gregorian', 'see `days` Gregorian')
        self.named(found, f'{GREGORIAN}: definition `weekday_of` has no row in {READING}')

    def test_definition_that_does_not_exist(self):
        found, line = self.in_row('`weekday_of`', '`weekday_of`, `weekday_for`')
        self.named(found, line, f'definition `weekday_for` does not exist in {GREGORIAN}')

    def test_file_of_definitions_that_does_not_exist(self):
        found, line = self.in_row('`days` Gregorian: `weekday_of`', '`days` Gregorian: `weekday_of`; Julian: `weekday_of`')
        self.named(found, line, f'definition `weekday_of` does not exist in crates/days/specs/Julian.antt ({GREGORIAN} has it)')

    def test_crate_that_does_not_exist(self):
        found, line = self.in_row('`weekday_of`', '`weekday_of`; `weeks` Weeks: `weekday_of`')
        self.named(found, line, 'there is no crate `weeks`')

    def test_definition_without_its_crate(self):
        found, line = self.in_row('`days` Gregorian: `weekday_of`', '`weekday_of`')
        self.named(found, line, 'definition `weekday_of` stands without its crate and file')

    def test_field_of_two_records(self):
        found, line = self.in_row('`weekday_of`', '`weekday_of`; `session_text` Buffer: `long`')
        self.named(found, line, 'field `long` is one of Written and Printed: name the record before it')

    def test_word_that_is_not_explained(self):
        found = self.copy.with_change(GREGORIAN, ', eqb, length}', ', eqb, neb, length}')
        self.named(found, f'{GREGORIAN}: `neb` is used, and the notation in {READING} does not explain it')

    def test_declaration_that_does_not_exist(self):
        found, line = self.in_row('`weekday_of`', '`weekday_of`; `calendar`: `struct Covers`')
        self.named(found, line, 'no `struct Covers` in the code of `calendar`')

    def test_function_that_does_not_exist(self):
        found, line = self.in_row('`weekday` |', '`weekday`, `week_day` |')
        self.named(found, line, 'function `week_day` does not exist in `days`')

    def test_function_of_another_crate_that_does_not_exist(self):
        found, line = self.in_row('`weekday` |', '`calendar::weekday` |')
        self.named(found, line, 'function `calendar::weekday` does not exist in `calendar`')

    def test_theorem_that_does_not_exist(self):
        found, line = self.in_row('contract', 'Table: `first-on`')
        self.named(found, line, 'theorem `first-on` does not exist in Table of days')

    def test_edit_that_does_not_exist(self):
        found, line = self.in_row('contract | |', 'contract | `days`: `monday_is_1` |')
        self.named(found, line, 'edit `monday_is_1` does not exist in crates/days/must-fail')

    def test_file_that_does_not_exist(self):
        found, line = self.in_row('contract', '`tests/test_weekdays.py`')
        self.named(found, line, 'the repository has no file `tests/test_weekdays.py`')

    def test_row_with_a_cell_too_few(self):
        found, line = self.in_row(' contract | |', ' contract |')
        self.named(found, line, '4 cells, not 5')

    def test_second_page_of_a_name(self):
        found = self.copy.with_change(READING, '## Last trading day\n', '## Days and months\n')
        self.named(found, f'{READING}, line ', 'a second page Days and months')

    def test_edit_without_a_row(self):
        found = self.copy.with_file('crates/days/must-fail/monday_is_1.edit', 'file: src/lib.rt\nold: a\nnew: b\n')
        self.named(found, f'crates/days/must-fail/monday_is_1.edit: the edit has no row in {READING}')

    def test_edit_that_is_gone(self):
        found = self.copy.with_file('crates/days/must-fail/day_one_late.edit', None)
        self.named(found, f'{READING}, line ', 'edit `day_one_late` does not exist in crates/days/must-fail')

    def test_lines_that_are_no_definition(self):
        text = (self.copy.root / GREGORIAN).read_text(encoding='utf-8')
        found = self.copy.with_file(GREGORIAN, text + '\nnew_one : ℕ\nnew_one = 1\n')
        self.named(found, GREGORIAN, 'no definition that the reading edition knows: new_one : ℕ')

    def test_page_that_is_changed(self):
        found = self.copy.with_change('docs/reading/days-and-months.html', '(d + 5) % 7', '(d + 4) % 7')
        self.named(found, 'docs/reading/days-and-months.html is not what tools/reading writes')

    def test_definition_that_is_changed(self):
        found = self.copy.with_change(GREGORIAN, 'weekday_of d = (d + 5) % 7', 'weekday_of d = (d + 4) % 7')
        self.named(found, 'docs/reading/days-and-months.html is not what tools/reading writes')

    def test_page_that_is_missing(self):
        self.named(self.copy.with_file('docs/reading/demand-3.html', None), 'docs/reading/demand-3.html is missing')

    def test_page_that_is_none(self):
        self.named(self.copy.with_file('docs/reading/note-15.html', '<p>a note</p>'), 'docs/reading/note-15.html is no page of the edition')

    def test_style_sheet_that_is_missing(self):
        self.named(self.copy.with_file('docs/reading/reading.css', None), 'docs/reading/reading.css')

    def test_script_that_is_missing(self):
        self.named(self.copy.with_file('docs/reading/ticks.js', None), 'docs/reading/ticks.js')


class Edition(unittest.TestCase):
    @classmethod
    def setUpClass(cls):
        cls.book = Book(ROOT)
        cls.press = Press(cls.book)
        cls.pages = cls.press.all()

    def test_every_definition_stands_once(self):
        marks = re.findall(r'\bid="([^"]+)"', ''.join(self.pages.values()))
        for definition in self.book.names.definitions:
            self.assertEqual(marks.count(self.press.anchor(definition)), 1, definition.key)

    def test_every_line_of_every_definition_is_there(self):
        shown = {name: set(unescape(re.sub(r'<[^>]+>', '', text.replace('</p>', '\n'))).split('\n')) for name, text in self.pages.items()}
        for definition in self.book.names.definitions:
            page = shown[file_of(self.book.homes.rows[definition.key].page)]
            missing = [line for part in definition.parts for line in part.lines if line.strip() not in page]
            self.assertEqual(missing, [], definition.key)

    def test_whole_edition_has_every_page(self):
        whole = Press(self.book).one_file('', '')
        self.assertEqual(whole.count('<h1>'), len(self.pages))
        marks = re.findall(r'\bid="([^"]+)"', whole)
        self.assertEqual(len(marks), len(set(marks)))
        self.assertEqual(set(re.findall(r'href="([^"]+)"', whole)) - {'#' + mark for mark in marks}, set())
        self.assertEqual({source.partition(',')[0] for source in re.findall(r'src="([^"]+)"', whole)}, {'data:image/svg+xml;base64'})
        self.assertEqual(sorted(ticks(whole)), sorted(tick for text in self.pages.values() for tick in ticks(text)))

    def test_last_trading_day_begins_with_the_rule(self):
        page = self.pages['last-trading-day.html']
        marks = re.findall(r'class="pair" id="([^"]+)"', page)
        self.assertEqual(marks[0], 'last_trading_day')
        for letters in ('IT', 'is_code', 'one_of_codes', 'group_code'):
            self.assertGreater(marks.index(letters), marks.index('last_day'), letters)

    def test_pictures(self):
        """Each picture is on one page, with words for those who hear it, and is there."""
        found = [(name, picture) for name, text in self.pages.items() for picture in re.findall(r'<img src="([^"]+)" alt="([^"]+)">', text)]
        self.assertEqual(sorted(picture[0] for _, picture in found), sorted(f'../pictures/{path.name}' for path in self.drawn()))
        for name, (source, words) in found:
            self.assertTrue((ROOT / 'docs' / 'reading' / source).is_file() and len(words) > 20, (name, source))

    def drawn(self):
        return [ROOT / 'docs' / 'pictures' / name for name in ('march-2008.svg', 'numbers.svg', *(f'kind-{kind}.svg' for kind in range(6)))]

    def test_papers(self):
        """The first page says where the papers are."""
        for name in ('01-scope.md', '02-change-requests.md'):
            self.assertIn(name, self.pages['index.html'])

    def test_parts_of_a_record(self):
        demand = next(each for each in self.book.names.definitions if each.name == 'Demand3')
        self.assertIn('one-month', demand.fields)
        self.assertEqual(demand.parts[1].names[0], 'book-calendar')

    def test_definitions_are_all_that_a_plain_count_finds(self):
        plain = sum(len(re.findall(r'^ *(?:(?:unfoldable|abbrev) pub|pub (?:record|data)) ', path.read_text(encoding='utf-8'), re.MULTILINE))
                    for path in ROOT.glob('crates/*/specs/*.antt'))
        self.assertEqual(len(specs.all_definitions(ROOT)), plain)


def ticks(text):
    """The names under which the ticks of a page are kept."""
    return re.findall(r'<input type="checkbox" data-tick="([^"]+)">', text)


class Ticks(unittest.TestCase):
    """Each box has a name of its own, which goes with what was read."""

    @classmethod
    def setUpClass(cls):
        cls.copy = Copy()
        cls.book = Book(cls.copy.root)
        cls.before = by_row(cls.book)

    @classmethod
    def tearDownClass(cls):
        cls.copy.folder.cleanup()

    def changed(self, name, old, new):
        """The rows whose boxes have other names after a change of a file."""
        path = self.copy.root / name
        text = path.read_text(encoding='utf-8')
        self.assertEqual(text.count(old), 1, old)
        path.write_text(text.replace(old, new), encoding='utf-8')
        try:
            after = by_row(Book(self.copy.root))
        finally:
            path.write_text(text, encoding='utf-8')
        self.assertEqual(self.before.keys(), after.keys())
        return {row for row, names in self.before.items() if names != after[row]}

    def rows(self, holds):
        """The rows with a box of which something holds."""
        return {f'r{row.label}' for page in self.book.all_pages() for row in page.rows if holds(row) and self.before[f'r{row.label}']}

    def test_every_box_has_a_name_of_its_own(self):
        names = [name for names in self.before.values() for name in names]
        self.assertGreater(len(names), 300)
        self.assertEqual(len(set(names)), len(names))
        self.assertEqual(len(names), sum(text.count('<input') for text in Press(self.book).all().values()))

    def test_a_definition_that_changes(self):
        """The rows that name the definition, and no others."""
        named = self.rows(lambda row: any(getattr(each.what, 'name', '') == 'weekday_of' for each in row.found['definition'].names))
        self.assertTrue(named)
        self.assertEqual(self.changed(GREGORIAN, 'weekday_of d = (d + 5) % 7', 'weekday_of d = (d + 4) % 7'), named)

    def test_a_sentence_that_changes(self):
        row = self.rows(lambda row: row.cells['sentence'].startswith("'Weekday ="))
        self.assertEqual(len(row), 1)
        self.assertEqual(self.changed(READING, ROW, ROW.replace('Monday 0', 'Tuesday 0')), row)


def by_row(book):
    """The names of the boxes of each row of a book."""
    made = ''.join(Press(book).all().values())
    return {label: ticks(section) for section, label in re.findall(r'(<section id="(r[\d.]+)">.*?</section>)', made, re.S)}


# A page of some boxes for the script: what it shows after some acts, each a box that is ticked or opened, in a browser that keeps
# its storage or refuses it. `[shown at first, shown at the end, what is kept]`.
PAGE = r'''
const [script, names, kept, acts, refuses] = JSON.parse(require('fs').readFileSync(0, 'utf8'));
const storage = new Map(Object.entries(kept)), boxes = names.map((name) => {
  const box = { dataset: { tick: name }, checked: false, heard: [] };
  box.addEventListener = (kind, act) => { if (kind === 'change') box.heard.push(act); };
  return box;
});
const line = { textContent: '' };
const held = { getItem: (key) => storage.has(key) ? storage.get(key) : null, setItem: (key, value) => storage.set(key, String(value)), removeItem: (key) => storage.delete(key) };
const window = { addEventListener: () => {}, get localStorage() { if (refuses) throw new Error('no storage'); return held; } };
const document = { querySelectorAll: () => boxes, querySelector: () => line };
const state = () => [boxes.map((box) => box.checked), line.textContent];
new Function('window', 'document', script)(window, document);
const first = state();
for (const [place, checked] of acts) { boxes[place].checked = checked; for (const act of boxes[place].heard) act(); }
console.log(JSON.stringify([first, state(), Object.fromEntries(storage)]));
'''


@unittest.skipUnless(shutil.which('node'), 'node is not installed')
class Kept(unittest.TestCase):
    """The script that keeps the ticks, on a page of three boxes."""

    def page(self, kept, acts, refuses=False, names=('a-1', 'a-2', 'b-1')):
        script = (ROOT / 'docs' / 'reading' / SCRIPT).read_text(encoding='utf-8')
        done = subprocess.run(['node', '-e', PAGE], input=json.dumps([script, names, kept, acts, refuses]), capture_output=True, text=True, check=True)
        return json.loads(done.stdout)

    def test_a_tick_is_there_again(self):
        _, ticked, kept = self.page({}, [(1, True)])
        self.assertEqual(ticked, [[False, True, False], '1 of 3 boxes ticked; the ticks are kept in this browser.'])
        first, _, _ = self.page(kept, [])
        self.assertEqual(first, ticked)

    def test_a_tick_that_is_taken_back(self):
        _, _, kept = self.page({}, [(1, True), (2, True), (1, False)])
        self.assertEqual(self.page(kept, [])[0][0], [False, False, True])

    def test_a_box_of_another_name_is_open(self):
        _, _, kept = self.page({}, [(0, True), (1, True)])
        self.assertEqual(self.page(kept, [], names=('a-1', 'c-2', 'b-1'))[0][0], [True, False, False])

    def test_a_browser_that_keeps_nothing(self):
        _, shown, kept = self.page({}, [(0, True)], refuses=True)
        self.assertEqual((shown, kept), ([[True, False, False], '1 of 3 boxes ticked; this browser does not keep them: print the page.'], {}))


class Days(unittest.TestCase):
    def test_days_as_dates(self):
        self.assertEqual(days.written_in(['eqb (weekday_of 3002) 4', 'day_of 2008 1 1']),
                         ['3,002 is Friday 21 March 2008', '2,922 is Tuesday 1 January 2008'])

    def test_no_date(self):
        self.assertEqual(days.written_in(['day_call 2001 2 29']), ['29 February 2001 is no date'])

    def test_months(self):
        self.assertEqual(days.written_in(['month_number 2008 3']), ['month 98 is March 2008'])

    def test_ends(self):
        self.assertEqual(days.written_in(['weekday_of 0', 'weekday_of 36524']),
                         ['0 is Saturday 1 January 2000', '36,524 is Thursday 31 December 2099'])


if __name__ == '__main__':
    if not shutil.which('node'):
        print('left out: the script that keeps the ticks (node is not installed)')
    unittest.main()
