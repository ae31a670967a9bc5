"""Tests of the page in a browser, by what it then shows: python3 -m tests.gate.page

page/build makes the page in a folder of its own, which needs rt; with --module FOLDER it takes the
module that bindings/js/build made there. Without chromium the tests in the browser are left out,
and a line says so; nothing is installed.
"""

import argparse
import base64
import hashlib
import json
import os
import re
import shutil
import subprocess
import sys
import tempfile
import time
import unittest
from pathlib import Path

from tests import ROOT
from tests.gate import browser, reading_pages
from tests.inputs import cases
from tests.second import dates, deliver, master, replay, table, terms, trading

TOP = Path(ROOT)
MORNING = TOP / 'examples' / 'morning'
PATIENCE = 60
WIDE, NARROW = 1280, 320
SECONDS_AT_MOST, GAP_AT_MOST = 2.0, 0.25
MODULE = None
FOLDER = None
PAGE = None


def setUpModule():
    global FOLDER, PAGE
    FOLDER = Path(tempfile.mkdtemp(prefix='page-'))
    PAGE = FOLDER / 'scullpouch.html'
    build(PAGE)


def tearDownModule():
    shutil.rmtree(FOLDER)


def build(out):
    module = ['--module', MODULE] if MODULE else []
    ran = subprocess.run([TOP / 'page' / 'build', *module, '--out', out], capture_output=True, text=True)
    if ran.returncode != 0:
        raise AssertionError(ran.stdout + ran.stderr)


# ---- The file ----

class TheFile(unittest.TestCase):

    # Everything is inside: no address but that of SVG's names, no link, one script and one style sheet that the policy
    # names by their sums.
    def test_alone(self):
        text = PAGE.read_text(encoding='utf-8')
        self.assertEqual(set(re.findall(r'https?://[^\s\'"`]+', text)), {'http://www.w3.org/2000/svg'})
        found = re.findall(r'<link|<iframe|<img|@import|\burl\((?!#)|\ssrc=|\sstyle=|\son\w+="', text)
        self.assertEqual(found, [])
        [policy] = re.findall(r'Content-Security-Policy" content="([^"]+)"', text)
        [style], [script] = (re.findall(rf'<{name}[^>]*>(.*?)</{name}>', text, re.S) for name in ('style', 'script'))

        def sum_of(part):
            return f"'sha256-{base64.b64encode(hashlib.sha256(part.encode()).digest()).decode()}'"

        self.assertEqual(policy.split('; '), ["default-src 'none'", f"script-src {sum_of(script)} 'wasm-unsafe-eval'", f'style-src {sum_of(style)}',
                                              "base-uri 'none'", "form-action 'none'"])

    # The same sources give the same bytes.
    def test_again(self):
        build(FOLDER / 'again.html')
        self.assertEqual((FOLDER / 'again.html').read_bytes(), PAGE.read_bytes())

    # The README's picture is there and small; page/picture makes it.
    def test_picture(self):
        self.assertIn('](page/scullpouch.png)', (TOP / 'README.md').read_text(encoding='utf-8'))
        picture = (TOP / 'page' / 'scullpouch.png').read_bytes()
        self.assertTrue(picture.startswith(b'\x89PNG') and len(picture) < 200_000)

    # No part of the sources reads a text as HTML or runs one.
    def test_sources(self):
        for path in sorted((TOP / 'page' / 'src').glob('*.js')):
            self.assertNotRegex(path.read_text(encoding='utf-8'), r'innerHTML|outerHTML|insertAdjacentHTML|document\.write|\beval\b|new Function|DOMParser|\bfetch\b|XMLHttp|localStorage', path.name)


# ---- In a browser ----

READY = "document.documentElement.dataset.ready === 'yes'"
IDLE = "document.getElementById('working').hidden"
# The text of every console message that is an error or a warning, of every request, and of every policy that was broken.
WATCH = '''window.broken = []; document.addEventListener('securitypolicyviolation', event => window.broken.push(event.violatedDirective));'''


class Page(unittest.TestCase):

    @classmethod
    def setUpClass(cls):
        cls.browser = browser.Browser().__enter__()
        for part in ('Runtime', 'Log', 'Network', 'DOM'):
            cls.browser.call(f'{part}.enable')

    @classmethod
    def tearDownClass(cls):
        cls.browser.__exit__()

    def setUp(self):
        self.browser.width(WIDE)
        self.open()

    # After each test: nothing was requested but the page, and nothing was said on the console.
    def tearDown(self):
        self.value('1')
        told = self.browser.told
        stopped = {one['params']['requestId'] for one in told if one.get('method') == 'Network.loadingFailed' and one['params'].get('blockedReason') == 'csp'}
        requests = [one['params'] for one in told if one.get('method') == 'Network.requestWillBeSent']
        self.assertEqual([one['request']['url'] for one in requests if one['requestId'] not in stopped and not one['request']['url'].startswith(('file://', 'blob:'))], [])
        errors = [json.dumps(one)[:500] for one in told if one.get('method') in ('Runtime.exceptionThrown', 'Runtime.consoleAPICalled', 'Log.entryAdded')]
        self.assertEqual([one for one in errors if not getattr(self, 'provoked', '') or self.provoked not in one], [])

    def open(self):
        self.browser.open(PAGE)
        self.wait(READY)
        self.value(WATCH)

    def value(self, text):
        return self.browser.evaluate(text)

    def wait(self, condition, patience=PATIENCE):
        end = time.monotonic() + patience
        while not self.value(condition):
            if time.monotonic() > end:
                raise AssertionError(f'not so after {patience} seconds: {condition}')
            time.sleep(0.05)

    def text(self, selector):
        return self.value(f'document.querySelector({json.dumps(selector)})?.innerText ?? null')

    def click(self, selector):
        self.value(f'document.querySelector({json.dumps(selector)}).click()')

    def put(self, selector, value, event='input'):
        self.value(f'(() => {{ const one = document.querySelector({json.dumps(selector)}); one.value = {json.dumps(value)}; one.dispatchEvent(new Event({json.dumps(event)}, {{ bubbles: true }})); }})()')

    # Puts a file into an input; bytes are written to a file of that name first.
    def choose(self, selector, data, name='file'):
        path = data
        if isinstance(data, bytes):
            path = FOLDER / name
            path.write_bytes(data)
        # an input that has the same file already says nothing
        self.value(f'document.querySelector({json.dumps(selector)}).value = ""')
        self.browser.choose(selector, path)

    # Drops files of one byte on a part of the page.
    def drop(self, selector, *names):
        self.value(f'''(() => {{ const data = new DataTransfer();
            for (const name of {json.dumps(names)}) data.items.add(new File(['x'], name));
            document.querySelector({json.dumps(selector)}).dispatchEvent(new DragEvent('drop', {{ dataTransfer: data, bubbles: true, cancelable: true }})); }})()''')

    def settle(self):
        time.sleep(0.05)
        self.wait(IDLE)

    def morning(self, delivery='wrong.csv'):
        self.choose('#file', MORNING / 'master.bin')
        self.wait("document.querySelector('#file-said .yes') !== null")
        self.choose('#notices-file', MORNING / 'notices.txt')
        self.wait("document.querySelector('#notices-done table') !== null")
        if delivery:
            self.deliver(MORNING / delivery)

    def deliver(self, data, name='delivery.csv', verdict='.verdict'):
        self.value("document.getElementById('verdict').replaceChildren()")
        self.choose('#delivery-file', data, name)
        self.wait(f"document.querySelector('#verdict {verdict}') !== null")
        self.settle()

    # The differences that are shown, as cells.
    def found(self):
        return self.value("[...document.querySelectorAll('#found-rows tbody tr')].map(row => [...row.cells].map(cell => cell.textContent))")


THREE = [['ABBN', '2008-04', '2008-04-18', '2008-04-17', 'the last trading day is another'],
         ['AXAW', '2008-05-09', '', '2008-05-09', 'listed, and not delivered'],
         ['TOT5', '2009-03', '1', '8', 'the listing number is another']]


@unittest.skipUnless(browser.installed(), 'chromium is not installed')
class TheParts(Page):

    # The built-in example has the three faults that were planted, and no other.
    def test_example(self):
        self.click('#example')
        self.wait("document.querySelector('.verdict') !== null")
        self.settle()
        self.assertEqual(self.found(), THREE)
        self.assertEqual(self.text('.verdict'), 'The delivery is not right: 3 differences, in ABBN, AXAW and TOT5 (115 rows of 12 products, 12 products in the master file).')
        self.assertIn('12 products, 6 years, 2008 to 2013', self.text('#file-said'))

    # The files of the morning, dropped in: the wrong delivery and the right one.
    def test_morning(self):
        self.morning()
        self.assertEqual(self.found(), THREE)
        self.deliver(MORNING / 'delivery.csv')
        self.assertEqual(self.text('.verdict'), 'The delivery is right: 116 rows of 12 products, and nothing differs.')
        self.assertEqual(self.found(), [])

    # A file that is dropped on a part of the page.
    def test_dropped(self):
        data = base64.b64encode((MORNING / 'master.bin').read_bytes()).decode()
        self.value(f'''(() => {{ const data = new DataTransfer();
            data.items.add(new File([Uint8Array.from(atob({json.dumps(data)}), one => one.charCodeAt(0))], 'dropped.bin'));
            document.getElementById('part-file').dispatchEvent(new DragEvent('drop', {{ dataTransfer: data, bubbles: true, cancelable: true }})); }})()''')
        self.wait("document.querySelector('#file-said .yes') !== null")
        self.assertIn('dropped.bin: 12 products', self.text('#file-said'))
        self.drop('#part-file', 'one.bin', 'two.txt')
        self.assertIn('2 files were dropped here, and none was taken', self.text('#part-file'))
        self.assertIn('dropped.bin: 12 products', self.text('#file-said'))
        x, y = self.value("(({ x, y }) => [x + 20, y + 20])(document.getElementById('part-file').getBoundingClientRect())")
        for event in ('dragEnter', 'dragOver', 'drop'):
            self.browser.call('Input.dispatchDragEvent', {'type': event, 'x': x, 'y': y, 'data': {'items': [], 'files': [str(FOLDER)], 'dragOperationsMask': 1}})
        self.wait("document.querySelector('#part-file .dropped').innerText.includes('cannot be read: it is a folder')", 10)
        self.assertIn('dropped.bin: 12 products', self.text('#file-said'))
        self.drop('h1', 'one.bin')
        self.assertIn('Drop a file on its part', self.text('#beside'))
        self.drop('#part-file', 'one.bin')
        self.wait("document.querySelector('#file-said .no') !== null")
        self.assertEqual((self.text('#beside'), self.value("document.querySelector('#part-file .dropped').hidden")), ('', True))

    # Every stored master file gets the second program's number, and what it is about; the file before stays in use.
    def test_files(self):
        self.morning(None)
        seen = set()
        for name, data in list(cases.cases())[::3]:
            refusal, years, records = master.load(data)
            self.value("document.getElementById('file-said').replaceChildren()")
            self.choose('#file', data, 'case.bin')
            self.wait("document.getElementById('file-said').innerText !== ''")
            said = self.text('#file-said')
            if refusal == 0:
                self.assertIn(f'{records:,} product{"" if records == 1 else "s"}, {years} year', said, name)
            else:
                self.assertIn(f'(refusal {refusal}).', said, name)
                self.assertRegex(said, r'Look at this: (block \d+|the file|there (is|are))', name)
                seen.add(refusal)
                if 'still in use' in said:
                    self.assertGreater(self.value("document.querySelectorAll('#product option').length"), 0)
            self.settle()
        self.assertEqual(seen, set(range(1, 9)))

    # What each notice did, by the second program's tables before and after it.
    def test_notices(self):
        self.morning(None)
        shown = self.value("[...document.querySelectorAll('#notices-done tbody tr')].map(row => [...row.cells].map(cell => cell.innerText))")
        lines = (MORNING / 'notices.txt').read_bytes().split(b'\n')
        file = (MORNING / 'master.bin').read_bytes()
        said = [number for number, line in enumerate(lines, 1) if line[:1] not in (b'', b'#')]
        self.assertEqual([int(row[0]) for row in shown], said)
        before = {}
        for number, (_, words, effect) in zip(said, shown, strict=True):
            _, morning = replay.begin(file, b'\n'.join(lines[:number]))
            after = {one.item.id: [m[:2] for m in table.maturities(one.held)] for one in morning.products}
            moved = [id.decode().rstrip() for id in after if before and after[id] != before[id]]
            refused = [one.item.id.decode().rstrip() for one in morning.products if any(place == number for place, _ in one.refused)]
            before = after
            if lines[number - 1][:1] in b'RCE':
                self.assertTrue(effect.startswith(f'{len(moved)} product' if moved else 'Nothing moved.'), (number, effect, moved))
                for id in moved[:8]:
                    self.assertIn(id, effect)
            self.assertEqual('Refused for' in effect, bool(refused), effect)
        self.assertIn('AXAF now has a size of 150 shares; the price after it is 15.0000.', shown[said.index(12)][2])
        self.assertIn('Refused for BMW (21): Is it a future? No.', shown[said.index(34)][2])
        self.assertEqual(shown[said.index(18)][1], 'Friday 11 April 2008 is closed')

    # A bad line is told with its number, and the text stays.
    def test_bad_notices(self):
        self.morning()
        text = (MORNING / 'notices.txt').read_text() + 'C 2008-02-30\n'
        self.put('#notices', text)
        self.wait("document.querySelector('#notices-said .no') !== null")
        self.assertIn('Line 42 is not a notice: “C 2008-02-30”.', self.text('#notices-said'))
        self.assertEqual(self.value("document.getElementById('notices').value"), text)
        self.settle()
        self.assertIn('have to be mended first', self.text('#verdict'))
        self.put('#notices', text.replace('C 2008-02-30', 'R 2008-04-21'))
        self.wait("document.querySelector('#notices-said .yes') !== null")
        self.wait("document.querySelector('.verdict') !== null")
        self.settle()
        self.assertIn('extra', self.value("JSON.stringify([...document.querySelectorAll('#found-rows tr')].map(row => row.dataset.why))"))

    # A file with a line that is no notice does not replace the notices; where there are none yet it is there to be mended.
    def test_other_file_as_notices(self):
        wrong = (MORNING / 'delivery.csv').read_bytes()
        self.choose('#notices-file', wrong, 'rows.csv')
        self.wait("document.getElementById('notices').value.startsWith('product,')")
        self.put('#notices', '')
        self.morning()
        self.settle()
        before = self.value("document.getElementById('notices').value")
        for data, said in ((wrong, 'rows.csv is not used: line 1 is not a notice: “product,number,'), (b'', 'rows.csv is not used: it has no notice.')):
            self.value("document.querySelector('#notices-said .no')?.remove()")
            self.choose('#notices-file', data, 'rows.csv')
            self.wait("document.querySelector('#notices-said .no') !== null")
            self.assertIn(said, self.text('#notices-said'))
            self.assertIn('27 notices', self.text('#notices-said'))
            self.assertEqual(self.value("document.getElementById('notices').value"), before)
            self.settle()
            self.assertEqual(self.found(), THREE)

    # What is typed just before a file is chosen does not take the file's place, nor the place of what is said of it.
    def test_typed_before_a_file(self):
        self.morning(None)
        before = self.value("document.getElementById('notices').value")
        self.put('#notices', before + '# typed\n')
        self.choose('#notices-file', b'no notice\n', 'rows.txt')
        self.wait("document.querySelector('#notices-said .no') !== null")
        time.sleep(0.6)
        self.assertIn('rows.txt is not used: line 1 is not a notice', self.text('#notices-said'))
        self.assertIn('27 notices', self.text('#notices-said'))
        self.put('#delivery-text', 'AXA,1,2008-04,2008-04-18')
        self.deliver(MORNING / 'delivery.csv')
        time.sleep(0.6)
        self.settle()
        self.assertIn('delivery.csv', self.text('#delivery-said'))
        self.assertIn('The delivery is right', self.text('.verdict'))

    # Notices that are clicked together, and what is missing of one.
    def test_clicked(self):
        self.choose('#file', MORNING / 'master.bin')
        for kind, date, said in (('O', '17.03.2008', 'O 2008-03-17'), ('R', '18 March 2008', 'R 2008-03-18'), ('C', '2008-04-18', 'C 2008-04-18'), ('E', '18-Apr-08', 'E 2008-04-18')):
            self.put('#kind', kind, 'change')
            self.put('#notice-date', date)
            self.click('#builder button')
            self.assertTrue(self.value("document.getElementById('notices').value").endswith(f'{said}\n'), said)
        self.put('#notice-date', '06/05/2008')
        self.click('#builder button')
        self.assertIn('may be 2008-05-06 or 2008-06-05', self.text('#builder-said'))
        self.put('#notice-date', 'soon')
        self.click('#builder button')
        self.assertIn('“soon” is not a date.', self.text('#builder-said'))
        self.put('#kind', 'M', 'change')
        for field, value in (('id', 'AXAF'), ('p', '3'), ('q', '2'), ('price', '22.5')):
            self.put(f'#notice-{field}', value)
        self.click('#builder button')
        self.assertEqual(self.value("document.getElementById('notices').value"), 'O 2008-03-17\nR 2008-03-18\nC 2008-04-18\nE 2008-04-18\nM AXAF 3 2 22.5000\n')
        self.wait("document.querySelectorAll('#notices-done tbody tr').length === 5")
        self.assertIn('AXAF now has a size of 150 shares', self.text('#notices-done'))

    # A delivery in another form; what is ambiguous is asked, and the answer decides.
    def test_forms(self):
        self.morning(None)
        rows = [line.split(',') for line in (MORNING / 'delivery.csv').read_text().splitlines()[1:]]

        def other(separator, day_first):
            def date(text):
                year, month, *day = text.split('-')
                return '/'.join(([*day, month] if day_first else [month, *day]) + [year])
            return separator.join(('Last day', 'Contract', 'Symbol')) + '\r\n' + ''.join(separator.join((date(row[3]), date(row[2]) if row[2].count('-') == 2 else row[2], row[0])) + '\r\n' for row in rows)

        self.deliver(other(';', True).encode('utf-16'), 'other.csv')
        self.assertEqual(self.text('.verdict'), 'The delivery is right: 116 rows of 12 products, and nothing differs.')
        self.assertIn('Dates are read with the day first', self.text('#order'))
        self.deliver(b'Product;Month;Last day\nAXA;May 2008;06/05/2008\n', 'asked.csv', '.ask')
        self.assertIn('Line 2 has 06/05/2008. Which day is that?', self.text('#order'))
        self.assertIsNone(self.text('.verdict'))
        for order, day in (('day', '2008-05-06'), ('month', '2008-06-05')):
            self.click(f'#order input[value={order}]')
            self.wait(f"[...document.querySelectorAll('#found-rows td')].some(cell => cell.textContent === '{day}')")

    # The columns are shown as guessed, and may be changed; what was changed decides.
    def test_columns(self):
        self.morning(None)
        self.deliver(b'AXAW,2008-04-25,2008-04-24\n', 'weekly.csv')
        self.assertEqual([self.value(f"document.getElementById('column-{name}').value") for name in ('product', 'maturity', 'day', 'number')], ['0', '1', '2', '-1'])
        self.assertIn(['AXAW', '2008-04-25', '2008-04-24', '2008-04-25', 'the last trading day is another'], self.found())
        self.put('#column-day', '1', 'change')
        self.settle()
        self.wait("![...document.querySelectorAll('#found-rows tr')].some(row => row.innerText.startsWith('AXAW\\t2008-04-25'))")
        self.assertIn('not read', self.text('#guess thead'))
        self.put('#column-day', '-1', 'change')
        self.wait("document.querySelector('#verdict .ask') !== null")
        self.assertIn('No column is taken for the last trading day.', self.text('#verdict'))
        self.assertEqual((self.text('.verdict'), self.found()), (None, []))

    # A delivery without a column that a row needs, or without rows, is not called wrong: what is missing is asked.
    def test_nothing_to_judge(self):
        self.morning(None)
        self.deliver(b'id,month,ltd\nabbn,2008-05,2008-05-16\naxa,2008-05,2008-05-16\n', 'small.csv', '.ask')
        self.assertIn('No column is taken for the product.', self.text('#verdict'))
        self.put('#column-product', '0', 'change')
        self.wait("document.querySelector('.verdict') !== null")
        self.settle()
        self.assertEqual(self.text('.verdict'), 'No line of small.csv could be read as a row, so nothing is judged. Why stands below.')
        self.assertIn('“abbn” is not a product id', self.text('#unread'))
        self.assertEqual(self.found(), [])
        self.deliver(b'product,number,maturity,last_trading_day,days_back\n', 'heading.csv', '.ask')
        self.assertIn('heading.csv has no rows', self.text('#verdict'))

    # What is not compared is said: a listing number alone is none of the rows that the calls read.
    def test_compared(self):
        self.morning()
        self.assertNotIn('are not compared', self.text('#verdict'))
        four = ''.join(f'{line.rpartition(",")[0]}\n' for line in (MORNING / 'wrong.csv').read_text().splitlines())
        self.deliver(four.encode(), 'four.csv')
        self.assertEqual(self.found(), THREE[:2])
        self.assertIn('Listing numbers and days moved back are not compared', self.text('#verdict'))

    # While a delivery is judged again, what was said of it before is not shown.
    def test_judged_again(self):
        self.morning()
        self.value("""window.seen = []; new MutationObserver(() => window.seen.push(document.querySelector('.verdict') !== null)).observe(document.getElementById('working'), { attributes: true });""")
        self.choose('#file', TOP / 'examples' / 'master.bin')
        self.wait("document.querySelector('.verdict')?.innerText.includes('788 products in the master file')")
        self.settle()
        self.assertIs(self.value('window.seen[0]'), False)

    # Rows that are pasted; and all of many differences, where they are asked for.
    def test_pasted(self):
        self.morning(None)
        self.put('#delivery-text', 'AXA\t2008-06\t20.06.2008\nAXA\t2008-06\t20.06.2008\n' + ''.join(f'X{number:03}\t2008-06\t20.06.2008\n' for number in range(700)))
        self.wait("document.querySelector('.verdict') !== null")
        self.settle()
        self.assertIn('816 differences', self.text('.verdict'))
        self.assertEqual(len(self.found()), 500)
        self.click('#all')
        self.assertEqual(len(self.found()), 816)
        self.assertIn(['AXA', '2008-06', '2008-06-20', '2008-06-20', 'delivered more than once'], self.found())
        self.assertEqual(self.found()[-1], ['X699', '', '', '', 'the master file has no such product'])
        self.deliver(MORNING / 'wrong.csv')
        self.assertIn('The rows that are pasted are not judged now', self.text('#delivery-said'))
        self.assertEqual(self.found(), THREE)

    # Sorted, filtered, copied, saved.
    def test_differences(self):
        self.morning()
        order = lambda: [row[0] for row in self.found()]  # noqa: E731
        self.click('[data-sort=why]')
        self.assertEqual(order(), ['ABBN', 'AXAW', 'TOT5'])
        self.click('[data-sort=product]')
        self.click('[data-sort=product]')
        self.assertEqual(order(), ['TOT5', 'AXAW', 'ABBN'])
        self.assertEqual(self.value("document.querySelector('[data-sort=product]').parentElement.getAttribute('aria-sort')"), 'descending')
        self.put('#filter-why', 'day', 'change')
        self.assertEqual(order(), ['ABBN'])
        self.put('#filter-why', '', 'change')
        self.put('#filter-product', 'a')
        self.assertEqual(order(), ['AXAW', 'ABBN'])
        self.put('#filter-product', '')
        self.click('[data-sort=product]')
        self.browser.call('Browser.setDownloadBehavior', {'behavior': 'allow', 'downloadPath': str(FOLDER)}, session=None)
        saved = FOLDER / 'differences.csv'
        self.click('#save')
        end = time.monotonic() + PATIENCE
        while not saved.exists() and time.monotonic() < end:
            time.sleep(0.05)
        self.assertEqual(saved.read_bytes(), (MORNING / 'differences.csv').read_bytes())
        self.value('''window.copied = null; Object.defineProperty(navigator, 'clipboard', { value: { writeText: async text => { window.copied = text; } }, configurable: true })''')
        self.click('#copy')
        self.wait('window.copied !== null')
        self.assertEqual(self.value('window.copied'), (MORNING / 'differences.csv').read_text())

    # Every product's table is the second program's.
    def test_products(self):
        self.morning(None)
        _, morning = replay.begin((MORNING / 'master.bin').read_bytes(), (MORNING / 'notices.txt').read_bytes())
        for one in morning.products:
            id = one.item.id.decode().rstrip()
            self.put('#product', id, 'change')
            shown = self.value("[...document.querySelectorAll('#listing tbody tr')].map(row => [...row.cells].map(cell => cell.textContent))")
            expected = []
            for key, day, back, number in table.maturities(one.held):
                weekday = ('Mon', 'Tue', 'Wed', 'Thu', 'Fri')[(day + 5) % 7]
                expected.append([terms.key_text(one.item.kind, key), f'{terms.day_text(day)} {weekday}', f'{back} back, from {terms.day_text(day + back)}' if back else 'no', str(number)])
            self.assertEqual(shown, expected, id)
            self.assertEqual(self.value("document.querySelectorAll('#strip button').length"), len(expected))

    # The picture of April 2008: the usual day, the closed day, the last trading day, the arrow; hovering says the rule.
    def test_pictures(self):
        self.morning(None)
        self.put('#product', 'AXA', 'change')
        signs = lambda day: self.value(f"[...document.querySelectorAll('#pictures [data-day=\"{day}\"]')].map(one => [one.getAttribute('class'), ...[...one.children].map(child => child.getAttribute('class')).filter(Boolean)].join(' '))")  # noqa: E731
        thursday, friday, monday = (dates.day_of(2008, 4, 17), dates.day_of(2008, 4, 18), dates.day_of(2008, 3, 24))
        self.assertEqual(signs(thursday), ['day today last disc'])
        self.assertEqual(signs(friday), ['day closed stroke ring'])
        self.assertEqual(signs(monday), ['day closed exchange stroke dot'])
        self.assertEqual(self.value("document.querySelectorAll('#pictures .arrow').length"), 1)
        self.assertIn('The latest trading day before it is Thursday 17 April 2008, one day back.', self.text('#rule'))
        self.value(f"document.querySelector('#pictures [data-day=\"{monday}\"]').dispatchEvent(new PointerEvent('pointerenter'))")
        self.assertIn('Monday 24 March 2008; closed for trading; payments and deliveries run', self.text('#rule'))
        self.put('#product', 'ENL5', 'change')
        self.assertIn('the Thursday before the third Friday', self.text('#rule'))
        self.assertEqual(signs(friday), ['day closed stroke ring'])
        self.click('#strip li:nth-child(2) button')
        self.assertIn('May 2008: the usual day', self.text('#rule'))

    # Every closed day of the picture, month after month, is the second program's calendar after the notices.
    def test_closed_days(self):
        self.morning(None)
        _, morning = replay.begin((MORNING / 'master.bin').read_bytes(), (MORNING / 'notices.txt').read_bytes())
        calendar = next(one for one in morning.products if one.item.id == b'AXA ').held.calendar
        self.put('#product', 'AXA', 'change')
        for place in range(self.value("document.querySelectorAll('#strip button').length")):
            self.click(f'#strip li:nth-child({place + 1}) button')
            for day, classes in self.value("[...document.querySelectorAll('#pictures [data-day]')].map(one => [Number(one.dataset.day), one.getAttribute('class')])"):
                if trading.in_cover(calendar, day):
                    self.assertEqual([name in classes.split() for name in ('closed', 'exchange', 'weekend')],
                                     [trading.is_closed_weekday(calendar, day), trading.is_in_second_map(calendar, day), (day + 5) % 7 > 4], terms.day_text(day))

    # The desk's questions, as the second program answers them; what was typed stays.
    def test_questions(self):
        self.morning(None)
        self.put('#product', 'AXA', 'change')

        def asked(form, said, **typed):
            for field, value in typed.items():
                self.put(f'#{field.replace("_", "-")}', value)
            self.click(f'#{form} button')
            self.assertEqual([self.value(f"document.getElementById('{field.replace('_', '-')}').value") for field in typed], list(typed.values()))
            return self.text(f'#{said}')

        self.assertEqual(asked('ask-due', 'due-said', due_day='2008-03-20'), 'Due on Wednesday 26 March 2008.')
        self.assertEqual(asked('ask-due', 'due-said', due_day='19.04.2008'), 'Due on Wednesday 23 April 2008.')
        self.assertIn('may be 2008-05-06 or 2008-06-05', asked('ask-due', 'due-said', due_day='06/05/2008'))
        self.assertIn('“tomorrow” is not a date.', asked('ask-due', 'due-said', due_day='tomorrow'))
        self.assertIn('(refusal 11)', asked('ask-due', 'due-said', due_day='2015-01-01'))
        self.assertIn('(refusal 21)', asked('ask-cash', 'cash-said', cash_contracts='3', cash_agreed='35', cash_final='36'))
        self.put('#product', 'BMW', 'change')
        self.assertEqual(asked('ask-tick', 'tick-said', tick_price='35.0100'), 'It passes: the price is a multiple of the tick.')
        self.assertIn('(refusal 20). Is it a multiple of the tick? No. The price lies between two ticks.', asked('ask-tick', 'tick-said', tick_price='35.0050'))
        self.assertIn('(refusal 19)', asked('ask-tick', 'tick-said', tick_price='99999999999999999999'))
        self.assertIn('is not a price', asked('ask-tick', 'tick-said', tick_price='dear'))
        self.assertEqual(asked('ask-tick', 'tick-said', tick_price=''), 'Which price?')
        self.put('#product', 'AXAF', 'change')
        self.assertEqual(asked('ask-cash', 'cash-said', cash_contracts='3', cash_agreed='12.34', cash_final='12.50'), 'The seller pays the buyer 72.00000000 EUR.')
        self.assertEqual(asked('ask-cash', 'cash-said', cash_contracts='3', cash_agreed='12.50', cash_final='12.34'), 'The buyer pays the seller 72.00000000 EUR.')
        self.assertIn('(refusal 22)', asked('ask-cash', 'cash-said', cash_contracts='99999999999', cash_agreed='12.50', cash_final='12.34'))
        self.put('#product', 'TOT5', 'change')
        self.assertEqual(asked('ask-cash', 'cash-said', cash_contracts='1', cash_agreed='52.1000', cash_final='52.1100'), 'The seller pays the buyer 0.33333300 EUR.')

    # From a difference to its product and maturity.
    def test_to_product(self):
        self.morning()
        self.click('.to-product')
        self.assertEqual(self.value("document.getElementById('product').value"), 'ABBN')
        self.assertIn('April 2008', self.text('#strip [aria-pressed=true]') + self.text('#rule'))

    # What is proved and what is not, and by what.
    def test_said(self):
        words = self.text('#part-proof')
        for part in ('Proved:', 'Compared, not proved:', 'Tested, not proved:', (TOP / 'bindings' / 'js' / 'kit').read_text().strip()):
            self.assertIn(part, words)


@unittest.skipUnless(browser.installed(), 'chromium is not installed')
class Hostile(Page):

    # Files that are none, in every place: each is told, and what was there before stays.
    def test_no_text(self):
        self.morning()
        for data, said in ((bytes(100_000), 'is not a text with rows'), (bytes(range(256)) * 4, 'is not a text with rows'), (b'', 'is empty')):
            self.value("document.getElementById('delivery-said').replaceChildren()")
            self.choose('#delivery-file', data, 'none.csv')
            self.wait("document.querySelector('#delivery-said .no') !== null")
            self.assertIn(said, self.text('#delivery-said'))
            self.assertIn('is still judged', self.text('#delivery-said'))
            self.assertEqual(self.found(), THREE)
        self.choose('#notices-file', bytes(100_000), 'none.txt')
        self.wait("document.querySelector('#notices-said .no') !== null")
        self.assertIn('The notices stay as they were.', self.text('#notices-said'))
        self.choose('#file', bytes(100_000), 'none.bin')
        self.wait("document.querySelector('#file-said .no') !== null")
        self.assertIn('(refusal 1)', self.text('#file-said'))
        self.assertEqual(self.found(), THREE)

    # A gigabyte is cut at the limit, with a word.
    def test_gigabyte(self):
        self.morning()
        path = FOLDER / 'gigabyte.csv'
        with open(path, 'wb') as out:
            out.truncate(1 << 30)
        self.choose('#delivery-file', path)
        self.wait("document.querySelector('#delivery-said .no') !== null")
        self.assertIn('1,073,741,824 bytes; the first 16,777,216 were read, the rest was left out', self.text('#delivery-said'))
        self.choose('#file', path)
        self.wait("document.querySelector('#file-said .no') !== null")
        self.assertIn('more than 65,536 bytes', self.text('#file-said'))
        self.choose('#notices-file', path)
        self.wait("document.querySelector('#notices-said .no') !== null")
        self.assertEqual(self.found(), THREE)
        path.unlink()

    # More rows than are judged, and a long text of rows that are cut.
    def test_rows(self):
        self.morning(None)
        self.deliver(b'AXA,2008-06,2008-06-20\n' * 100_000, 'many.csv')
        self.assertIn('more than 65,536 rows', self.text('.verdict'))
        self.deliver(b'AXA,2008-06,2008-06-20\n' * 1_000_000, 'long.csv')
        self.assertIn('the rest was left out', self.text('#delivery-said'))
        self.deliver(b'AXA,2008-06,2008-06-20\n' * 65_536, 'most.csv')
        self.assertIn('delivered more than once', self.text('#found-rows'))
        self.deliver(b'x\n' * 300_000, 'none.csv', '.ask')
        self.deliver(b'"' * 3_000_000, 'quotes.csv', '.ask')
        self.deliver(b'AXA,' * 1_000_000, 'wide.csv', '.ask')

    # HTML in every field is shown as text.
    def test_html(self):
        self.morning(None)
        evil = '<img src=x onerror=window.evil=1><script>window.evil=1</script>'
        self.deliver(f'Product;<b>Month</b>;Last day\n{evil};Jun 2008;20 Jun 2008\nAXA;{evil};20 Jun 2008\nAXA;Jun 2008;{evil}\nBMW;Jun 2008;20 Jun 2008\nB<i>;Jun 2008;20 Jun 2008\n'.encode(), 'evil<b>.csv')
        self.assertIn('<img src=x', self.text('#unread'))
        self.put('#notices', f'{evil}\nO 2008-03-17\n')
        self.wait("document.querySelector('#notices-said .no') !== null")
        self.assertIn('<img src=x', self.text('#notices-said'))
        self.choose('#file', bytes(10), 'evil<img src=x onerror=window.evil=1>.bin')
        self.wait("document.querySelector('#file-said .no') !== null")
        self.assertEqual(self.value("[window.evil === undefined, document.querySelectorAll('img, script:not([type=module]), main b, main i').length, window.broken.length]"), [True, 0, 0])

    # The page cannot ask the network for anything, whatever runs in it.
    def test_policy(self):
        self.provoked = 'Content Security Policy'
        tried = self.value('''(async () => { const said = [];
            for (const url of ['https://example.org/', 'http://127.0.0.1:9/']) await fetch(url).catch(error => said.push(error.name));
            const image = new Image(); image.src = 'https://example.org/x.png'; document.body.append(image);
            const script = document.createElement('script'); script.textContent = 'window.evil = 1'; document.body.append(script);
            try { new WebSocket('wss://example.org/'); } catch (error) { said.push(error.name); }
            await new Promise(resolve => setTimeout(resolve, 300));
            return [said.filter(one => one === 'TypeError').length, window.evil === undefined, [...new Set(window.broken)].sort()]; })()''')
        self.assertEqual(tried[:2], [2, True])
        self.assertTrue({'connect-src', 'img-src', 'script-src-elem'} <= set(tried[2]), tried)


# The contrast of every text with what it stands on, the lowest first.
CONTRAST = r'''(() => {
  const parts = text => text.match(/[\d.]+/g).map(Number);
  const light = ([r, g, b]) => [r, g, b].map(one => one / 255).map(one => one <= 0.04045 ? one / 12.92 : ((one + 0.055) / 1.055) ** 2.4).reduce((sum, one, i) => sum + one * [0.2126, 0.7152, 0.0722][i], 0);
  const ground = element => { for (let one = element; one; one = one.parentElement) { const [r, g, b, a = 1] = parts(getComputedStyle(one).backgroundColor); if (a === 1) return [r, g, b]; } return [255, 255, 255]; };
  const walk = document.createTreeWalker(document.body, NodeFilter.SHOW_TEXT), found = [];
  for (let node = walk.nextNode(); node; node = walk.nextNode()) {
    const element = node.parentElement;
    if (!node.data.trim() || !element.checkVisibility() || element.closest('svg')) continue;
    const [a, b] = [light(parts(getComputedStyle(element).color)), light(ground(element))];
    found.push([(Math.max(a, b) + 0.05) / (Math.min(a, b) + 0.05), node.data.trim().slice(0, 30)]);
  }
  return found.sort((a, b) => a[0] - b[0]).slice(0, 3);
})()'''
# Names of the controls that have none, ids that stand twice, and whether headings go down by one.
NAMED = r'''(() => {
  const faults = [];
  for (const one of document.querySelectorAll('input, select, textarea')) if (!one.labels?.length && !one.getAttribute('aria-label')) faults.push('no label: ' + one.id);
  for (const one of document.querySelectorAll('button')) if (!one.textContent.trim()) faults.push('a button without words');
  const ids = [...document.querySelectorAll('[id]')].map(one => one.id);
  for (const id of new Set(ids)) if (ids.filter(one => one === id).length > 1) faults.push('twice: ' + id);
  let level = 0;
  for (const one of document.querySelectorAll('h1, h2, h3')) { const at = Number(one.tagName[1]); if (at > level + 1) faults.push('heading: ' + one.textContent); level = at; }
  for (const one of document.querySelectorAll('svg[role=img]')) if (!one.getAttribute('aria-label')) faults.push('a picture without words');
  for (const one of document.querySelectorAll('table')) if (!one.caption) faults.push('a table without a caption');
  if (!document.documentElement.lang || !document.title) faults.push('no language or title');
  return faults;
})()'''


@unittest.skipUnless(browser.installed(), 'chromium is not installed')
class Looks(Page):

    # Nothing is cut or laid over another, and the page has no sideways scroll: wide, at 320 pixels, in light and dark.
    def test_layout(self):
        for width in (WIDE, 768, NARROW):
            for scheme in ('light', 'dark'):
                self.browser.width(width, scheme=scheme)
                self.open()
                self.assertLessEqual(self.value('document.documentElement.scrollWidth'), width)
                self.morning()
                self.assertLessEqual(self.value('document.documentElement.scrollWidth'), width, (width, scheme))
                measured = self.value(reading_pages.MEASURE.replace("!node.parentElement.checkVisibility({ contentVisibilityAuto: true })", "!node.parentElement.checkVisibility({ contentVisibilityAuto: true }) || node.parentElement.closest('svg, .scrolled, select, datalist, textarea, .stacked thead')").replace("document.querySelectorAll('input')", "document.querySelectorAll('input[type=text]')"))
                self.assertEqual(measured['faults'], [], (width, scheme))
                lowest = self.value(CONTRAST)
                self.assertGreaterEqual(lowest[0][0], 4.5, (scheme, lowest))

    # Letters of twice their size, also on a narrow page: nothing is scrolled sideways.
    def test_large_letters(self):
        self.morning()
        self.value("document.documentElement.style.fontSize = '200%'")
        for width in (WIDE, 640, NARROW):
            self.browser.width(width)
            self.assertLessEqual(self.value('document.documentElement.scrollWidth'), width)

    # The colours of light and dark are others.
    def test_schemes(self):
        grounds = []
        for scheme in ('light', 'dark'):
            self.browser.width(WIDE, scheme=scheme)
            grounds.append(self.value('getComputedStyle(document.body).backgroundColor'))
        self.assertNotEqual(*grounds)

    def test_names(self):
        self.assertEqual(self.value(NAMED), [])
        self.morning()
        self.assertEqual(self.value(NAMED), [])

    # With the keyboard alone: every control that can be used is reached, from top to bottom.
    def test_keyboard(self):
        self.morning()
        wanted = self.value('''(() => { const all = [...document.querySelectorAll('button, input, select, textarea, summary, [tabindex="0"]')].filter(one => one.checkVisibility() && !one.disabled);
          all.forEach((one, i) => { one.dataset.place = i; }); document.activeElement.blur(); window.scrollTo(0, 0); return all.length; })()''')
        places = []
        for _ in range(wanted + 5):
            for kind in ('rawKeyDown', 'keyUp'):
                self.browser.call('Input.dispatchKeyEvent', {'type': kind, 'key': 'Tab', 'code': 'Tab', 'windowsVirtualKeyCode': 9})
            places.append(self.value('document.activeElement.dataset?.place ?? null'))
        reached = [int(place) for place in places if place is not None]
        self.assertEqual(sorted(set(reached)), list(range(wanted)))
        first = reached[:len(set(reached))]
        self.assertEqual(first, sorted(first))

    # Laid out for print: the verdict and every difference, nothing scrolled or cut, and no control.
    def test_print(self):
        self.morning()
        self.browser.width(reading_pages.PRINT_WIDTH, 'print')
        shown = self.text('body')
        for words in ('The delivery is not right: 3 differences', 'ABBN', 'AXAW', 'TOT5', 'listed, and not delivered', 'What is proved of this page'):
            self.assertIn(words, shown)
        controls = "[...document.querySelectorAll('input, select, textarea, button:not(th button):not(.strip button)')].filter(one => one.checkVisibility()).map(one => one.id || one.textContent)"
        self.assertEqual(self.value(controls), [])
        self.assertEqual(self.value("[...document.querySelectorAll('.scrolled')].filter(one => one.checkVisibility() && one.scrollHeight > one.clientHeight + 1).length"), 0)
        self.assertTrue(self.browser.printed().startswith(b'%PDF'))

    @unittest.skipUnless(shutil.which('pdftotext'), 'pdftotext is not installed')
    def test_paper(self):
        self.morning()
        self.browser.width(reading_pages.PRINT_WIDTH, 'print')
        (FOLDER / 'page.pdf').write_bytes(self.browser.printed())
        text = subprocess.run(['pdftotext', '-layout', FOLDER / 'page.pdf', '-'], capture_output=True, text=True, check=True).stdout
        for words in ('The delivery is not right: 3 differences', 'ABBN', 'AXAW', 'TOT5', 'What is proved of this page'):
            self.assertIn(words, text)
        for words in ('Choose File', 'Save as CSV', 'Try it with an example', 'Parted by'):
            self.assertNotIn(words, text)


@unittest.skipUnless(browser.installed(), 'chromium is not installed')
class Speed(Page):

    # 788 products and their rows after notices of a month: judged in less than two seconds, and drawn all the while.
    def test_large(self):
        file = TOP / 'examples' / 'master.bin'
        days = [day for day in range(dates.day_of(2008, 3, 18), dates.day_of(2008, 4, 18)) if (day + 5) % 7 < 5 and terms.day_text(day) not in ('2008-03-21', '2008-03-24')]
        notices = 'O 2008-03-17\n' + ''.join(f'R {terms.day_text(day)}\n' for day in days) + 'C 2008-05-16\n'
        rows, _ = deliver.deliver(file.read_bytes(), notices.encode())
        self.assertEqual(rows.count(b'\n') - 1, 10_676)
        self.choose('#file', file)
        self.wait("document.querySelector('#file-said .yes') !== null")
        self.choose('#delivery-file', rows, 'large.csv')
        self.wait("document.querySelector('#verdict .ask') !== null")
        self.value(f'''window.frames_at = []; (function frame(now) {{ window.frames_at.push(now); requestAnimationFrame(frame); }})(performance.now());
            window.began = performance.now(); window.ended = 0;
            new MutationObserver(() => {{ if (document.querySelector('.verdict')) window.ended ||= performance.now(); }}).observe(document.getElementById('verdict'), {{ childList: true }});
            window.shares = []; new MutationObserver(() => window.shares.push(document.getElementById('progress').value)).observe(document.getElementById('progress'), {{ attributes: true }});
            document.getElementById('notices').value = {json.dumps(notices)}; document.getElementById('notices').dispatchEvent(new Event('input'));''')
        self.wait('window.ended > 0')
        taken, gap, shares = self.value('[window.ended - window.began, Math.max(...window.frames_at.slice(1).map((at, i) => at - window.frames_at[i])), window.shares.length]')
        print(f'page: 788 products and 10,676 rows judged in {taken / 1000:.2f} s, the longest time without a picture {gap / 1000:.2f} s', flush=True)
        self.assertEqual(self.text('.verdict'), 'The delivery is right: 10,676 rows of 788 products, and nothing differs.')
        self.assertGreater(shares, 5)
        self.assertLess(taken / 1000, SECONDS_AT_MOST * slowness())
        self.assertLess(gap / 1000, GAP_AT_MOST * slowness())


# How much slower this machine is now, by its other work: the processes that wait for each processor, at least 1.
def slowness():
    return max(1.0, os.getloadavg()[0] / (os.cpu_count() or 1))


def main(arguments):
    global MODULE
    parser = argparse.ArgumentParser(description=__doc__, formatter_class=argparse.RawDescriptionHelpFormatter)
    parser.add_argument('--module')
    asked, rest = parser.parse_known_args(arguments)
    MODULE = asked.module and str(Path(asked.module).resolve())
    if not browser.installed():
        print('page: chromium is not installed, so what the page shows is left out')
    elif not shutil.which('pdftotext'):
        print('page: pdftotext is not installed, so the page on paper is left out')
    unittest.main(argv=[__file__, *rest])


if __name__ == '__main__':
    sys.exit(main(sys.argv[1:]))
