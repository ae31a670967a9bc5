"""The pages of the reading edition in a browser: no text is cut, none is laid over other text, on the screen and in print.

Without chromium, and for the printed sheets without pdftotext, the tests are left out, and a line says so.
"""
import re
import shutil
import subprocess
import tempfile
import unicodedata
import unittest
from collections import Counter
from html import unescape
from pathlib import Path

from tests import ROOT
from tests.gate import browser

FOLDER = Path(ROOT) / 'docs' / 'reading'
WIDE, NARROW = 1280, 400
POINTS = 72 / 25.4
SHEET = {'left': 14, 'top': 15, 'right': 210 - 14, 'bottom': 297 - 16}
WORD = re.compile(r'<word xMin="([\d.-]+)" yMin="([\d.-]+)" xMax="([\d.-]+)" yMax="([\d.-]+)">(.*?)</word>')
PRINT_WIDTH = round((210 - 2 * 14) / 25.4 * 96)

# Every line of text and every box, where it stands; those that leave the page or a box that cuts them, and those that lie over another.
MEASURE = r'''(() => {
  const faults = [], boxes = [];
  const width = document.documentElement.clientWidth;
  const shown = (text) => text.trim().slice(0, 40);
  const take = (rect, text, element) => {
    if (rect.width < 1 || rect.height < 1) return;
    if (rect.left < -1 || rect.right > width + 1) faults.push('cut at the edge: ' + shown(text));
    for (let box = element; box && box !== document.body; box = box.parentElement) {
      const style = getComputedStyle(box), edge = box.getBoundingClientRect();
      if (style.overflowX !== 'visible' && (rect.left < edge.left - 1 || rect.right > edge.right + 1)) faults.push('cut by a box: ' + shown(text));
      if (style.overflowY !== 'visible' && (rect.top < edge.top - 1 || rect.bottom > edge.bottom + 1)) faults.push('cut by a box: ' + shown(text));
    }
    boxes.push({ left: rect.left, right: rect.right, top: rect.top, bottom: rect.bottom, text: text });
  };
  const walk = document.createTreeWalker(document.body, NodeFilter.SHOW_TEXT);
  for (let node = walk.nextNode(); node; node = walk.nextNode()) {
    if (!node.data.trim() || !node.parentElement.checkVisibility({ contentVisibilityAuto: true })) continue;
    const range = document.createRange();
    range.selectNodeContents(node);
    for (const rect of range.getClientRects()) take(rect, node.data, node.parentElement);
  }
  for (const box of document.querySelectorAll('input')) take(box.getBoundingClientRect(), 'a box to tick', box);
  if (document.documentElement.scrollWidth > width) faults.push('the page is wider than ' + width);
  boxes.sort((a, b) => a.top - b.top);
  boxes.forEach((a, place) => {
    for (let next = place + 1; next < boxes.length && boxes[next].top < a.bottom; next++) {
      const b = boxes[next];
      const over = Math.min(a.bottom, b.bottom) - Math.max(a.top, b.top), beside = Math.min(a.right, b.right) - Math.max(a.left, b.left);
      if (beside > 1.5 && over > 0.3 * Math.min(a.bottom - a.top, b.bottom - b.top)) faults.push('one over the other: ' + shown(a.text) + ' | ' + shown(b.text));
    }
  });
  return { faults: faults, lines: boxes.length };
})()'''
OPEN_ALL = "document.querySelectorAll('details').forEach((each) => { each.open = true; })"


def pages():
    return sorted(FOLDER.glob('*.html'))


def on_paper(pdf):
    """The characters of a PDF, by pdftotext, and the words that stand in its margins, but for the number of the sheet."""
    with tempfile.NamedTemporaryFile(suffix='.pdf') as file:
        file.write(pdf)
        file.flush()
        text = subprocess.run(['pdftotext', '-bbox', file.name, '-'], capture_output=True, text=True, check=True).stdout
    found, outside = Counter(), []
    for number, sheet in enumerate(text.split('<page ')[1:], start=1):
        boxes = [box.groups() for box in WORD.finditer(sheet)]
        found += characters(unescape(' '.join(box[4] for box in boxes)))
        outside += [box[4] for box in boxes if in_a_margin(*(float(value) / POINTS for value in box[:4])) and box[4] != str(number)]
    return found, outside


def characters(text):
    """How often each character stands in a text, spaces left out; letters that are printed as one count as two."""
    return Counter(re.sub(r'\s', '', unicodedata.normalize('NFKC', text)))


def in_a_margin(left, top, right, bottom):
    return left < SHEET['left'] - 1 or right > SHEET['right'] + 1 or top < SHEET['top'] - 1 or bottom > SHEET['bottom'] + 1


class PagesAlone(unittest.TestCase):
    def test_need_no_network_and_one_script(self):
        """The script is the one that keeps the ticks, from the same folder; it asks the network for nothing."""
        for page in pages():
            text = page.read_text(encoding='utf-8')
            self.assertEqual(re.findall(r'<script.*?</script>', text, re.S), ['<script src="ticks.js" defer></script>'], page.name)
            self.assertNotRegex(text, r'javascript:|https?://|@import', page.name)
        self.assertNotRegex((FOLDER / 'reading.css').read_text(encoding='utf-8'), r'url\(|@import')
        self.assertNotRegex((FOLDER / 'ticks.js').read_text(encoding='utf-8'), r'https?:|fetch|XMLHttp|import|WebSocket|sendBeacon|\bsrc\b|eval')

    def test_links_lead_somewhere(self):
        marks = {page.name: set(re.findall(r'\bid="([^"]+)"', page.read_text(encoding='utf-8'))) for page in pages()}
        for page in pages():
            for link in set(re.findall(r'href="([^"]+)"', page.read_text(encoding='utf-8'))):
                name, _, mark = link.partition('#')
                self.assertTrue((FOLDER / name).exists(), f'{page.name}: {link}')
                self.assertTrue(not mark or mark in marks[name or page.name], f'{page.name}: {link}')
            for source in re.findall(r'src="([^"]+)"', page.read_text(encoding='utf-8')):
                self.assertTrue((FOLDER / source).is_file(), f'{page.name}: {source}')


@unittest.skipUnless(browser.installed(), 'chromium is not installed')
class PagesInABrowser(unittest.TestCase):
    @classmethod
    def setUpClass(cls):
        cls.browser = browser.Browser().__enter__()

    @classmethod
    def tearDownClass(cls):
        cls.browser.__exit__()

    def measured(self, page, width, medium='screen'):
        """The faults of the page that is open, laid out for a width."""
        self.browser.width(width, medium)
        found = self.browser.evaluate(MEASURE)
        self.assertGreater(found['lines'], 5, page.name)
        return [f'{page.name} at {width}, {medium}: {fault}' for fault in found['faults']]

    def test_every_page(self):
        """On the screen with all that can be opened open, wide and narrow; in print as it is opened; sheet by sheet."""
        for page in pages():
            self.browser.open(page)
            self.assertEqual(self.measured(page, PRINT_WIDTH, 'print'), [])
            self.on_sheets(page)
            self.browser.evaluate(OPEN_ALL)
            self.assertEqual(self.measured(page, WIDE) + self.measured(page, NARROW), [])

    def on_sheets(self, page):
        if shutil.which('pdftotext'):
            shown = characters(self.browser.evaluate('document.body.innerText'))
            found, outside = on_paper(self.browser.printed())
            self.assertGreater(shown.total(), 100, page.name)
            self.assertEqual((shown - found, outside), (Counter(), []), page.name)

    def test_closed_until_opened(self):
        self.browser.width(WIDE)
        self.browser.open(FOLDER / 'days-and-months.html')
        hidden = "document.querySelectorAll('dl').length > 0 && ![...document.querySelectorAll('dl')].some((each) => each.checkVisibility())"
        self.assertTrue(self.browser.evaluate(hidden))

    def test_ticks_are_kept(self):
        """A tick is there after a reload, on its page alone, in print too; one that is taken back is not."""
        ticked = "[...document.querySelectorAll('input')].flatMap((box, place) => box.checked ? [place] : [])"
        line = "document.querySelector('.ticks').textContent"
        page = FOLDER / 'days-and-months.html'
        self.browser.width(WIDE)
        self.browser.open(page)
        self.assertEqual(self.browser.evaluate(ticked), [])
        self.browser.evaluate("document.querySelectorAll('input')[2].click(); document.querySelectorAll('input')[4].click()")
        self.assertRegex(self.browser.evaluate(line), r'^2 of \d+ boxes ticked; the ticks are kept')
        self.browser.open(page)
        self.assertEqual(self.browser.evaluate(ticked), [2, 4])
        self.browser.width(PRINT_WIDTH, 'print')
        self.assertEqual(self.browser.evaluate(ticked), [2, 4])
        self.assertTrue(self.browser.evaluate("[...document.querySelectorAll('input, .ticks')].every((each) => each.checkVisibility())"))
        self.browser.open(FOLDER / 'listed-months.html')
        self.assertEqual(self.browser.evaluate(ticked), [])
        self.browser.open(page)
        self.browser.evaluate("document.querySelectorAll('input')[2].click(); document.querySelectorAll('input')[4].click()")
        self.browser.open(page)
        self.assertEqual(self.browser.evaluate(ticked), [])

    def test_pictures_are_shown(self):
        """Every picture of the edition is loaded, in its own size on a narrow page, which is not the wider for it."""
        loaded = "[...document.images].every((each) => each.complete && each.naturalWidth > 0) && document.documentElement.scrollWidth <= innerWidth"
        count = 0
        for page in pages():
            if '<img' in page.read_text(encoding='utf-8'):
                for width in (WIDE, NARROW):
                    self.browser.width(width)
                    self.browser.open(page)
                    self.assertTrue(self.browser.evaluate(loaded), (page.name, width))
                count += self.browser.evaluate('document.images.length')
        self.assertEqual(count, 8)

    def test_two_columns_in_print(self):
        self.browser.width(PRINT_WIDTH, 'print')
        self.browser.open(FOLDER / 'days-and-months.html')
        beside = '''document.querySelectorAll('.pair').length > 0 && [...document.querySelectorAll('.pair')].every((pair) =>
          pair.querySelector('.l').getBoundingClientRect().right <= pair.querySelector('.r').getBoundingClientRect().left)'''
        self.assertTrue(self.browser.evaluate(beside))

    def test_the_measure_finds_faults(self):
        faulty = {'one over the other': '<p>some words</p><p style="position: relative; top: -1.8em">others</p>',
                  'cut at the edge': '<p style="white-space: nowrap">' + 'words ' * 200 + '</p>',
                  'cut by a box': '<p style="overflow: hidden; height: 8px">some words</p>'}
        for fault, body in faulty.items():
            with tempfile.TemporaryDirectory() as folder:
                page = Path(folder) / 'page.html'
                page.write_text(f'<!DOCTYPE html><html><body style="line-height: 1">{"<p>a line</p>" * 6}{body}</body></html>', encoding='utf-8')
                self.browser.open(page)
                self.assertTrue(any(fault in each for each in self.measured(page, NARROW)), fault)

    @unittest.skipUnless(shutil.which('pdftotext'), 'pdftotext is not installed')
    def test_the_sheets_show_faults(self):
        """Words that leave the sheet on the left, and a line of a box that cannot be parted at the sheet's end."""
        for body in ('<p style="margin-left: -9mm">words</p>', '<p style="overflow: hidden; height: 290mm">' + 'words<br>' * 90 + '</p>'):
            with tempfile.TemporaryDirectory() as folder:
                page = Path(folder) / 'page.html'
                page.write_text('<!DOCTYPE html><html><head><style>@page { size: A4; margin: 15mm 14mm 16mm }</style></head>'
                                f'<body>{body}</body></html>', encoding='utf-8')
                self.browser.open(page)
                shown = characters(self.browser.evaluate('document.body.innerText'))
                found, outside = on_paper(self.browser.printed())
                self.assertTrue(shown - found or outside, body[:40])


if __name__ == '__main__':
    if not browser.installed():
        print('left out: the pages in a browser (chromium is not installed)')
    elif not shutil.which('pdftotext'):
        print('left out: the printed sheets of the pages (pdftotext is not installed)')
    unittest.main()
