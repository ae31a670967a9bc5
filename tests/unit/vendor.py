"""Tests of the second program's listings from elsewhere (02, note 12) and of its
program confirm: python3 -m tests.unit.vendor"""

import random
import unittest
from dataclasses import replace

from tests.inputs.products import products_of
from tests.inputs.runs import lines
from tests.second import confirm, dates, master, table, vendor
from tests.second.trading import Calendar

# 01: the example's table on 20 March 2008, as a vendor would send it.
LISTING = ((2008, 3, 20), (2008, 4, 18), (2008, 5, 16), (2008, 6, 20), (2008, 9, 19), (2008, 12, 19))
EXAMPLE_LINES = ['%04d-%02d %04d-%02d-%02d' % (year, month, year, month, day) for year, month, day in LISTING]


# The table of a product on a date.
def opened(file, code, date):
    number, held, _, _ = table.open_table(file, code.ljust(4), dates.day_of(*date))
    assert number == 0, number
    return held


# A month's number.
def month(year, name):
    return 12 * (year - 2000) + name - 1


# Pairs as a lent list of numbers.
def numbers(pairs):
    return [number for pair in pairs for number in pair]


HELD = opened(lines.FILE, b'AXA', (2008, 3, 20))
PAIRS = [(month(year, name), dates.day_of(year, name, day)) for year, name, day in LISTING]
MARCH, JUNE, DECEMBER = month(2008, 3), month(2008, 6), month(2008, 12)


class Judge(unittest.TestCase):

    # What is said of pairs, for the example's table.
    def said(self, pairs):
        return vendor.judge(HELD, numbers(pairs))

    def test_every_order(self):
        for turn in range(6):
            self.assertEqual(self.said(PAIRS[turn:] + PAIRS[:turn]), (0, True, 0))
            self.assertEqual(self.said(PAIRS[turn::-1] + PAIRS[:turn:-1]), (0, True, 0))

    def test_another_day(self):
        for place, (key, day) in enumerate(PAIRS):
            for other in (day - 1, day + 1, 0, 65535):
                changed = PAIRS[:place] + [(key, other)] + PAIRS[place + 1:]
                self.assertEqual(self.said(changed), (0, False, key))

    def test_doubled(self):
        self.assertEqual(self.said(PAIRS + PAIRS[-1:]), (0, False, DECEMBER))
        self.assertEqual(self.said(PAIRS + PAIRS), (0, False, MARCH))

    # One of its two days is right, first or last.
    def test_doubled_with_two_days(self):
        other = (JUNE, PAIRS[3][1] - 1)
        self.assertEqual(self.said(PAIRS + [other]), (0, False, JUNE))
        self.assertEqual(self.said([other] + PAIRS), (0, False, JUNE))

    # The smaller of two months, wherever they stand; lists of the same length.
    def test_smallest(self):
        later = (month(2009, 3), dates.day_of(2009, 3, 20))
        self.assertEqual(self.said(PAIRS[1:] + [later]), (0, False, MARCH))
        self.assertEqual(self.said([later] + PAIRS[1:]), (0, False, MARCH))
        self.assertEqual(self.said(PAIRS[:-1] + [later]), (0, False, DECEMBER))
        self.assertEqual(self.said(PAIRS + [later]), (0, False, later[0]))

    def test_ends(self):
        self.assertEqual(self.said([]), (0, False, MARCH))
        self.assertEqual(self.said([(65535, 1)] + PAIRS), (0, False, 65535))
        self.assertEqual(self.said([(0, 0)] + PAIRS), (0, False, 0))
        self.assertEqual(self.said(PAIRS * 1000), (0, False, MARCH))

    def test_odd_number_of_numbers(self):
        self.assertEqual(vendor.judge(HELD, numbers(PAIRS)[:-1]), (0, False, DECEMBER))
        self.assertEqual(vendor.judge(HELD, numbers(PAIRS) + [DECEMBER]), (0, False, DECEMBER))

    # January 2000, whose number is 0, is a month like others.
    def test_month_0(self):
        file = master.build(Calendar(2000, 2, frozenset()), products_of('AXA'))
        held = opened(file, b'AXA', (2000, 1, 3))
        fresh = vendor.fresh_pairs(held)
        self.assertEqual(fresh[0][0], 0)
        self.assertEqual(vendor.judge(held, numbers(fresh)), (0, True, 0))
        self.assertEqual(vendor.judge(held, numbers([(0, 1)] + fresh[1:])), (0, False, 0))

    # The list of the day before, over the front month's last day.
    def test_yesterdays_list(self):
        held = opened(lines.FILE, b'AXA', (2008, 3, 21))
        self.assertEqual(vendor.judge(held, numbers(PAIRS)), (0, False, MARCH))

    # The stored places of an unsound table play no part.
    def test_unsound(self):
        wrong = replace(HELD, given=HELD.given + 100)
        self.assertEqual(vendor.judge(wrong, numbers(PAIRS)), (10, False, 0))
        self.assertEqual(vendor.judge(table.ZERO_TABLE, []), (10, False, 0))

    def test_fridays(self):
        held = opened(lines.WEEKLY_FILE, b'AXAW', (2008, 3, 17))
        fresh = vendor.fresh_pairs(held)
        self.assertEqual([dates.date_of(key)[1:] for key, _ in fresh], [(3, 28), (4, 4), (4, 11), (4, 25)])
        self.assertEqual(vendor.judge(held, numbers(reversed(fresh))), (0, True, 0))
        third = dates.day_of(2008, 4, 18)
        self.assertEqual(vendor.judge(held, numbers([*fresh, (third, third)])), (0, False, third))

    # Every verdict against the note's sentence, month by month.
    def test_against_the_sentence(self):
        chance = random.Random(12)
        for _ in range(2000):
            pairs = [pair for pair in PAIRS if chance.random() < 0.9]
            pairs += [(chance.choice((MARCH, JUNE, 7, 2000)), chance.choice((PAIRS[0][1], 5)))
                      for _ in range(chance.choice((0, 0, 0, 1, 2)))]
            chance.shuffle(pairs)
            fresh = dict(PAIRS)
            wrong = [key for key in {*fresh, *dict(pairs)}
                     if [day for other, day in pairs if other == key] != [fresh.get(key)]]
            expected = (0, False, min(wrong)) if wrong else (0, True, 0)
            self.assertEqual(self.said(pairs), expected)


class Confirm(unittest.TestCase):

    # What is printed for the lines of an input.
    def printed(self, *text, file=lines.FILE, end='\n'):
        return confirm.answer(file, ('\n'.join(text) + end).encode()).decode()

    def test_example(self):
        for listing in (EXAMPLE_LINES, EXAMPLE_LINES[::-1]):
            for end in ('', '\n'):
                self.assertEqual(self.printed('O AXA 2008-03-20', *listing, end=end), 'YES\n')

    def test_notices(self):
        moved = [line.replace('2008-04-18', '2008-04-17') for line in EXAMPLE_LINES[1:]] + ['2009-03 2009-03-20']
        calls = ('O AXA 2008-03-20', 'R 2008-03-21', 'C 2008-04-18')
        self.assertEqual(self.printed(*calls, *moved), 'YES\n')
        self.assertEqual(self.printed(*calls, *moved[1:]), 'DIFFERS 2008-04\n')
        self.assertEqual(self.printed(*calls[:2], *moved), 'DIFFERS 2008-04\n')

    def test_differs(self):
        self.assertEqual(self.printed('O AXA 2008-03-20'), 'DIFFERS 2008-03\n')
        self.assertEqual(self.printed('O AXA 2008-03-20', *EXAMPLE_LINES, '2099-12 2099-12-18'), 'DIFFERS 2099-12\n')
        self.assertEqual(self.printed('O AXA 2008-03-20', *EXAMPLE_LINES, EXAMPLE_LINES[3]), 'DIFFERS 2008-06\n')

    def test_fridays(self):
        fridays = ('2008-03-28', '2008-04-04', '2008-04-11', '2008-04-25')
        listing = [f'{friday} {friday}' for friday in fridays]
        for text, expected in ((listing, 'YES\n'), (listing[1:], 'DIFFERS 2008-03-28\n'),
                               (EXAMPLE_LINES, 'BAD 2\n'), ([*listing, '2008-04-18 2008-04-18'], 'DIFFERS 2008-04-18\n')):
            self.assertEqual(self.printed('O AXAW 2008-03-17', *text, file=lines.WEEKLY_FILE), expected)

    def test_refused(self):
        self.assertEqual(self.printed('O AXB 2008-03-20', 'nothing'), 'REFUSED 9\n')
        self.assertEqual(self.printed('O AXA 2008-03-20', 'C 2008-03-20', 'nothing'), 'REFUSED 13\n')
        self.assertEqual(self.printed('O AXA 2008-03-20', file=b''), 'REFUSED 1\n')

    def test_bad(self):
        first = 'O AXA 2008-03-20'
        self.assertEqual(confirm.answer(lines.FILE, b''), b'BAD 1\n')
        for text, place in ((('R 2008-03-21',), 1), (('',), 1), (EXAMPLE_LINES, 1), ((first, first), 2), ((first, ''), 2),
                            ((first, EXAMPLE_LINES[0], 'R 2008-03-21'), 3), ((first, '2008-13 2008-03-20'), 2),
                            ((first, '2008-03 2008-02-30'), 2), ((first, '2008-3 2008-03-20'), 2),
                            ((first, '2100-01 2008-03-20'), 2), ((first, '2008-03  2008-03-20'), 2),
                            ((first, '2008-03 2008-03-20 0'), 2), ((first, '2008-03-07 2008-03-07'), 2)):
            self.assertEqual(self.printed(*text), f'BAD {place}\n', text)

    # A line that doesn't end in 65,536 bytes, its line feed among them, is bad.
    def test_long_input(self):
        first, line = b'O AXA 2008-03-20\n', b'2008-03 2008-03-20\n'
        count = (65536 - len(first)) // len(line)
        text = first + line * count
        self.assertEqual(confirm.answer(lines.FILE, text), b'DIFFERS 2008-03\n')
        self.assertEqual(confirm.answer(lines.FILE, text + line), b'BAD %d\n' % (count + 2))
        self.assertEqual(confirm.answer(lines.FILE, b'x' * 65537), b'BAD 1\n')


if __name__ == '__main__':
    unittest.main()
