"""Tests of the table and its calls, and of the table against the book."""

import ast
import os
import random
import unittest
from dataclasses import replace

from tests import ROOT
from tests.inputs.march import EASTER, FRIDAY_21, PLAIN, THURSDAY_20, opened, weekdays_between
from tests.inputs.products import AXA, item
from tests.second import dates, listing, master, product, table, terms, trading
from tests.second.book import Book
from tests.second.product import SHARE
from tests.second.trading import Calendar


class Tables(unittest.TestCase):

    def test_open_refusals(self):
        file = master.build(EASTER, [AXA])
        for code, date, number in ((b'AXA ', THURSDAY_20, 0), (b'AXB ', THURSDAY_20, 9),
                                   (b'AXA\0', THURSDAY_20, 9), (b'    ', 0, 9),
                                   (b'AXA ', 2921, 11), (b'AXA ', 36525, 11),
                                   (b'AXA ', dates.day_of(2010, 12, 31), 16)):
            answer = table.open_table(file, code, date)
            self.assertEqual(answer[0], number)
            if number:
                self.assertEqual(answer[1:], (table.ZERO_TABLE, 0, 0))
        self.assertEqual(table.open_table(b'', b'AXA ', 0)[0], 1)
        self.assertEqual(table.roll(table.ZERO_TABLE, 0), (10, table.ZERO_TABLE, 0, 0))

    def test_call_refusals(self):
        held = opened([AXA], EASTER, THURSDAY_20)
        saturday = dates.day_of(2008, 3, 22)
        for call, day, number in ((table.roll, 2921, 11), (table.roll, THURSDAY_20 - 1, 12),
                                  (table.roll, dates.day_of(2010, 6, 1), 16),
                                  (table.close, 36525, 11), (table.close, THURSDAY_20, 13),
                                  (table.close, FRIDAY_21, 14), (table.close, saturday, 14)):
            self.assertEqual(call(held, day), (number, held, 0, 0))
        for day in range(24, 27):
            number, held, _, _ = table.close(held, dates.day_of(2008, 3, day))
            self.assertEqual(number, 0)
        self.assertEqual(table.close(held, dates.day_of(2008, 3, 27)), (15, held, 0, 0))

    # The front month's day, Friday 21 March, moves before the date, Thursday 20
    # March; April 2008 needs March 2009, which lies beyond the cover.
    def test_close_refused_by_16(self):
        calendar = Calendar(2008, 1, frozenset([THURSDAY_20]))
        held = opened([AXA], calendar, THURSDAY_20)
        self.assertEqual(table.close(held, FRIDAY_21), (16, held, 0, 0))
        self.assertEqual(table.roll(held, FRIDAY_21)[0], 0)
        self.assertEqual(table.roll(held, FRIDAY_21 + 1), (16, held, 0, 0))

    def test_values(self):
        held = opened([AXA], EASTER, THURSDAY_20)
        march = dates.month_number(2008, 3)
        self.assertEqual(table.last_trading_day(held, march), (0, THURSDAY_20, 1))
        for month in (march - 1, march + 4, 1200, 0):
            self.assertEqual(table.last_trading_day(held, month), (18, 0, 0))
        self.assertEqual(table.due(held, THURSDAY_20), (0, dates.day_of(2008, 3, 26)))
        self.assertEqual(table.due(held, FRIDAY_21), (0, dates.day_of(2008, 3, 26)))
        self.assertEqual(table.due(held, 2921), (11, 0))
        self.assertEqual(table.due(held, dates.day_of(2010, 12, 28)), (0, dates.day_of(2010, 12, 31)))
        self.assertEqual(table.due(held, dates.day_of(2010, 12, 29)), (17, 0))
        for price, number in ((0, 19), (1_000_000_000, 19), (150, 20), (999_999_900, 0)):
            self.assertEqual(table.tick(held, price), number)
        self.assertEqual(table.cash(held, 1, 100, 100), (21, False, 0, 0))
        self.assertEqual(table.cash(held, 1, 101, 100), (20, False, 0, 0))

    def test_cash(self):
        held = opened([item(b'F', b'FR01', 0, 65535 * SHARE, 1)], Calendar(2008, 5, frozenset()),
                      THURSDAY_20)
        for contracts, agreed, final, answer in (
                (100_000, 1, 999_999_999, (0, False, 6553499986893000000, 0)),
                (100_000, 999_999_999, 0, (0, True, 6553499993446500000, 0)),
                (0, 1, 1, (22, False, 0, 0)), (100_001, 1, 1, (22, False, 0, 0)),
                (1, 1, 1_000_000_000, (22, False, 0, 0)), (1, 1, -1, (22, False, 0, 0)),
                (1, 0, 1, (19, False, 0, 0))):
            self.assertEqual(table.cash(held, contracts, agreed, final), answer)
        self.assertEqual(table.due(held, THURSDAY_20), (0, FRIDAY_21))

    def test_days_to_settlement(self):
        days = {b'DE11': 2, b'DE14': 2, b'DE15': 3, b'DE10': 3, b'FI11': 4, b'FI14': 4,
                b'FI15': 3, b'GB11': 4, b'GB12': 3, b'IE11': 4, b'IE12': 3, b'FR11': 3}
        for group, n in days.items():
            self.assertEqual(product.days_to_settlement(item(b'A', group)), n)
        for group in (b'DE01', b'FI01', b'GB01'):
            self.assertEqual(product.days_to_settlement(item(b'A', group, 0)), 1)

    def months_of(self, held):
        return [terms.month_text(month) for month, _, _, _ in table.maturities(held)]

    # 01, "Where loaders go astray", in its order.
    def test_where_loaders_go_astray(self):
        held = opened([AXA], EASTER, THURSDAY_20)
        self.assertEqual(table.maturities(held)[0], (dates.month_of(FRIDAY_21), THURSDAY_20, 1, 1))
        self.assertEqual(table.roll(held, THURSDAY_20)[2:], (0, 0))
        july = dates.month_number(2008, 7)
        thursday = listing.third_friday(july) - 1
        calendar = replace(PLAIN, closed=frozenset([thursday + 1]))
        self.assertEqual(listing.last_trading_day(calendar, b'FR11', 1, july), thursday)
        self.assertEqual(listing.last_trading_day(calendar, b'IT11', 1, july), thursday)
        self.assertEqual(listing.last_trading_day(calendar, b'IT12', 1, july), thursday)
        self.assertEqual(self.months_of(opened([AXA], PLAIN, dates.day_of(2008, 4, 1))),
                         ['2008-04', '2008-05', '2008-06', '2008-09', '2008-12', '2009-03'])
        later = table.roll(table.roll(held, FRIDAY_21)[1], dates.day_of(2008, 4, 19))[1]
        self.assertEqual(self.months_of(later),
                         ['2008-05', '2008-06', '2008-07', '2008-09', '2008-12', '2009-03'])
        self.assertEqual([number for _, _, _, number in table.maturities(later)],
                         [3, 4, 8, 5, 6, 7])
        held = opened([AXA], replace(PLAIN, closed=frozenset([THURSDAY_20])), THURSDAY_20)
        number, held, entered, left = table.close(held, FRIDAY_21)
        self.assertEqual((number, entered, left, held.given), (0, 1, 1, 7))
        self.assertEqual(self.months_of(held)[0], '2008-04')


class Soundness(unittest.TestCase):

    def test_damages(self):
        held = table.roll(opened([AXA], EASTER, THURSDAY_20), FRIDAY_21)[1]
        self.assertTrue(table.is_sound(held))
        places = list(held.places)

        def with_place(index, place):
            return replace(held, places=tuple(places[:index] + [place] + places[index + 1:]))

        key, day, back, number = places[1]
        bad = [
            replace(held, date=2921), replace(held, date=36525),
            replace(held, date=THURSDAY_20), replace(held, date=dates.day_of(2008, 4, 19)),
            with_place(1, (key + 1, day, back, number)), with_place(1, (key, day + 1, back, number)),
            with_place(1, (key, day, back + 1, number)), with_place(1, (key, day - 1, back + 1, number)),
            with_place(1, (key, day, back, 0)), with_place(1, (key, day, back, 8)),
            with_place(1, (key, day, back, places[0][3])), with_place(14, (0, 0, 0, 1)),
            with_place(6, (0, 1, 0, 0)), with_place(6, (0, 0, 1, 0)), replace(held, places=tuple(places[:14])),
            replace(held, given=6), replace(held, given=10),
            replace(held, calendar=replace(EASTER, closed=frozenset())),
            replace(held, calendar=replace(EASTER, closed=EASTER.closed | {dates.day_of(2008, 3, 22)})),
            replace(held, calendar=replace(EASTER, closed=EASTER.closed | {-1})),
            replace(held, calendar=replace(EASTER, exchange=frozenset([THURSDAY_20]))),
            replace(held, calendar=replace(EASTER, exchange=frozenset([-1]))),
            replace(held, calendar=replace(EASTER, years=0)),
            replace(held, calendar=replace(EASTER, years=17)),
            *(replace(held, product=replace(AXA, kind=kind)) for kind in (2, 4, 5, 6)),
            replace(held, product=replace(AXA, size=0)), replace(held, product=replace(AXA, size=655_360_000)),
            replace(held, product=replace(AXA, tick=2)),
            replace(held, product=replace(AXA, id=b' AXA')),
            replace(held, product=replace(AXA, market=b'XPA1')),
            replace(held, product=replace(AXA, group=b'FR01')),
            replace(held, product=replace(AXA, currency=b'EUX')),
        ]
        for index, damaged in enumerate(bad):
            self.assertFalse(table.is_sound(damaged), index)
            self.assertEqual(table.roll(damaged, damaged.date), (10, damaged, 0, 0))
            self.assertEqual(table.close(damaged, damaged.date + 1), (10, damaged, 0, 0))
            self.assertEqual(table.reopen(damaged, damaged.date + 1), (10, damaged, 0, 0))
            self.assertEqual(table.measure(damaged, 0, 0, 0), (10, damaged, 0))
            self.assertEqual(table.last_trading_day(damaged, key), (10, 0, 0))
            self.assertEqual(table.due(damaged, damaged.date), (10, 0))
            self.assertEqual(table.tick(damaged, 0), 10)
            self.assertEqual(table.cash(damaged, 0, 0, 0), (10, False, 0, 0))

    def test_still_sound(self):
        held = table.roll(opened([AXA], EASTER, THURSDAY_20), FRIDAY_21)[1]
        self.assertTrue(table.is_sound(replace(held, given=9)))
        self.assertTrue(table.is_sound(replace(held, calendar=replace(EASTER, years=2))))
        self.assertTrue(table.is_sound(replace(held, product=replace(AXA, group=b'DE19'))))
        for size in (1, 9_999, 10_000, 655_359_999):
            self.assertTrue(table.is_sound(replace(held, product=replace(AXA, size=size))))


class Histories(unittest.TestCase):

    def test_book_does_not_import_table(self):
        with open(os.path.join(ROOT, 'tests', 'second', 'book.py')) as source:
            tree = ast.parse(source.read())
        names = [name.name for node in ast.walk(tree)
                 if isinstance(node, (ast.Import, ast.ImportFrom)) for name in node.names]
        self.assertEqual(names, ['listing', 'product', 'trading'])

    def day_near(self, rest, date, calendar):
        if rest.random() < 0.05:
            return rest.choice((0, 36524, 36525, trading.first_day(calendar),
                                trading.last_day(calendar), trading.last_day(calendar) + 1))
        if rest.random() < 0.4:
            return date + rest.randrange(1, 9)
        month = min(dates.month_of(date) + rest.randrange(4), dates.MONTHS - 1)
        if rest.random() < 0.5:
            return listing.third_friday(month) + rest.choice((0, 0, 7, -7)) - rest.randrange(-1, 6)
        return date + rest.randrange(-1, 40)

    # One call on the table and on the book; both must agree on its refusal and on what
    # comes with it, the counts or the price.
    def one_call(self, held, book, name, arguments, numbers):
        number, held, *values = getattr(table, name)(held, *arguments)
        self.assertEqual((number, *values), getattr(book, name)(*arguments))
        numbers.append(number)
        self.assertTrue(table.is_sound(held))
        self.assertEqual((held.product.size, held.calendar, held.date, table.maturities(held), held.given),
                         (book.size, book.calendar, book.date, book.maturities, book.given))
        self.assertEqual(held.given, len(book.left) + len(book.maturities))
        self.assertEqual(held.given, len({*book.left, *(key for key, _, _, _ in book.maturities)}))
        if name == 'reopen':
            self.assertEqual(values, [0, 0])
        return held

    # 02, note 11: measures of every answer.
    def some_measures(self, rest):
        ratios = [rest.choice(((1, 1), (2, 1), (1, 3), (3, 2), (1000, 999), (1, 1000), (0, 1), (1, 1001)))
                  for _ in range(3)]
        return [('measure', p, q, rest.choice((0, 1, 123400, 999999999, 1000000000))) for p, q in ratios]

    def history(self, seed, numbers):
        rest = random.Random(seed)
        kind = rest.choice(product.KINDS)
        group = rest.choice((b'FR', b'IT')) + (b'01' if kind in product.FUTURES else b'11')
        first_year = rest.choice((2000, 2008, 2092))
        years = rest.choice((4, 8)) if kind in (0, 1, 4) else 8
        empty = Calendar(first_year, years, frozenset())
        days = sorted(weekdays_between(trading.first_day(empty), trading.last_day(empty)))
        calendar = replace(empty, closed=frozenset(rest.sample(days, 12 * years)))
        if not trading.every_week_trades(calendar):
            calendar = empty
        date = trading.first_day(calendar) + rest.randrange(7 if product.is_weekly(kind) else 0, 60)
        size = rest.choice((1, 100, 65535)) * SHARE + rest.choice((0, 1, 3333))
        held = opened([item(b'A', group, kind, size)], calendar, date)
        book = Book(kind, group, size, calendar, date)
        for _ in range(rest.randrange(40)):
            day = self.day_near(rest, book.date, calendar)
            front = book.maturities[0][1]
            for name, *arguments in rest.choice((
                    (('roll', day),), (('close', day),), (('close', day),), (('reopen', day),),
                    self.some_measures(rest),
                    [('close', day + later) for later in range(7)],
                    [(name, day + later) for name in ('close', 'reopen') for later in rest.sample(range(7), 4)],
                    (('close', front - 1), ('roll', front - 1), ('close', front), ('reopen', front)))):
                held = self.one_call(held, book, name, arguments, numbers)

    def test_table_equals_book(self):
        numbers = []
        for seed in range(60):
            self.history(seed, numbers)
        self.assertEqual(set(numbers), {0, 11, 12, 13, 14, 15, 16, 19, 21, 26, 27, 28, 29})


if __name__ == '__main__':
    unittest.main()
