"""Tests of listed months and last trading days, and of futures of 2005 (02, note 1)."""

import unittest
from dataclasses import replace

from tests.inputs.march import EASTER, FRIDAY_21, PLAIN, THURSDAY_20, opened
from tests.inputs.products import item
from tests.second import dates, listing, master, table, terms, trading
from tests.second.trading import Calendar


class Listings(unittest.TestCase):

    def test_months_of_each_kind(self):
        calendar = Calendar(2008, 8, frozenset())
        date = dates.day_of(2008, 7, 19)
        expected = {
            0: ['2008-08', '2008-09', '2008-10', '2008-11', '2008-12', '2009-01', '2009-02',
                '2009-03', '2009-04', '2009-05', '2009-06', '2009-07', '2009-08', '2009-12',
                '2010-12'],
            1: ['2008-08', '2008-09', '2008-10', '2008-12', '2009-03', '2009-06'],
            2: ['2008-08', '2008-09', '2008-10', '2008-12', '2009-03', '2009-06', '2009-12',
                '2010-06'],
            3: ['2008-08', '2008-09', '2008-10', '2008-12', '2009-03', '2009-06', '2009-12',
                '2010-06', '2010-12', '2011-06', '2011-12', '2012-12'],
        }
        for kind, months in expected.items():
            fresh = listing.fresh_listing(calendar, b'FR11', kind, date)
            self.assertEqual([terms.month_text(month) for month, _, _ in fresh], months)
            self.assertTrue(listing.listing_in_cover(calendar, b'FR11', kind, date))

    def test_month_beyond_the_cover(self):
        last_december = dates.day_of(2099, 12, 18)
        calendar = Calendar(2099, 1, frozenset())
        self.assertEqual(listing.front_month(calendar, b'FR11', 1, last_december), 1199)
        self.assertEqual(listing.front_month(calendar, b'FR11', 1, last_december + 1), 1200)
        self.assertEqual(listing.fresh_listing(calendar, b'FR11', 1, last_december + 1), ())
        self.assertEqual(listing.listed_keys(calendar, b'FR11', 1, last_december),
                         ((1199,), False))

    def test_steps_back_from_the_anchor(self):
        month = dates.month_number(2008, 8)
        friday = listing.third_friday(month)
        for group, steps in ((b'FR11', {0, 1, 2, 3, 4}), (b'IT11', {0, 1, 2, 3, 6})):
            seen = set()
            for mask in range(2 ** 7):
                days = frozenset(friday - k for k in range(7) if mask >> k & 1
                                 and dates.is_weekday(friday - k))
                calendar = replace(PLAIN, closed=days)
                if trading.every_week_trades(calendar):
                    seen.add(listing.days_back(calendar, group, 1, month))
            self.assertEqual(seen, steps)

    # 02, note 2: "0 to 6". Thursday's week closed up to it: an Italian month ends on
    # the Friday before, six days back.
    def test_italian_thursday_steps_back_6(self):
        month = dates.month_number(2008, 8)
        thursday = listing.third_friday(month) - 1
        calendar = replace(PLAIN, closed=frozenset(range(thursday - 3, thursday + 1)))
        self.assertTrue(trading.every_week_trades(calendar))
        self.assertEqual(listing.last_trading_day(calendar, b'IT11', 1, month), thursday - 6)
        self.assertEqual(listing.days_back(calendar, b'IT11', 1, month), 6)
        self.assertEqual(listing.days_back(calendar, b'FR11', 1, month), 0)


class FuturesOf2005(unittest.TestCase):
    """02, note 1, and where a loader of kind 4 goes astray."""

    ITEM = item(b'AXA5', b'FR01', 4)

    def months(self, calendar, year, month, day, group=b'FR01'):
        fresh = listing.fresh_listing(calendar, group, 4, dates.day_of(year, month, day))
        return [terms.month_text(month) for month, _, _ in fresh]

    def test_examples(self):
        self.assertEqual(self.months(EASTER, 2008, 3, 20),
                         ['2008-03', '2008-04', '2008-05', '2008-06', '2008-07', '2008-09', '2008-12'])
        self.assertEqual(self.months(EASTER, 2008, 3, 21),
                         ['2008-04', '2008-05', '2008-06', '2008-07', '2008-09', '2008-12', '2009-03'])
        self.assertEqual(self.months(EASTER, 2008, 7, 19),
                         ['2008-09', '2008-12', '2009-03', '2009-04', '2009-05', '2009-06', '2009-07'])

    # "Show that this is the same as the next seven months of that set", also where
    # the cover ends before the seventh.
    def test_the_next_seven_months(self):
        short = 0
        for calendar in (PLAIN, EASTER, Calendar(2098, 2, frozenset())):
            for group in (b'FR01', b'IT01'):
                for date in range(trading.first_day(calendar), trading.last_day(calendar) + 1):
                    front = listing.front_month(calendar, group, 4, date)
                    seven = listing.next_months(calendar, listing.NAMES_2005, 7, front)
                    self.assertEqual(listing.listed_keys(calendar, group, 4, date),
                                     (tuple(seven), len(seven) == 7))
                    short += len(seven) < 7
        self.assertTrue(short)

    # The front is of the seven names: on 2 January 2008 it is March, and not
    # January. All cover months before it count: 7, 8 and 9 numbers given leave the
    # table sound, and 10 do not.
    def test_front_of_any_name(self):
        date = dates.day_of(2008, 1, 2)
        self.assertEqual(listing.front_month(PLAIN, b'FR01', 0, date), dates.month_number(2008, 1))
        self.assertEqual(listing.front_month(PLAIN, b'FR01', 4, date), dates.month_number(2008, 3))
        held = opened([self.ITEM], PLAIN, date)
        self.assertEqual([table.is_sound(replace(held, given=given)) for given in range(6, 12)],
                         [False, True, True, True, False, False])

    # Not only the months of the seven names count: 26 cover months stand before
    # March 2010, 14 of them of those names.
    def test_months_before_the_front(self):
        held = opened([self.ITEM], PLAIN, dates.day_of(2010, 1, 1))
        march = dates.month_number(2010, 3)
        self.assertEqual(table.maturities(held)[0][0], march)
        before = range(trading.first_month(PLAIN), march)
        self.assertEqual((len(before), sum(month % 12 + 1 in listing.NAMES_2005 for month in before)),
                         (26, 14))
        for given in (7 + 14, 7 + 15, 7 + 26):
            self.assertTrue(table.is_sound(replace(held, given=given)), given)
        self.assertFalse(table.is_sound(replace(held, given=7 + 27)))

    # Question 16 in a cover of 2008 alone: on 21 March the listing has March 2009.
    def test_question_16(self):
        file = master.build(replace(EASTER, years=1), [self.ITEM])
        self.assertEqual(table.open_table(file, b'AXA5', THURSDAY_20)[0], 0)
        self.assertEqual(table.open_table(file, b'AXA5', FRIDAY_21)[0], 16)

    # The group digit is a future's.
    def test_question_7(self):
        for group, kind, number in ((b'FR01', 4, 0), (b'FR11', 4, 7), (b'FR21', 4, 7)):
            self.assertEqual(master.load(master.build(PLAIN, [item(b'A', group, kind)]))[0], number)

    # Cash and the due day are a future's.
    def test_values(self):
        held = opened([self.ITEM], EASTER, THURSDAY_20)
        self.assertEqual(table.cash(held, 3, 123400, 125000), (0, False, 480000, 0))
        self.assertEqual(table.due(held, THURSDAY_20), (0, dates.day_of(2008, 3, 24)))

    # Kind 0 keeps the text of 2008.
    def test_kind_0(self):
        fresh = listing.fresh_listing(Calendar(2008, 5, frozenset()), b'FR01', 0, THURSDAY_20)
        first = dates.month_number(2008, 3)
        self.assertEqual([month for month, _, _ in fresh], [*range(first, first + 13), first + 21, first + 33])


if __name__ == '__main__':
    unittest.main()
