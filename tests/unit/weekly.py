"""Tests of weekly options (02, note 3)."""

import datetime
import random
import unittest
from dataclasses import replace

from tests.inputs.march import EASTER, PLAIN, opened, weekdays_between
from tests.inputs.products import AXA, item
from tests.second import dates, listing, master, table, terms, trading
from tests.second.book import Book
from tests.second.product import SHARE
from tests.second.trading import Calendar


class WeeklyOptions(unittest.TestCase):
    """02, note 3, and where a loader of kind 5 goes astray."""

    AXAW = item(b'AXAW', b'FR11', 5)
    ENIW = item(b'ENIW', b'IT11', 5)
    START_2010 = Calendar(2010, 1, frozenset())

    # The dates of the Fridays listed on a date.
    def fridays(self, calendar, year, month, day, group=b'FR11'):
        fresh = listing.fresh_listing(calendar, group, 5, dates.day_of(year, month, day))
        return [terms.day_text(friday) for friday, _, _ in fresh]

    def refusal(self, calendar, code, date):
        return table.open_table(master.build(calendar, [AXA, self.AXAW, self.ENIW]), code, date)[0]

    # On 17 March 2008 28 March, 4, 11 and 25 April; on 29 March 2 May enters with
    # the number 5. FR11 and IT11 alike.
    def test_worked_rows(self):
        for one in (self.AXAW, self.ENIW):
            held = opened([one], EASTER, dates.day_of(2008, 3, 17))
            self.assertEqual([(terms.day_text(key), day - key, back, number)
                              for key, day, back, number in table.maturities(held)],
                             [('2008-03-28', 0, 0, 1), ('2008-04-04', 0, 0, 2), ('2008-04-11', 0, 0, 3),
                              ('2008-04-25', 0, 0, 4)])
            number, held, entered, left = table.roll(held, dates.day_of(2008, 3, 29))
            self.assertEqual((number, entered, left, held.given), (0, 1, 1, 5))
            self.assertEqual([(terms.day_text(key), number) for key, _, _, number in table.maturities(held)],
                             [('2008-04-04', 2), ('2008-04-11', 3), ('2008-04-25', 4), ('2008-05-02', 5)])

    # The note's sentence read as it stands: of all weekly Fridays of the cover, with
    # their days, the first four whose day is not before the date.
    def test_listing_against_its_sentence(self):
        rest = random.Random(5)
        short = 0
        for first_year, years in ((2008, 2), (2010, 1), (2098, 2)):
            empty = Calendar(first_year, years, frozenset())
            first, last = trading.first_day(empty), trading.last_day(empty)
            closed = frozenset(day for day in weekdays_between(first, last) if rest.random() < 0.25)
            for calendar in (empty, replace(empty, closed=closed)):
                trades = [day for day in range(first, last + 1) if trading.is_trading_day(calendar, day)]
                pairs = [(friday, max((day for day in trades if day <= friday), default=-1))
                         for friday in range(first, last + 1)
                         if datetime.date(*dates.date_of(friday)).weekday() == 4
                         and not 15 <= dates.date_of(friday)[2] <= 21]
                for date in range(first, last + 1):
                    four = tuple((friday, day, friday - day) for friday, day in pairs if day >= date)[:4]
                    self.assertEqual(listing.fresh_listing(calendar, b'IT11', 5, date), four)
                    self.assertEqual(listing.listing_in_cover(calendar, b'IT11', 5, date), len(four) == 4)
                    self.assertEqual(listing.front_key(calendar, b'IT11', 5, date),
                                     four[0][0] if four else last + 1)
                    short += len(four) < 4
        self.assertTrue(short)

    # Back and not forward, also into another month: Friday 1 May 2009 closed ends on
    # Thursday 30 April.
    def test_back_into_the_month_before(self):
        held = opened([self.AXAW], EASTER, dates.day_of(2009, 4, 20))
        first_of_may, thursday = dates.day_of(2009, 5, 1), dates.day_of(2009, 4, 30)
        number, held, entered, left = table.close(held, first_of_may)
        self.assertEqual((number, entered, left), (0, 0, 0))
        self.assertEqual(table.last_trading_day(held, first_of_may), (0, thursday, 1))
        self.assertEqual(table.roll(held, thursday)[2:], (1, 1))
        self.assertEqual(table.maturities(table.roll(held, thursday)[1])[0], (first_of_may, thursday, 1, 2))
        self.assertEqual(table.roll(held, first_of_may)[2:], (2, 2))

    # The third Friday of the Friday's month, and not of the date's: 18 April is left
    # out on 31 March.
    def test_third_friday_of_its_own_month(self):
        self.assertEqual(self.fridays(EASTER, 2008, 3, 31),
                         ['2008-04-04', '2008-04-11', '2008-04-25', '2008-05-02'])

    # A Friday from the 15th to the 21st is never weekly, every other is. 2010 begins
    # with one and ends with one.
    def test_weekly_fridays(self):
        start = datetime.date(2000, 1, 1)
        for day in range(dates.DAYS):
            date = start + datetime.timedelta(day)
            self.assertEqual(listing.is_weekly_friday(day), date.weekday() == 4 and not 15 <= date.day <= 21)
        for date in ((2010, 1, 1), (2010, 12, 31)):
            self.assertTrue(listing.is_weekly_friday(dates.day_of(*date)))

    # 24 at its edge, in a cover from Friday 1 January 2010: 8 January opens and
    # lists that Friday. 11 and 9 come before it, and a monthly option is not asked.
    def test_question_24(self):
        for code in (b'AXAW', b'ENIW'):
            for day, number in ((1, 24), (2, 24), (7, 24), (8, 0), (9, 0)):
                self.assertEqual(self.refusal(self.START_2010, code, dates.day_of(2010, 1, day)), number)
            self.assertEqual(self.refusal(self.START_2010, code, dates.day_of(2009, 12, 31)), 11)
            self.assertEqual(self.refusal(self.START_2010, code, dates.day_of(2011, 1, 1)), 11)
        self.assertEqual(self.fridays(self.START_2010, 2010, 1, 8),
                         ['2010-01-08', '2010-01-22', '2010-01-29', '2010-02-05'])
        self.assertEqual(self.refusal(self.START_2010, b'NONE', dates.day_of(2010, 1, 1)), 9)
        self.assertEqual(self.refusal(self.START_2010, b'AXA ', dates.day_of(2010, 1, 1)), 0)

    # 16 with Fridays: 3 December is the last date of 2010 with four of them, by an
    # open, a roll and a close.
    def test_question_16(self):
        third = dates.day_of(2010, 12, 3)
        self.assertEqual(self.fridays(self.START_2010, 2010, 12, 3),
                         ['2010-12-03', '2010-12-10', '2010-12-24', '2010-12-31'])
        self.assertEqual(self.refusal(self.START_2010, b'AXAW', third), 0)
        self.assertEqual(self.refusal(self.START_2010, b'AXAW', third + 1), 16)
        held = opened([self.AXAW], replace(self.START_2010, closed=frozenset([third - 1])), third - 1)
        self.assertEqual(table.roll(held, third)[0], 0)
        self.assertEqual(table.roll(held, third + 1), (16, held, 0, 0))
        self.assertEqual(table.close(held, third), (16, held, 0, 0))

    # 18 with Fridays: the third Friday, a Thursday, the month's number are not
    # listed.
    def test_question_18(self):
        held = opened([self.ENIW], EASTER, dates.day_of(2008, 4, 7))
        friday = dates.day_of(2008, 4, 11)
        self.assertEqual(table.last_trading_day(held, friday), (0, friday, 0))
        for key in (friday - 7, friday - 1, friday + 7, dates.month_number(2008, 4), dates.day_of(2008, 5, 16), 0):
            self.assertEqual(table.last_trading_day(held, key), (18, 0, 0))

    # 7 admits 5 with an option's group digit, and no 6.
    def test_question_7(self):
        for group, kind, number in ((b'FR11', 5, 0), (b'IT19', 5, 0), (b'FR01', 5, 7), (b'FR21', 5, 7),
                                    (b'FR01', 6, 7), (b'FR11', 6, 7)):
            self.assertEqual(master.load(master.build(PLAIN, [item(b'A', group, kind)]))[0], number)

    # The days moved back are Friday − day, 0 to 4, for Italian groups too: the
    # Friday itself is the anchor.
    def test_days_back(self):
        friday = dates.day_of(2008, 8, 22)
        for group in (b'FR11', b'IT11'):
            seen = set()
            for mask in range(2 ** 5):
                closed = frozenset(friday - k for k in range(5) if mask >> k & 1)
                calendar = replace(PLAIN, closed=closed)
                if trading.every_week_trades(calendar):
                    back = listing.days_back(calendar, group, 5, friday)
                    self.assertEqual(listing.last_trading_day(calendar, group, 5, friday), friday - back)
                    self.assertEqual(back, next(k for k in range(5) if friday - k not in closed))
                    seen.add(back)
            self.assertEqual(seen, {0, 1, 2, 3, 4})

    # A closure moves the front Friday before the date, and it leaves.
    def test_front_pushed_out(self):
        friday = dates.day_of(2008, 3, 28)
        held = opened([self.ENIW], replace(EASTER, closed=EASTER.closed | {friday - 1}), friday - 1)
        number, held, entered, left = table.close(held, friday)
        self.assertEqual((number, entered, left, held.given), (0, 1, 1, 5))
        self.assertEqual([number for _, _, _, number in table.maturities(held)], [2, 3, 4, 5])

    # The due day is an option's of its group, the tick as for any product, cash
    # gets 21.
    def test_values(self):
        date = dates.day_of(2008, 3, 19)
        for group, day in ((b'FR11', 25), (b'DE11', 24), (b'GB11', 26), (b'IT11', 25)):
            held = opened([item(b'A', group, 5, tick=5)], EASTER, date)
            self.assertEqual(table.due(held, date), (0, dates.day_of(2008, 3, day)))
            self.assertEqual((table.tick(held, 5), table.tick(held, 6)), (0, 20))
            self.assertEqual(table.cash(held, 1, 100, 100), (21, False, 0, 0))

    # "the cover's weekly Fridays before the front one": on 17 March 2008 4, 11, 25
    # January, 1, 8, 22, 29 February, 7, 14 March. So 4 to 13 numbers given.
    def test_numbers_given(self):
        held = opened([self.AXAW], EASTER, dates.day_of(2008, 3, 17))
        self.assertEqual([given for given in range(30) if table.is_sound(replace(held, given=given))],
                         list(range(4, 14)))
        first = opened([self.AXAW], self.START_2010, dates.day_of(2010, 1, 8))
        self.assertEqual([given for given in range(30) if table.is_sound(replace(first, given=given))], [4, 5])

    # "and the date passes 24": the listing of 7 January 2010 is that of the 8th,
    # and the table is not sound on it.
    def test_soundness_asks_24(self):
        held = opened([self.AXAW], self.START_2010, dates.day_of(2010, 1, 8))
        for day in range(1, 8):
            date = dates.day_of(2010, 1, day)
            same = listing.fresh_listing(self.START_2010, b'FR11', 5, date) == listing.fresh_listing(
                self.START_2010, b'FR11', 5, held.date)
            self.assertEqual(same, day > 1)
            self.assertFalse(table.is_sound(replace(held, date=date)), day)

    # A table with another Friday, a third Friday or a month's number in a place.
    def test_other_keys(self):
        held = opened([self.AXAW], EASTER, dates.day_of(2008, 4, 7))
        self.assertEqual(self.fridays(EASTER, 2008, 4, 7), ['2008-04-11', '2008-04-25', '2008-05-02', '2008-05-09'])
        for place, key in ((1, dates.day_of(2008, 4, 18)), (3, dates.day_of(2008, 5, 16)),
                           (3, dates.day_of(2008, 5, 23)), (0, dates.month_number(2008, 4))):
            number = held.places[place][3]
            for changed in ((key, *held.places[place][1:]), (key, key, 0, number)):
                places = (*held.places[:place], changed, *held.places[place + 1:])
                self.assertFalse(table.is_sound(replace(held, places=places)), key)

    # A Friday with no trading day at or before it in the cover: 4 January 2008,
    # with 1 to 4 January closed. It is not listed and counts before the front.
    def test_first_days_closed(self):
        first = trading.first_day(PLAIN)
        calendar = replace(PLAIN, closed=frozenset(range(first, first + 4)))
        self.assertEqual(self.fridays(calendar, 2008, 1, 1)[0], '2008-01-11')
        held = opened([self.AXAW], calendar, first + 7)
        self.assertEqual([given for given in range(30) if table.is_sound(replace(held, given=given))], [4, 5])

    # Numbers pass 255: from week to week through 16 years, every weekly Friday that
    # is listed gets one. No cover has more than 643 of them.
    def test_numbers_pass_255(self):
        calendar = Calendar(2084, 16, frozenset())
        book = Book(5, b'IT11', 100 * SHARE, calendar, trading.first_day(calendar) + 7)
        while book.roll(book.date + 7)[0] == 0:
            pass
        fridays = list(listing.weekly_fridays(trading.first_day(calendar) + 7, trading.last_day(calendar)))
        self.assertEqual((book.given, len(book.left)), (len(fridays), len(fridays) - 4))
        self.assertGreater(book.given, 255)
        self.assertEqual(max(len(list(listing.weekly_fridays(
            dates.first_day_of_year(year), dates.first_day_of_year(year) + 5843))) for year in range(2000, 2085)), 643)

    # "its Friday, by whose date it is named and printed".
    def test_terms(self):
        file = master.build(EASTER, [AXA, self.AXAW])
        self.assertEqual(terms.answers(file, b'O AXAW 2008-03-17\nR 2008-03-29\nC 2008-05-02\nO AXAW 2008-01-07\n'),
                         b'''\
O 2008-03-17 4 0 4
1 2008-03-28 2008-03-28 0
2 2008-04-04 2008-04-04 0
3 2008-04-11 2008-04-11 0
4 2008-04-25 2008-04-25 0
R 2008-03-29 1 1 5
2 2008-04-04 2008-04-04 0
3 2008-04-11 2008-04-11 0
4 2008-04-25 2008-04-25 0
5 2008-05-02 2008-05-02 0
C 2008-03-29 0 0 5
2 2008-04-04 2008-04-04 0
3 2008-04-11 2008-04-11 0
4 2008-04-25 2008-04-25 0
5 2008-05-02 2008-05-01 1
NO 24
''')


if __name__ == '__main__':
    unittest.main()
