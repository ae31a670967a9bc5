"""Tests of reopenings (02, note 9)."""

import random
import unittest
from dataclasses import replace

from tests.inputs.march import EASTER, FRIDAY_21, PLAIN, THURSDAY_20, opened
from tests.inputs.products import AXA, item
from tests.second import dates, listing, master, product, table, terms, trading
from tests.second.book import Book
from tests.second.product import SHARE
from tests.second.trading import Calendar


class Reopenings(unittest.TestCase):
    """02, note 9, and where a loader of reopenings goes astray. Unless a test says
    otherwise, only 21 March 2008 is closed in 2008 to 2010, and March ends on the 20th."""

    MONDAY_17 = dates.day_of(2008, 3, 17)
    MARCH, APRIL = dates.month_number(2008, 3), dates.month_number(2008, 4)
    SECOND = replace(EASTER, closed=EASTER.closed | {FRIDAY_21 + 3}, exchange=frozenset([FRIDAY_21 + 3]))
    AXAW = item(b'AXAW', b'FR11', 5)

    # The table after an accepted call.
    def accepted(self, call, held, day):
        number, after, _, _ = call(held, day)
        self.assertEqual(number, 0)
        return after

    # The same for a reopening: both counts are 0, and months, numbers, given, date and
    # product stay.
    def reopened(self, held, day):
        number, after, entered, left = table.reopen(held, day)
        self.assertEqual((number, entered, left), (0, 0, 0))
        self.assertTrue(table.is_sound(after))
        self.assertEqual([(key, number) for key, _, _, number in after.places],
                         [(key, number) for key, _, _, number in held.places])
        self.assertEqual((after.product, after.date, after.given), (held.product, held.date, held.given))
        return after

    def refused(self, held, day, number):
        self.assertEqual(table.reopen(held, day), (number, held, 0, 0))

    # AXA on 17 March with 20 March closed too: March ends on the 19th.
    def with_20_closed(self, calendar=EASTER):
        held = self.accepted(table.close, opened([AXA], calendar, self.MONDAY_17), THURSDAY_20)
        self.assertEqual(held.places[0], (self.MARCH, THURSDAY_20 - 1, 2, 1))
        return held

    # On 20 March the front is April. Reopening 21 March would bring March back.
    def test_question_27(self):
        held = self.accepted(table.roll, self.with_20_closed(), THURSDAY_20)
        self.assertEqual(held.places[0][0], self.APRIL)
        self.refused(held, FRIDAY_21, 27)

    # There 20 March is the table's date, and the 19th lies before it.
    def test_question_13(self):
        held = self.accepted(table.roll, self.with_20_closed(), THURSDAY_20)
        self.refused(held, THURSDAY_20, 13)
        self.refused(held, THURSDAY_20 - 1, 13)

    # 13 comes before 26: days not after the date that are no closed Monday to Friday.
    def test_13_before_26(self):
        held = self.with_20_closed()
        for day in (self.MONDAY_17, self.MONDAY_17 - 1, self.MONDAY_17 - 2, self.MONDAY_17 - 3):
            self.refused(held, day, 13)

    # 11 comes before both, 10 before all.
    def test_10_and_11(self):
        held = self.with_20_closed()
        for day in (0, 2921, dates.day_of(2011, 1, 1), 36525, 65535):
            self.refused(held, day, 11)
        for day in (FRIDAY_21, THURSDAY_20, FRIDAY_21 + 1, self.MONDAY_17, 0, 65535):
            self.refused(replace(held, given=0), day, 10)
        self.refused(table.ZERO_TABLE, 0, 10)

    # On 17 March both days reopen: 21 March and then 20 March, and the other way round.
    # 27 compares months and not days: the front's own day moves.
    def test_days_before_the_front_ends(self):
        held = self.reopened(self.with_20_closed(), FRIDAY_21)
        self.assertEqual(held.places[0], (self.MARCH, FRIDAY_21, 0, 1))
        held = self.reopened(held, THURSDAY_20)
        self.assertEqual(held, opened([AXA], PLAIN, self.MONDAY_17))
        held = self.reopened(self.with_20_closed(), THURSDAY_20)
        self.assertEqual(held, opened([AXA], EASTER, self.MONDAY_17))
        self.assertEqual(self.reopened(held, FRIDAY_21), opened([AXA], PLAIN, self.MONDAY_17))

    # On its last trading day the front month is still listed, and may move later.
    def test_front_on_its_last_day(self):
        held = self.accepted(table.roll, self.with_20_closed(), THURSDAY_20 - 1)
        self.assertEqual(self.reopened(held, FRIDAY_21).places[0], (self.MARCH, FRIDAY_21, 0, 1))

    # A weekend gets 26, and not 14 or 16: Saturday 22 and Sunday 23 March.
    def test_weekend(self):
        for day in (FRIDAY_21 + 1, FRIDAY_21 + 2):
            self.refused(self.with_20_closed(), day, 26)

    # So do trading days: Tuesday 25 March, April's last trading day, a day that was just
    # reopened.
    def test_trading_day(self):
        held = self.with_20_closed()
        self.refused(held, dates.day_of(2008, 3, 25), 26)
        self.refused(held, held.places[1][1], 26)
        self.refused(self.reopened(held, FRIDAY_21), FRIDAY_21, 26)

    # A day reopened in a listed month's week moves its day later, up to its anchor and
    # not past it: August 2008, with 14, 15 and 18 August closed.
    def test_listed_day_moves_later(self):
        august, friday = dates.month_number(2008, 8), dates.day_of(2008, 8, 15)
        held = opened([AXA], PLAIN, dates.day_of(2008, 7, 1))
        for day in (friday - 1, friday, friday + 3):
            held = self.accepted(table.close, held, day)
        for days, moved in (((friday - 1, friday), (1, 0)), ((friday, friday - 1), (0, 0)), ((friday + 3,), (2,))):
            after = held
            for day, back in zip(days, moved, strict=True):
                after = self.reopened(after, day)
                self.assertEqual(table.last_trading_day(after, august), (0, friday - back, back))

    # "clears the day in both maps": 24 March, in both. A closure of the same day later
    # leaves the second map's bit 0.
    def test_both_maps(self):
        monday = FRIDAY_21 + 3
        held = self.reopened(opened([AXA], self.SECOND, self.MONDAY_17), monday)
        self.assertEqual(held.calendar, EASTER)
        self.assertEqual(held.calendar.to_second_map(), bytes(trading.MAP_BYTES))
        self.assertEqual(self.reopened(held, FRIDAY_21).calendar, PLAIN)
        held = self.accepted(table.close, held, monday)
        self.assertEqual(held.calendar, replace(self.SECOND, exchange=frozenset()))

    # With the second map's bit left, the next call would answer 10.
    def test_bit_left_in_the_second_map(self):
        held = opened([AXA], self.SECOND, self.MONDAY_17)
        left = replace(held, calendar=replace(EASTER, exchange=self.SECOND.exchange))
        self.assertEqual(left.places, held.places)
        self.assertEqual(table.roll(left, self.MONDAY_17), (10, left, 0, 0))

    # Other days stay in their maps.
    def test_other_days_stay(self):
        held = self.reopened(opened([AXA], self.SECOND, self.MONDAY_17), FRIDAY_21)
        monday = frozenset([FRIDAY_21 + 3])
        self.assertEqual(held.calendar, Calendar(2008, 3, monday, monday))

    # Three days to settlement from 20 March: 26 March with 24 March in the second map and
    # without a closure there; 27 March with it closed; one day less with 21 March open.
    def test_due_days(self):
        held = opened([AXA], self.SECOND, self.MONDAY_17)
        for call, day, due in ((table.reopen, FRIDAY_21 + 3, 26), (table.close, FRIDAY_21 + 3, 27),
                               (table.reopen, FRIDAY_21, 26), (table.reopen, FRIDAY_21 + 3, 25)):
            held = self.accepted(call, held, day)
            self.assertEqual(table.due(held, THURSDAY_20), (0, dates.day_of(2008, 3, due)))

    # 16 is not asked: in a cover of 2008 alone, where April as front would need March
    # 2009.
    def test_cover_end(self):
        short = replace(EASTER, years=1)
        self.assertEqual(table.roll(opened([AXA], short, self.MONDAY_17), FRIDAY_21)[0], 16)
        held = self.reopened(self.with_20_closed(short), FRIDAY_21)
        self.assertEqual(self.reopened(held, THURSDAY_20), opened([AXA], replace(PLAIN, years=1), self.MONDAY_17))

    # The front of the kind's own months: January 2008 is none of a future of 2005, so 18
    # January brings none back; March does not end before it. Of the other kinds it does.
    def test_front_of_the_kind(self):
        friday = dates.day_of(2008, 1, 18)
        closed = replace(EASTER, closed=EASTER.closed | {friday - 1, friday})
        for one, number in ((item(b'A'), 27), (item(b'A', b'FR01', 4), 0), (item(b'A', b'FR11', 5), 0)):
            self.assertEqual(table.reopen(opened([one], closed, friday - 1), friday)[0], number)
        long = replace(closed, years=8)
        for one in (item(b'A', b'FR01', 0), item(b'A', b'FR11', 2), item(b'A', b'FR11', 3)):
            self.refused(opened([one], long, friday - 1), friday, 27)

    # An Italian month's anchor is the Thursday: on 20 March with 20 and 21 March closed
    # Friday brings none back. On the 19th, with the 19th closed too, Thursday does.
    def test_italian(self):
        closed = replace(EASTER, closed=EASTER.closed | {THURSDAY_20, THURSDAY_20 - 1})
        self.reopened(opened([item(b'E', b'IT11')], closed, THURSDAY_20), FRIDAY_21)
        held = opened([item(b'E', b'IT11')], closed, THURSDAY_20 - 1)
        self.reopened(held, FRIDAY_21)
        self.refused(held, THURSDAY_20, 27)

    # Fridays for months: 28 March with 27 and 28 March closed ends on the 26th. On the
    # 26th both reopen, on the 27th Friday would come back; a third Friday never does.
    def test_weekly(self):
        friday = dates.day_of(2008, 3, 28)
        closed = replace(EASTER, closed=EASTER.closed | {friday - 1, friday, THURSDAY_20})
        held = opened([self.AXAW], closed, friday - 2)
        self.assertEqual(held.places[0], (friday, friday - 2, 2, 1))
        self.assertEqual(self.reopened(held, friday).places[0], (friday, friday, 0, 1))
        self.assertEqual(self.reopened(held, friday - 1).places[0], (friday, friday - 1, 1, 1))
        held = self.accepted(table.roll, held, friday - 1)
        self.assertEqual(held.places[0][0], friday + 7)
        self.refused(held, friday, 27)
        self.refused(held, friday - 1, 13)
        self.refused(held, friday + 1, 26)
        self.refused(held, friday + 4, 26)
        self.reopened(opened([self.AXAW], closed, THURSDAY_20), FRIDAY_21)

    # 27 by its sentence, "so that none before it comes back", on every closed day after
    # the date: no month or Friday of the cover before the front has its day at or after
    # the date.
    def test_27_against_its_sentence(self):
        rest = random.Random(9)
        numbers = []
        for kind in product.KINDS:
            for group in (b'FR', b'IT'):
                one = item(b'A', group + (b'01' if kind in product.FUTURES else b'11'), kind)
                for _ in range(30):
                    numbers += self.every_closed_day(one, rest)
        self.assertEqual(set(numbers), {0, 27})
        self.assertGreater(numbers.count(27), 100)

    # The answers of a table to the reopening of each closed day after its date, which is
    # in the week of an anchor with most of its days closed, but not the Mondays.
    def every_closed_day(self, one, rest):
        month = dates.month_number(2008, 1) + rest.randrange(24)
        friday = listing.third_friday(month) + (7 if product.is_weekly(one.kind) else 0)
        days = (*range(friday - 3, friday + 1), *range(friday + 4, friday + 8))
        closed = frozenset(day for day in days if rest.random() < 0.8)
        held = opened([one], Calendar(2008, 8, closed), friday - rest.randrange(4))
        return [self.answer_by_sentence(held, day) for day in sorted(closed) if day > held.date]

    def answer_by_sentence(self, held, day):
        one, front = held.product, held.places[0][0]
        calendar = trading.reopen_day(held.calendar, day)
        if product.is_weekly(one.kind):
            before = [key for key in range(trading.first_day(calendar) + 7, front) if listing.is_weekly_friday(key)]
        else:
            before = [key for key in range(trading.first_month(calendar), front)
                      if one.kind != product.FUTURE_2005 or key % 12 + 1 in (3, 4, 5, 6, 7, 9, 12)]
        comes_back = any(listing.last_trading_day(calendar, one.group, one.kind, key) >= held.date for key in before)
        number = table.reopen(held, day)[0]
        self.assertEqual(number, 27 if comes_back else 0)
        return number

    # A closure that leaves the front in its place, undone; one that pushes it out is not.
    def test_closure_undone(self):
        held = opened([AXA], EASTER, self.MONDAY_17)
        for day in range(self.MONDAY_17 + 1, self.MONDAY_17 + 120):
            number, after, _, _ = table.close(held, day)
            if number == 0:
                self.assertEqual(self.reopened(after, day), held)
        held = opened([AXA], replace(PLAIN, closed=frozenset([THURSDAY_20])), THURSDAY_20)
        self.refused(self.accepted(table.close, held, FRIDAY_21), FRIDAY_21, 27)

    # 15 lets a week's last day be closed after another one has been reopened.
    def test_week(self):
        held = opened([AXA], PLAIN, dates.day_of(2008, 4, 1))
        monday = dates.day_of(2008, 4, 7)
        for day in range(monday, monday + 4):
            held = self.accepted(table.close, held, day)
        self.assertEqual(table.close(held, monday + 4)[0], 15)
        held = self.accepted(table.close, self.reopened(held, monday + 1), monday + 4)
        self.assertEqual(table.close(held, monday + 1)[0], 15)

    # The book answers as the table does, and a refused call leaves it as it was.
    def test_book(self):
        book = Book(1, b'FR11', 100 * SHARE, EASTER, self.MONDAY_17)
        book.close(THURSDAY_20)
        book.roll(THURSDAY_20)
        before = dict(vars(book))
        for day, number in ((FRIDAY_21, 27), (THURSDAY_20, 13), (FRIDAY_21 + 1, 26), (FRIDAY_21 + 4, 26), (0, 11)):
            self.assertEqual(book.reopen(day), (number, 0, 0))
            self.assertEqual(vars(book), before)
        book.close(FRIDAY_21 + 4)
        self.assertEqual(book.reopen(FRIDAY_21 + 4), (0, 0, 0))
        self.assertEqual(vars(book), before)

    # The program `terms` has no command for it.
    def test_terms(self):
        for letter in set('ABCDEFGHIJKLMNOPQRSTUVWXYZ') - set('ORC'):
            line = f'O AXA 2008-03-17\n{letter} 2008-03-21\n'.encode()
            self.assertTrue(terms.answers(master.build(EASTER, [AXA]), line).endswith(b'BAD\n'))


if __name__ == '__main__':
    unittest.main()
