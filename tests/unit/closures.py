"""Tests of what one closure can reach, on the second program (02, note 10):
python3 -m tests.unit.closures"""

import random
import unittest
from dataclasses import replace
from itertools import permutations

from tests.inputs.products import item
from tests.second import dates, listing, master, product, table, terms, trading
from tests.second.trading import Calendar

# The years of a cover in which a kind's listing fits for some months.
YEARS = {0: 4, 1: 2, 2: 3, 3: 7, 4: 2, 5: 1}
FRIDAY_21 = dates.day_of(2008, 3, 21)


# The products of every kind, with an Italian group and with another.
def products():
    return [item(b'A', country + (b'01' if kind in product.FUTURES else b'11'), kind)
            for kind in product.KINDS for country in (b'FR', b'IT')]


def trading_days(calendar, first, last):
    return [day for day in range(first, last + 1) if trading.is_trading_day(calendar, day)]


# A calendar with each Monday to Friday closed with a chance, unless the Mondays to
# Fridays of the four days before it are.
def some_calendar(rest, years, chance):
    empty = Calendar(rest.choice((2000, 2008, 2092)), years, frozenset())
    closed = set()
    for day in trading_days(empty, trading.first_day(empty), trading.last_day(empty)):
        before = [one for one in range(day - 4, day) if dates.is_weekday(one)]
        if rest.random() < chance and not closed.issuperset(before):
            closed.add(day)
    calendar = replace(empty, closed=frozenset(closed))
    return calendar if trading.every_week_trades(calendar) else empty


# A date on which the listing fits, often the last one, a few days before its front
# maturity ends, and the calendar with some of these few days closed.
def before_an_end(rest, calendar, one):
    first = trading.first_day(calendar) + 7
    dates_in = [day for day in range(first, trading.last_day(calendar) + 1)
                if listing.listing_in_cover(calendar, one.group, one.kind, day)]
    date = rest.choice((dates_in[-1], rest.choice(dates_in), rest.choice(dates_in)))
    last = listing.fresh_listing(calendar, one.group, one.kind, date)[0][1]
    date = max(first, last - rest.randrange(6))
    few = [day for day in trading_days(calendar, date, last - 1) if rest.random() < 0.7]
    fewer = replace(calendar, closed=calendar.closed | set(few))
    return (fewer if trading.every_week_trades(fewer) else calendar), date


# A sound table: the fresh listing of such a date, with any numbers and any count
# given that soundness admits.
def some_table(rest, one, chance):
    calendar, date = before_an_end(rest, some_calendar(rest, YEARS[one.kind], chance), one)
    fresh = listing.fresh_listing(calendar, one.group, one.kind, date)
    given = len(fresh) + rest.randrange(listing.keys_before(calendar, one.kind, fresh[0][0]) + 1)
    numbers = rest.sample(range(1, given + 1), len(fresh))
    places = [(*maturity, number) for maturity, number in zip(fresh, numbers)]
    places += [table.UNUSED] * (table.PLACES - len(places))
    return table.Table(one, calendar, date, tuple(places), given)


# Sound tables of every kind, from a seed; more of the weekly ones, whose cover is
# shorter.
def some_tables(seed, times):
    rest = random.Random(seed)
    for one in products():
        for _ in range(8 * times if product.is_weekly(one.kind) else times):
            held = some_table(rest, one, rest.choice((0.03, 0.3)))
            if listing.listing_in_cover(held.calendar, one.group, one.kind, held.date):
                yield held


# The latest trading day of the seven days up to an anchor.
def latest_of_seven(calendar, anchor):
    return max(trading_days(calendar, anchor - 6, anchor), default=None)


class OneClosure(unittest.TestCase):

    # 02, note 10, maturity by maturity, of an accepted closure of a day. What became
    # of the one that moved.
    def compare(self, old, new, day):
        after = {key: held for key, *held in table.maturities(new)}
        moved = []
        for key, last, back, number in table.maturities(old):
            anchor = listing.anchor(old.product.group, old.product.kind, key)
            # "its new day lies at most six days before its anchor"
            now = latest_of_seven(new.calendar, anchor)
            self.assertIsNotNone(now)
            if now == last:
                # "every other maturity still listed has its old number and day"
                self.assertEqual(after[key], [last, back, number])
                continue
            # "only of one that ended on the closed day"
            self.assertEqual(last, day)
            moved.append(key)
            if key in after:
                self.assertEqual(after[key], [now, anchor - now, number])
            else:
                self.assertLess(now, new.date)
        # "of at most one listed maturity"
        self.assertLessEqual(len(moved), 1)
        if not moved:
            return 'none moved'
        return 'still listed' if moved[0] in after else 'left'

    # "an accepted closure", of every trading day after the date.
    def test_every_trading_day(self):
        seen = set()
        for held in some_tables(10, 2):
            self.assertTrue(table.is_sound(held))
            for day in trading_days(held.calendar, held.date + 1, trading.last_day(held.calendar)):
                number, new, entered, left = table.close(held, day)
                if number:
                    self.assertEqual(new, held)
                    seen.add(number)
                    continue
                became = self.compare(held, new, day)
                self.assertEqual((entered, left), (1, 1) if became == 'left' else (0, 0))
                seen.add((product.is_weekly(held.product.kind), became))
        self.assertEqual(seen, {15, 16, *((weekly, became) for weekly in (False, True)
                                          for became in ('none moved', 'still listed', 'left'))})

    # The bound of six days is reached: the Italian Thursday 14 August 2008 and the
    # days before it closed one after the other, to the Friday before.
    def test_six_days(self):
        thursday = dates.day_of(2008, 8, 14)
        calendar = Calendar(2008, 3, frozenset())
        number, held, _, _ = table.open_table(
            master.build(calendar, [item(b'A', b'IT11')]), b'A   ', thursday - 13)
        self.assertEqual(number, 0)
        for day, back in ((thursday, 1), (thursday - 1, 2), (thursday - 2, 3), (thursday - 3, 6)):
            number, new, _, _ = table.close(held, day)
            self.assertEqual((number, self.compare(held, new, day)), (0, 'still listed'))
            held = new
            self.assertEqual(table.maturities(held)[0][1:3], (thursday - back, back))

    # The closed day may push the front month out: with 20 March 2008 closed, March
    # ends on the 21st; on the 20th its closure leaves March 19 March, which is past.
    def test_front_leaves(self):
        calendar = Calendar(2008, 3, frozenset([FRIDAY_21 - 1]))
        _, held, _, _ = table.open_table(master.build(calendar, [item(b'A')]), b'A   ', FRIDAY_21 - 1)
        number, new, entered, left = table.close(held, FRIDAY_21)
        self.assertEqual((number, entered, left, new.given), (0, 1, 1, 7))
        self.assertEqual(self.compare(held, new, FRIDAY_21), 'left')


class TwoClosures(unittest.TestCase):

    # The trading days after the date that decide: the next ones, and those up to the
    # ends of the first two maturities.
    def days(self, held):
        ends = [last for _, last, _, _ in table.maturities(held)[:2]]
        days = trading_days(held.calendar, held.date + 1, ends[1] + 3)
        up_to = [day for end in ends for day in [day for day in days if day <= end][-4:]]
        return sorted({*days[:3], *up_to, *days[-1:]})

    # "two closures accepted one after the other are accepted in the other order and
    # leave the same table, numbers included".
    def test_both_orders(self):
        seen = set()
        for held in some_tables(20, 3):
            firsts = {day: table.close(held, day) for day in self.days(held)}
            for one, two in permutations(firsts, 2):
                number, between, _, left = firsts[one]
                again, after, _, left_again = table.close(between, two)
                if number or again:
                    continue
                self.assertEqual(firsts[two][0], 0)
                number, other, _, _ = table.close(firsts[two][1], one)
                self.assertEqual((number, other), (0, after))
                seen.add((product.is_weekly(held.product.kind), left, left_again))
        self.assertEqual(seen, {(weekly, *left) for weekly in (False, True)
                                for left in ((0, 0), (0, 1), (1, 0))})

    # The same as `terms` prints it: 27 and 28 March 2008 closed in both orders, of a
    # monthly and of a weekly option.
    def test_terms(self):
        calendar = Calendar(2008, 3, frozenset([FRIDAY_21]))
        file = master.build(calendar, [item(b'A'), item(b'B', kind=5)])
        for code, last in ((b'A', b'1 2008-03 2008-03-20 1'), (b'B', b'1 2008-03-28 2008-03-26 2')):
            texts = []
            for days in ((b'27', b'28'), (b'28', b'27')):
                lines = [b'O ' + code + b' 2008-03-19', *(b'C 2008-03-' + day for day in days), b'']
                texts.append(terms.answers(file, b'\n'.join(lines)).split(b'C ')[-1])
            self.assertEqual(texts[0], texts[1])
            self.assertEqual(texts[0].split(b'\n')[1], last)


if __name__ == '__main__':
    unittest.main()
