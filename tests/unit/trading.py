"""Tests of trading days, exchange days and what is due on them, and of closed days one by one."""

import random
import unittest
from dataclasses import replace

from tests.inputs.march import EASTER, FRIDAY_21, PLAIN, THURSDAY_20, opened, weekdays_between
from tests.inputs.products import item
from tests.second import dates, master, table, trading
from tests.second.trading import Calendar


class Trading(unittest.TestCase):

    def random_calendar(self, chance, years=2):
        rest = random.Random(chance)
        empty = Calendar(2008, years, frozenset())
        days = weekdays_between(trading.first_day(empty), trading.last_day(empty))
        return replace(empty, closed=frozenset(
            day for day in days if rest.random() < chance))

    def test_week_rule_against_its_sentence(self):
        seen = set()
        for chance in (0, 0.02, 0.05, 0.1, 0.2, 0.3, 0.4, 0.5):
            calendar = self.random_calendar(chance)
            first, last = trading.first_day(calendar), trading.last_day(calendar)
            direct = all(any(trading.is_trading_day(calendar, day)
                             for day in range(start, start + 7))
                         for start in range(first, last - 5))
            self.assertEqual(trading.every_week_trades(calendar), direct)
            seen.add(direct)
        self.assertEqual(seen, {True, False})

    def test_edges_of_the_cover(self):
        first, last = trading.first_day(PLAIN), trading.last_day(PLAIN)
        for days, passes in ((range(first, first + 6), True), (range(first, first + 7), False),
                             (range(last - 3, last + 1), True),
                             (range(last - 4, last + 1), False)):
            closed = frozenset(day for day in days if dates.is_weekday(day))
            self.assertEqual(trading.every_week_trades(replace(PLAIN, closed=closed)), passes)

    def test_searches_against_lists(self):
        calendar = self.random_calendar(0.3)
        trades = [day for day in range(dates.DAYS) if trading.is_trading_day(calendar, day)]
        for day in range(trading.first_day(calendar) - 9, trading.last_day(calendar) + 9):
            before = [other for other in trades if other <= day]
            after = [other for other in trades if other > day]
            self.assertEqual(trading.latest_trading_day(calendar, day),
                             before[-1] if before else None)
            for n in (1, 2, 3, 4):
                self.assertEqual(trading.nth_exchange_day_after(calendar, day, n),
                                 after[n - 1] if len(after) >= n else None)

    def test_question_15(self):
        week = weekdays_between(dates.day_of(2008, 4, 7), dates.day_of(2008, 4, 10))
        calendar = replace(PLAIN, closed=week)
        friday = dates.day_of(2008, 4, 11)
        self.assertTrue(trading.every_week_trades(calendar))
        self.assertFalse(trading.every_week_trades_without(calendar, friday))
        self.assertTrue(trading.every_week_trades_without(calendar, friday + 3))
        self.assertTrue(trading.every_week_trades_without(calendar, 36524))


# 02, note 4: exchange days without trading.
class SecondMaps(unittest.TestCase):

    MONDAY_24 = FRIDAY_21 + 3
    CLOSED = Calendar(2008, 3, frozenset([FRIDAY_21, FRIDAY_21 + 3]))
    SECOND = replace(CLOSED, exchange=frozenset([FRIDAY_21 + 3]))

    # The due days from 20 March 2008 of an option of FR11 and of a future.
    def dues(self, calendar):
        items = [item(b'F', b'FR01', 0), item(b'O')]
        return [table.due(opened(items, calendar, THURSDAY_20, one.id), THURSDAY_20) for one in items]

    def test_due_days(self):
        self.assertEqual(self.dues(self.SECOND), [(0, self.MONDAY_24), (0, dates.day_of(2008, 3, 26))])
        self.assertEqual(self.dues(self.CLOSED), [(0, dates.day_of(2008, 3, 25)), (0, dates.day_of(2008, 3, 27))])

    # 6 and 14 read the first map alone.
    def test_what_stays(self):
        held = opened([item(b'O')], self.SECOND, THURSDAY_20, b'O   ')
        self.assertEqual(table.close(held, self.MONDAY_24)[0], 14)
        week = weekdays_between(dates.day_of(2008, 4, 7), dates.day_of(2008, 4, 11))
        self.assertFalse(trading.every_week_trades(replace(PLAIN, closed=week, exchange=week)))
        self.assertEqual(held.places, opened([item(b'O')], self.CLOSED, THURSDAY_20, b'O   ').places)

    # "A closure notice leaves the second map's bit 0."
    def test_closure(self):
        held = opened([item(b'O')], self.SECOND, THURSDAY_20, b'O   ')
        number, after, _, _ = table.close(held, self.MONDAY_24 + 1)
        self.assertEqual((number, after.calendar.exchange), (0, self.SECOND.exchange))
        self.assertEqual(table.due(after, THURSDAY_20), (0, dates.day_of(2008, 3, 27)))

    # "question 17 reads with exchange days".
    def test_cover_end(self):
        last = frozenset(dates.day_of(2010, 12, day) for day in (29, 30, 31))
        start = dates.day_of(2010, 12, 28)
        for second, answer in ((last, (0, dates.day_of(2010, 12, 31))), (frozenset(), (17, 0))):
            calendar = Calendar(2008, 3, last, second)
            held = opened([item(b'O')], calendar, THURSDAY_20, b'O   ')
            self.assertEqual(table.due(held, start), answer)

    # "Question 5 reads the second map as said": a bit alone, on a Saturday, after the
    # year's end, byte 108.
    def test_question_5(self):
        for damage in (('bytes', 0, 62 + 84 // 8, b'\x08'), ('bytes', 0, 62 + 81 // 8, b'\x40'),
                       ('bytes', 0, 107, b'\x02'), ('bytes', 0, 108, b'\x80')):
            file = master.build(self.CLOSED, [item(b'O')], damages=(damage,))
            self.assertEqual(master.load(file)[0], 5, damage)
        file = master.build(self.SECOND, [item(b'O')])
        self.assertEqual(master.load(file), (0, 3, 1))
        self.assertEqual(master.read_calendar(file), self.SECOND)
        self.assertEqual([place for place, byte in enumerate(file[62:108]) if byte], [83 // 8])


# 02, note 5: exercise entered on a holiday.
class ExerciseOnHolidays(unittest.TestCase):

    MONDAY_24 = FRIDAY_21 + 3
    CLOSED = replace(EASTER, closed=EASTER.closed | {FRIDAY_21 + 3})
    SECOND = replace(CLOSED, exchange=frozenset([FRIDAY_21 + 3]))

    # One product for each count of days to settlement, 1 to 4.
    ITEMS = [item(b'A', b'FR01', 4), item(b'B', b'DE11'), item(b'C'), item(b'D', b'GB11', 5)]

    # The dates of March 2008 that are due from a day, for n = 1, 2, 3 and 4.
    def dues(self, calendar, day):
        answers = [table.due(opened(self.ITEMS, calendar, dates.day_of(2008, 3, 17), one.id), day)
                   for one in self.ITEMS]
        self.assertEqual({number for number, _ in answers}, {0})
        return [dates.date_of(due_day)[2] for _, due_day in answers]

    # From Good Friday 21 March, Saturday 22 March and Sunday: with only the Friday
    # closed, with Monday closed too, and with Monday in the second map.
    def test_easter(self):
        for day in (FRIDAY_21, FRIDAY_21 + 1, FRIDAY_21 + 2):
            self.assertEqual(self.dues(EASTER, day), [24, 25, 26, 27])
            self.assertEqual(self.dues(self.CLOSED, day), [25, 26, 27, 28])
            self.assertEqual(self.dues(self.SECOND, day), [24, 25, 26, 27])

    # A starting day of the second map is not itself counted.
    def test_start_in_the_second_map(self):
        self.assertEqual(self.dues(self.SECOND, self.MONDAY_24), [25, 26, 27, 28])
        self.assertEqual(self.dues(self.CLOSED, self.MONDAY_24), [25, 26, 27, 28])

    # From every day of the cover the n-th of the exchange days after it, or 17. 14
    # never comes; trading days, which were answered before, keep their due day.
    def test_every_day(self):
        rest = random.Random(3)
        days = sorted(weekdays_between(trading.first_day(PLAIN), trading.last_day(PLAIN)))
        closed = frozenset(rest.sample(days, 150))
        calendar = Calendar(2008, 3, closed, frozenset(rest.sample(sorted(closed), 60)))
        self.assertTrue(trading.every_week_trades(calendar))
        counted = [day for day in days if day not in closed or day in calendar.exchange]
        numbers = set()
        for n, one in enumerate(self.ITEMS, 1):
            held = opened(self.ITEMS, calendar, dates.day_of(2008, 3, 17), one.id)
            for day in range(trading.first_day(PLAIN) - 1, trading.last_day(PLAIN) + 2):
                after = [later for later in counted if later > day][:n]
                answer = (0, after[-1]) if len(after) == n else (17, 0)
                if not trading.in_cover(PLAIN, day):
                    answer = (11, 0)
                self.assertEqual(table.due(held, day), answer)
                numbers.add(answer[0])
        self.assertEqual(numbers, {0, 11, 17})

    # 31 December of the last year gets 17, the day after 11; an unsound table gets
    # 10 also on a Saturday, and on that day after.
    def test_refusals(self):
        last = dates.day_of(2010, 12, 31)
        for one in self.ITEMS:
            held = opened(self.ITEMS, EASTER, dates.day_of(2008, 3, 17), one.id)
            self.assertEqual(table.due(held, last), (17, 0))
            self.assertEqual(table.due(held, last + 1), (11, 0))
            for day in (FRIDAY_21 + 1, FRIDAY_21, last, last + 1):
                self.assertEqual(table.due(replace(held, given=0), day), (10, 0))


class Maps(unittest.TestCase):

    def test_map_and_set_agree(self):
        rest = random.Random(1)
        clean = 0
        for _ in range(400):
            first_year = rest.choice((1999, 2000, 2007, 2083, 2084, 2085, 2099, 2100))
            years = rest.choice((0, 1, 3, 16, 17))
            data = bytearray(trading.MAP_BYTES)
            for _ in range(rest.randrange(3)):
                data[rest.randrange(trading.MAP_BYTES)] |= 1 << rest.randrange(8)
            calendar = Calendar.from_maps(first_year, years, data)
            answer = trading.map_is_clean(first_year, years, data)
            self.assertEqual(trading.is_clean(calendar), answer)
            self.assertEqual(calendar.to_map(), bytes(data))
            clean += answer
        self.assertTrue(0 < clean < 400)

    def test_bits(self):
        data = bytearray(trading.MAP_BYTES)
        data[46 + 79 // 8] |= 1 << (7 - 79 % 8)
        calendar = Calendar.from_maps(2007, 3, data)
        self.assertEqual({dates.date_of(day) for day in calendar.closed}, {(2008, 3, 20)})
        for position, first_year in ((365, 2007), (366, 2008), (367, 2008), (16 * 368 - 1, 2007)):
            data = bytearray(trading.MAP_BYTES)
            data[position // 8] |= 1 << (7 - position % 8)
            self.assertFalse(trading.map_is_clean(first_year, 3, data))

    # 02, note 4: "may be set only where the first map has its bit".
    def test_second_map_and_set_agree(self):
        rest = random.Random(2)
        clean = 0
        for _ in range(400):
            data, second = bytearray(trading.MAP_BYTES), bytearray(trading.MAP_BYTES)
            for _ in range(3):
                place, bit = rest.randrange(46 * 3), 1 << rest.randrange(8)
                data[place] |= bit
                second[rest.choice((place, place, place + 1))] |= rest.choice((bit, bit, bit, 1))
            calendar = Calendar.from_maps(2008, 3, data, second)
            answer = (trading.map_is_clean(2008, 3, data)
                      and trading.second_map_is_clean(data, second))
            self.assertEqual(trading.is_clean(calendar), answer)
            self.assertEqual((calendar.to_map(), calendar.to_second_map()), (bytes(data), bytes(second)))
            clean += answer
        self.assertTrue(0 < clean < 400)

    def test_cover(self):
        for first_year, years, fits in ((2000, 16, True), (2084, 16, True), (2085, 16, False),
                                        (2099, 1, True), (1999, 2, False), (2008, 0, False),
                                        (2008, 17, False), (2100, 1, False)):
            self.assertEqual(trading.cover_fits(Calendar(first_year, years, frozenset())), fits)


if __name__ == '__main__':
    unittest.main()
