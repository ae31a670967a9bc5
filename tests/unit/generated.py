"""Tests of made-up calendars (02, note 14)."""

import unittest

from tests.second import dates, generated, trading
from tests.second.trading import Calendar


# 02, note 14.
class Generated(unittest.TestCase):

    def closed(self, seed, first_year, years):
        number, calendar = generated.make(seed, first_year, years)
        self.assertEqual((number, calendar.first_year, calendar.years, calendar.exchange),
                         (0, first_year, years, frozenset()))
        self.assertTrue(trading.is_clean(calendar))
        self.assertTrue(trading.every_week_trades(calendar))
        return sorted(dates.date_of(day) for day in calendar.closed)

    def test_values(self):
        values = [0]
        for _ in range(4):
            values.append(generated.next_value(values[-1]))
        self.assertEqual(values, [0, 1013904223, 1196435762, 3519870697, 2868466484])
        self.assertEqual(generated.next_value(2**32 - 1), 1012239698)

    def test_closed_days(self):
        self.assertEqual(self.closed(0, 2008, 1),
                         [(2008, 1, 21), (2008, 2, 4), (2008, 2, 13), (2008, 5, 30), (2008, 9, 4),
                          (2008, 10, 3), (2008, 11, 18), (2008, 12, 9), (2008, 12, 23)])
        days = self.closed(1, 2008, 3)
        self.assertEqual(len(days), 32)
        self.assertEqual(days[:5], [(2008, 1, 11), (2008, 3, 12), (2008, 3, 18), (2008, 4, 2), (2008, 4, 3)])

    # "unless that would leave a seven-day run without a trading day": what the run's
    # last day would have been stays open, and takes its value all the same.
    def test_spared_days(self):
        days = self.closed(26355, 2000, 1)
        self.assertEqual(len(days), 13)
        self.assertEqual([day for day in days if day[1] == 5],
                         [(2000, 5, 19), (2000, 5, 22), (2000, 5, 23), (2000, 5, 24)])
        self.assertEqual(self.closed(59783, 2000, 1)[:4],
                         [(2000, 1, 10), (2000, 1, 11), (2000, 1, 12), (2000, 1, 13)])
        self.assertNotIn((2013, 12, 19), self.closed(8256, 2000, 14))

    def test_values_of_spared_days(self):
        for seed, spared in ((26355, (2000, 5, 25)), (59783, (2000, 1, 14))):
            value = seed
            for day in range(dates.day_of(*spared) + 1):
                if dates.is_weekday(day):
                    value = generated.next_value(value)
            self.assertLess(value // 2**24, 8)

    def test_covers(self):
        for first_year, years in ((2000, 16), (2099, 1), (2084, 16)):
            self.assertTrue(self.closed(2**32 - 1, first_year, years))
        for first_year, years in ((2000, 0), (2000, 17), (1999, 1), (2090, 11), (2100, 1)):
            self.assertEqual(generated.make(7, first_year, years), (4, Calendar(0, 0, frozenset())))


if __name__ == '__main__':
    unittest.main()
