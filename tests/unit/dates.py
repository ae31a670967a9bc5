"""Tests of days, dates and months, by datetime."""

import datetime
import unittest

from tests.second import dates


class Dates(unittest.TestCase):

    def test_every_day_against_datetime(self):
        start = datetime.date(2000, 1, 1)
        for day in range(dates.DAYS):
            date = start + datetime.timedelta(day)
            self.assertEqual(dates.day_to_date(day), (0, date.year, date.month, date.day))
            self.assertEqual(dates.date_to_day(date.year, date.month, date.day), (0, day))
            self.assertEqual(dates.weekday(day), date.weekday())
        self.assertEqual(date, datetime.date(2099, 12, 31))

    def test_question_23_against_datetime(self):
        for year in range(1996, 2104):
            for month in range(0, 14):
                for day in range(0, 33):
                    try:
                        datetime.date(year, month, day)
                        number = 0 if 2000 <= year <= 2099 else 23
                    except ValueError:
                        number = 23
                    self.assertEqual(dates.date_to_day(year, month, day)[0], number)
        for day in (-1, 36525, 65535):
            self.assertEqual(dates.day_to_date(day), (23, 0, 0, 0))

    def test_months(self):
        self.assertEqual(dates.month_number(2000, 1), 0)
        self.assertEqual(dates.month_number(2099, 12), 1199)
        for month in range(dates.MONTHS):
            self.assertEqual(dates.month_number(*dates.year_and_month(month)), month)
            self.assertEqual(dates.month_of(dates.first_day_of_month(month)), month)


if __name__ == '__main__':
    unittest.main()
