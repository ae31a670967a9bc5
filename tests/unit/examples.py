"""Tests of the second program by the examples of 01, "March 2008 and its neighbours"."""

import os
import subprocess
import tempfile
import unittest

from tests import command
from tests.inputs.march import EASTER, PLAIN, SESSION_INPUT, SESSION_OUTPUT, THURSDAY_20, opened
from tests.inputs.products import AXA, item
from tests.second import dates, listing, master, table, terms, trading
from tests.second.trading import Calendar


class Examples(unittest.TestCase):
    """01, "March 2008 and its neighbours", line by line."""

    def test_days(self):
        self.assertEqual(dates.date_to_day(2008, 3, 21), (0, 3002))
        self.assertEqual(dates.weekday(3002), dates.FRIDAY)
        self.assertEqual(dates.date_to_day(2008, 1, 1), (0, 2922))
        self.assertEqual(dates.date_to_day(2000, 2, 29), (0, 59))
        self.assertEqual(dates.date_to_day(2001, 2, 29), (23, 0))

    def test_last_trading_day(self):
        march = dates.month_number(2008, 3)
        both = trading.close_day(EASTER, THURSDAY_20)
        for group in (b'FR11', b'IT11'):
            self.assertEqual(dates.date_of(listing.last_trading_day(EASTER, group, 1, march)),
                             (2008, 3, 20))
            self.assertEqual(dates.date_of(listing.last_trading_day(both, group, 1, march)),
                             (2008, 3, 19))

    # 02, note 2: "March 2008 in the example shows 1 for FR11".
    def test_days_back(self):
        march = dates.month_number(2008, 3)
        both = trading.close_day(EASTER, THURSDAY_20)
        for calendar, group, back in ((PLAIN, b'FR11', 0), (PLAIN, b'IT11', 0), (EASTER, b'FR11', 1),
                                      (EASTER, b'IT11', 0), (both, b'FR11', 2), (both, b'IT11', 1)):
            self.assertEqual(listing.days_back(calendar, group, 1, march), back)

    def test_third_friday(self):
        for month, day in ((8, 15), (3, 21)):
            friday = listing.third_friday(dates.month_number(2008, month))
            self.assertEqual(dates.date_of(friday), (2008, month, day))

    def test_listing(self):
        for day, months in ((20, [(2008, 3), (2008, 4), (2008, 5), (2008, 6), (2008, 9),
                                  (2008, 12)]),
                            (21, [(2008, 4), (2008, 5), (2008, 6), (2008, 9), (2008, 12),
                                  (2009, 3)])):
            fresh = listing.fresh_listing(EASTER, b'FR11', 1, dates.day_of(2008, 3, day))
            self.assertEqual([dates.year_and_month(month) for month, _, _ in fresh], months)

    def test_cash_and_tick(self):
        future = opened([item(b'F', b'FR01', 0)], Calendar(2008, 5, frozenset()), THURSDAY_20)
        self.assertEqual(table.cash(future, 3, 123400, 125000), (0, False, 480000, 0))
        five = opened([item(b'G', tick=5)], PLAIN, THURSDAY_20)
        self.assertEqual(table.tick(five, 5), 0)
        self.assertEqual(table.tick(five, 6), 20)

    def test_session(self):
        file = master.build(EASTER, [AXA])
        self.assertEqual(terms.answers(file, SESSION_INPUT), SESSION_OUTPUT)
        with tempfile.TemporaryDirectory() as folder:
            with open(os.path.join(folder, 'master.bin'), 'wb') as out:
                out.write(file)
            ran = subprocess.run(command('second.terms'),
                                 cwd=folder, input=SESSION_INPUT[:-1], capture_output=True)
        self.assertEqual((ran.returncode, ran.stdout), (0, SESSION_OUTPUT))


if __name__ == '__main__':
    unittest.main()
