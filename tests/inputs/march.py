"""The example of 01, "March 2008 and its neighbours": its calendars, its session and tables
under them."""

from tests.second import dates, master, table
from tests.second.trading import Calendar

FRIDAY_21 = dates.day_of(2008, 3, 21)
THURSDAY_20 = dates.day_of(2008, 3, 20)
PLAIN = Calendar(2008, 3, frozenset())
EASTER = Calendar(2008, 3, frozenset([FRIDAY_21]))
SESSION_INPUT = b'O AXA 2008-03-20\nR 2008-03-21\nC 2008-03-20\n'
SESSION_OUTPUT = b"""\
O 2008-03-20 6 0 6
1 2008-03 2008-03-20 1
2 2008-04 2008-04-18 0
3 2008-05 2008-05-16 0
4 2008-06 2008-06-20 0
5 2008-09 2008-09-19 0
6 2008-12 2008-12-19 0
R 2008-03-21 1 1 7
2 2008-04 2008-04-18 0
3 2008-05 2008-05-16 0
4 2008-06 2008-06-20 0
5 2008-09 2008-09-19 0
6 2008-12 2008-12-19 0
7 2009-03 2009-03-20 0
NO 13
"""


# The table of a product of these, the first unless a code says which, opened on a day.
def opened(products, calendar, date, code=None):
    file = master.build(calendar, products)
    number, held, _, _ = table.open_table(file, code or products[0].id, date)
    assert number == 0, number
    return held


# The Mondays to Fridays from a day to another.
def weekdays_between(first, last):
    return frozenset(day for day in range(first, last + 1) if dates.is_weekday(day))
