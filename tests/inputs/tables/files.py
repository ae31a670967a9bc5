"""The master files that the scripts of table calls open (01, "Master file")."""

from dataclasses import replace
from functools import lru_cache

from tests.inputs.products import FUTURES_2005, PRODUCTS, WEEKLY, by_id, product_from, products_of
from tests.second import dates, listing, master, trading
from tests.second.trading import Calendar

SEED = 20080321


# Numbers that look random and are the same in every run.
class Numbers:

    def __init__(self, seed):
        self.state = seed

    # A number from 0 to n - 1.
    def below(self, n):
        self.state = (self.state * 6364136223846793005 + 1442695040888963407) % 2**64
        return (self.state >> 33) % n

    # One of several items.
    def one_of(self, items):
        return items[self.below(len(items))]


# ---- The files ----

# Easter Sunday of a year, as a day number (Gregorian rule of Meeus and Jones).
def easter_sunday(year):
    a, b, c = year % 19, year // 100, year % 100
    h = (19 * a + b - b // 4 - (b - (b + 8) // 25 + 1) // 3 + 15) % 30
    k = (32 + 2 * (b % 4) + 2 * (c // 4) - h - c % 4) % 7
    m = (a + 11 * h + 22 * k) // 451
    month, day = divmod(h + k - 7 * m + 114, 31)
    return dates.day_of(year, month, day + 1)


# The days around a Friday that are closed: none, one of them or several in a row.
def near_friday(numbers, friday):
    back = numbers.one_of(((), (), (0,), (1,), (0, 1), (0, 1, 2), (1, 2, 3), (0, 1, 2, 3), (-3,)))
    return [friday - days for days in back]


# Good Friday, Easter Monday, Christmas and the turn of the year, in some years
# with the days between.
def feasts(numbers, year):
    easter = easter_sunday(year)
    days_of_december = numbers.one_of(((24, 25, 26, 31), (25, 26), (24, 25, 26, 28, 29, 30, 31)))
    return ([easter - 2, easter + 1, dates.day_of(year, 1, 1)]
            + [dates.day_of(year, 12, day) for day in days_of_december])


# 01, question 6, for the runs of seven days that have the day.
def week_still_trades(closed, day):
    return all(any(dates.is_weekday(one) and one not in closed and one != day
                   for one in range(start, start + 7))
               for start in range(day - 6, day + 1))


# The days of a list that may be closed one after the other.
def closable(days):
    closed = set()
    for day in days:
        if dates.is_weekday(day) and week_still_trades(closed, day):
            closed.add(day)
    return frozenset(closed)


# A calendar with closures near third Fridays, Easter and the ends of years.
def clustered(numbers, first_year, years):
    days = []
    for year in range(first_year, first_year + years):
        first = dates.month_number(year, 1)
        days += feasts(numbers, year)
        days += [day for month in range(first, first + 12)
                 for day in near_friday(numbers, listing.third_friday(month))]
    return Calendar(first_year, years, closable(days))


# 02, note 3: a calendar with closures near weekly Fridays.
def clustered_weekly(numbers, first_year, years):
    empty = Calendar(first_year, years, frozenset())
    fridays = listing.weekly_fridays(trading.first_day(empty), trading.last_day(empty))
    days = [day for friday in fridays for day in near_friday(numbers, friday)]
    return replace(empty, closed=closable(day for day in days if trading.in_cover(empty, day)))


# The accepted files: covers of 1, 2, 3, 7 and 16 years, and 01's example.
def accepted_files():
    numbers = Numbers(SEED)
    example = Calendar(2008, 3, frozenset((dates.day_of(2008, 3, 21),)))
    return [
        master.build(clustered(numbers, 2012, 1), products_of('AXA', 'ENI', 'DAI')),
        master.build(clustered(numbers, 2007, 2), products_of('AXA', 'BAY', 'BP', 'ENI', 'TIT', 'FIAT')),
        master.build(clustered(numbers, 2008, 3), list(PRODUCTS)),
        master.build(clustered(numbers, 2019, 7), list(PRODUCTS)),
        master.build(clustered(numbers, 2084, 16), list(PRODUCTS), per_block=9),
        master.build(example, products_of('AXA', 'AXAF', 'ENI')),
    ]


ONE_YEAR, TWO_YEARS, THREE_YEARS, SEVEN_YEARS, SIXTEEN_YEARS, EXAMPLE = range(6)


# Files that questions 1 to 8 refuse, with the number of the question.
def refused_files():
    calendar = Calendar(2012, 1, frozenset((4482, 4483)))
    items = products_of('AXA', 'ENI', 'DAI')
    week = Calendar(2012, 1, frozenset(range(4510, 4515)))

    def damaged(*damage):
        return master.build(calendar, items, damages=(damage,))

    return [
        (1, b''),
        (1, damaged('length', 1023)),
        (2, damaged('check', 1, 1)),
        (2, damaged('bytes only', 0, 20, b'\x01')),
        (3, damaged('bytes', 0, 2, master.two_bytes(1999))),
        (3, damaged('bytes', 1, 15, b'\x01')),
        (4, damaged('exchange', 0, 1)),
        (4, damaged('repeat', 0)),
        (5, damaged('bytes', 0, 16, b'\x80')),
        (5, damaged('bytes', 0, 62, b'\x01')),
        (6, master.build(week, items)),
        (7, damaged('bytes', 1, 16 + 12, b'\x04')),
        (7, damaged('bytes', 1, 16 + 32 * 3, b'\x01')),
        (8, master.build(calendar, items[::-1])),
    ]


# Files with futures of 2005: one year in which only 21 March 2008 is closed, three
# such years, and covers of 2 and 16 years.
def files_of_2005():
    numbers = Numbers(SEED + 2)
    easter = frozenset((dates.day_of(2008, 3, 21),))
    return [
        master.build(Calendar(2008, 1, easter), list(FUTURES_2005)),
        master.build(Calendar(2008, 3, easter), by_id(*products_of('AXA', 'AXAF'), *FUTURES_2005)),
        master.build(clustered(numbers, 2007, 2), list(FUTURES_2005)),
        master.build(clustered(numbers, 2084, 16), list(FUTURES_2005), per_block=1),
    ]


# 02, note 4: a calendar with some of its closed days in the second map, one of so
# many.
def with_second_map(numbers, calendar, of):
    return replace(calendar, exchange=frozenset(
        day for day in sorted(calendar.closed) if numbers.below(of) == 0))


# 02, note 4: 21 and 24 March 2008 closed, the second of them in the second map.
EASTER = Calendar(2008, 3, frozenset((dates.day_of(2008, 3, 21), dates.day_of(2008, 3, 24))),
                  frozenset((dates.day_of(2008, 3, 24),)))


# Files with second maps: the calendar above, and the same without its second map;
# the last three days of 2012 but the weekend closed and in the second map; covers of
# 7 and 16 years with half of their closed days there and with all of them.
def second_map_files():
    numbers = Numbers(SEED + 4)
    items = products_of('AXA', 'AXAF', 'BAY', 'BP', 'ENI', 'FIAT')
    last = frozenset(dates.day_of(2012, 12, day) for day in (27, 28, 31))
    return [
        master.build(EASTER, items),
        master.build(replace(EASTER, exchange=frozenset()), items),
        master.build(Calendar(2012, 1, last, last), products_of('AXA', 'BP', 'ENI')),
        master.build(with_second_map(numbers, clustered(numbers, 2019, 7), 2), list(PRODUCTS)),
        master.build(with_second_map(numbers, clustered(numbers, 2084, 16), 1),
                     by_id(*PRODUCTS, *FUTURES_2005), per_block=9),
    ]


# Files whose second map is refused, with the number of the question: a bit without
# the first map's, one on a Saturday, one after the year's end, byte 108 not zero; a
# whole week closed, with all its days in the second map.
def refused_second_maps():
    items = products_of('AXA', 'ENI')
    week = frozenset(range(4510, 4515))
    day, saturday = dates.day_of(2008, 3, 25), dates.day_of(2008, 3, 22)
    closed = EASTER.closed
    return [
        (5, master.build(replace(EASTER, exchange=closed | {day}), items)),
        (5, master.build(replace(EASTER, exchange=closed | {saturday}), items)),
        (5, master.build(EASTER, items, damages=(('bytes', 2, 107, b'\x01'),))),
        (5, master.build(EASTER, items, damages=(('bytes', 1, 108, b'\x01'),))),
        (6, master.build(Calendar(2012, 1, week, week), items)),
    ]


# 02, note 3: files with weekly options: only 21 March 2008 closed; 2010, which
# begins and ends with a weekly Friday; 2008 with its first four days closed, so
# that no trading day lies at or before its first Friday; covers of 2 and 16 years
# with closures near weekly Fridays, the first with a second map.
def weekly_files():
    numbers = Numbers(SEED + 6)
    easter = frozenset((dates.day_of(2008, 3, 21),))
    first_days = frozenset(dates.day_of(2008, 1, day) for day in range(1, 5))
    items = by_id(*products_of('AXA', 'ENI'), *WEEKLY)
    return [
        master.build(Calendar(2008, 3, easter), items),
        master.build(Calendar(2010, 1, frozenset()), items),
        master.build(Calendar(2008, 1, first_days), items),
        master.build(with_second_map(numbers, clustered_weekly(numbers, 2007, 2), 2), items),
        master.build(clustered_weekly(numbers, 2084, 16), items, per_block=2),
    ]


# 02, note 3: files that question 7 refuses: a weekly option with a future's group,
# and a kind 6.
def refused_weekly_files():
    calendar = Calendar(2008, 3, frozenset((dates.day_of(2008, 3, 21),)))
    return [
        (7, master.build(calendar, [replace(WEEKLY[0], group=b'FR01')])),
        (7, master.build(calendar, [replace(WEEKLY[0], kind=6)])),
    ]


# 02, note 11: "Sizes now carry ten-thousandths of a share": futures and an option whose
# sizes are 33.3333, 65,535.9999, 1.0001, 100.5 and 1 shares.
FRACTIONS = tuple(replace(product_from(line), size=size) for line, size in (
    ('FRA0 FR01 XPAR 0 1 1 EUR', 333333),
    ('FRA1 IT01 XMIL 0 1 1 EUR', 655359999),
    ('FRA4 FR01 XPAR 4 1 5 GBX', 10001),
    ('FRA5 FR11 XPAR 1 1 100 EUR', 1005000),
    ('FRA6 FR01 XPAR 0 1 1 CHF', 10000),
))


# 02, note 11: a file with such sizes.
def files_of_sizes():
    calendar = Calendar(2008, 3, frozenset((dates.day_of(2008, 3, 21),)))
    return [master.build(calendar, list(FRACTIONS))]


# Files that question 7 refuses: a size "below one share", ten-thousandths above 9,999,
# byte 22 not zero.
def refused_sizes():
    calendar = Calendar(2008, 3, frozenset((dates.day_of(2008, 3, 21),)))

    def damaged(offset, data):
        return master.build(calendar, list(FRACTIONS), damages=(('bytes', 3, 16 + offset, data),))

    return [
        (7, damaged(13, b'\x00\x00')),
        (7, damaged(20, b'\x27\x10')),
        (7, damaged(22, b'\x01')),
    ]


# All master files in the order of their numbers.
@lru_cache(maxsize=1)
def all_files():
    return [*accepted_files(), *(file for _, file in refused_files()), *files_of_2005(),
            *second_map_files(), *(file for _, file in refused_second_maps()),
            *weekly_files(), *(file for _, file in refused_weekly_files()),
            *files_of_sizes(), *(file for _, file in refused_sizes())]


# The numbers of the files with futures of 2005.
ONE_YEAR_2005, THREE_YEARS_2005, TWO_YEARS_2005, SIXTEEN_YEARS_2005 = range(20, 24)

# The numbers of the files with second maps, and of the first that is refused.
(EASTER_SECOND, EASTER_ALONE, YEAR_END_SECOND, SEVEN_YEARS_SECOND, SIXTEEN_YEARS_SECOND,
 REFUSED_SECOND) = range(24, 30)

# The numbers of the files with weekly options, and of the first that is refused.
(THREE_YEARS_WEEKLY, WEEKLY_2010, FIRST_DAYS_WEEKLY, TWO_YEARS_WEEKLY, SIXTEEN_YEARS_WEEKLY,
 REFUSED_WEEKLY) = range(34, 40)

# The numbers of the file with sizes of ten-thousandths, and of the first that is refused.
THREE_YEARS_SIZES, REFUSED_SIZES = 41, 42


# A file's name in the folder.
def file_name(number):
    return f'master{number:02d}.bin'


# The calendar of an accepted file.
def calendar_of(number):
    return master.contents(all_files()[number])[0]


# The product of an accepted file with an id.
def product_of(number, code):
    return master.contents(all_files()[number])[1][code]


# The first date of an accepted file's cover.
def first_date(number):
    return trading.first_day(calendar_of(number))


# The first date of a cover on which a product can be opened, where its listing fits:
# 24 refuses weekly options on the first seven days (02, note 3).
def opening_date(number, code):
    date = first_date(number)
    while not listing.passes_24(calendar_of(number), product_of(number, code).kind, date):
        date += 1
    return date


# The last date of a cover on which a product can be opened.
def last_date(number, code):
    calendar, item = calendar_of(number), product_of(number, code)
    date = trading.last_day(calendar)
    while not listing.listing_in_cover(calendar, item.group, item.kind, date):
        date -= 1
    return date


# The ids of a file whose listing fits its cover on the first date.
def openable(number):
    calendar, products = master.contents(all_files()[number])
    return [item.id for item in products.values() if listing.listing_in_cover(
        calendar, item.group, item.kind, trading.first_day(calendar))]
