"""Last trading days, listed months and listed Fridays (01, "Last trading day",
"Listed months", question 16; 02, notes 1, 2, 3 and 9).

The key of a maturity is its month number; that of a weekly option's is the day
number of its Friday.
"""

from collections.abc import Collection, Iterator
from functools import lru_cache
from itertools import islice

from tests.second import dates, product, trading
from tests.second.trading import Calendar

# A maturity of a fresh listing: key, last trading day, days stepped back.
Fresh = tuple[int, int, int]

# Keys, and whether none of those that are listed lies beyond the cover.
Keys = tuple[tuple[int, ...], bool]

# 01, Listed months: the months of the year that each of the four steps takes.
SETS = (
    (1, 2, 3, 4, 5, 6, 7, 8, 9, 10, 11, 12),
    (3, 6, 9, 12),
    (6, 12),
    (12,),
)

# 01, Listed months: "the counts stand in four rows of four", one row for each
# kind, one count for each step.
COUNTS = (
    (13, 0, 0, 2),
    (3, 3, 0, 0),
    (3, 3, 2, 0),
    (3, 3, 4, 2),
)

# 02, note 1: "the next four of March, June, September, December, and with them
# the next April, May and July": names of months, and how many of them are taken.
PARTS_2005 = (((3, 6, 9, 12), 4), ((4,), 1), ((5,), 1), ((7,), 1))

# 02, note 1: "those seven names".
NAMES_2005 = frozenset(name for names, _ in PARTS_2005 for name in names)

# 02, note 3: "the next four expiry days".
FRIDAYS = 4


# 01, Last trading day: the "third Friday" of a month: the Friday from the 15th
# to the 21st.
@lru_cache(maxsize=dates.MONTHS)
def third_friday(month: int) -> int:
    fifteenth = dates.first_day_of_month(month) + 14
    return next(day for day in range(fifteenth, fifteenth + 7) if dates.weekday(day) == dates.FRIDAY)


# 02, note 3: "the Fridays that are not the third Friday of their month".
def is_weekly_friday(day: int) -> bool:
    return dates.weekday(day) == dates.FRIDAY and day != third_friday(dates.month_of(day))


# These Fridays from one day to another, one after the other.
def weekly_fridays(first: int, last: int) -> Iterator[int]:
    friday = first + (dates.FRIDAY - dates.weekday(first)) % 7
    return filter(is_weekly_friday, range(friday, last + 1, 7))


# 01, Last trading day: "The anchor of a month is its third Friday; for the
# groups IT01 and IT11 the day before that". 02, note 3: "A weekly maturity's
# anchor is its Friday"; "The Italian rule takes no part".
def anchor(group: bytes, kind: int, key: int) -> int:
    if product.is_weekly(kind):
        return key
    if product.is_italian(group):
        return third_friday(key) - 1
    return third_friday(key)


# 01, Last trading day: "The last trading day is the anchor if it is a trading
# day, else the latest trading day before it." 02, note 3: a Friday is "taken back
# to the latest trading day at or before it". The month or Friday lies in the cover.
def last_trading_day(calendar: Calendar, group: bytes, kind: int, key: int) -> int | None:
    return trading.latest_trading_day(calendar, anchor(group, kind, key))


# 02, note 2: "the number of days it stepped back from the anchor, 0 to 6, equal
# to anchor − day".
def days_back(calendar: Calendar, group: bytes, kind: int, key: int) -> int:
    day = last_trading_day(calendar, group, kind, key)
    assert day is not None
    return anchor(group, kind, key) - day


# Whether a month lies beyond the cover.
def is_beyond(calendar: Calendar, month: int) -> bool:
    return month > trading.last_month(calendar)


# The names of the months that a kind lists.
def names_of(kind: int) -> Collection[int]:
    return NAMES_2005 if kind == product.FUTURE_2005 else SETS[0]


# 01, Listed months: "The front month on a date is the first month, from the
# date's own month on, whose last trading day is not before the date." 02, note 1:
# "the first month of those seven names whose last trading day is not before the
# date". The answer may be the month after the cover's last one.
def front_month(calendar: Calendar, group: bytes, kind: int, date: int) -> int:
    month = dates.month_of(date)
    while not is_beyond(calendar, month):
        day = last_trading_day(calendar, group, kind, month)
        if month % 12 + 1 in names_of(kind) and day is not None and day >= date:
            return month
        month += 1
    return month


# 01, Listed months: "Step one takes the front month and those after it; each
# later step takes the next months of its set that follow the last month taken.
# Listing stops [..] as soon as a month lies beyond the cover". The answer: the
# months taken, and whether no month lay beyond the cover.
def months_by_steps(calendar: Calendar, group: bytes, kind: int, date: int) -> Keys:
    taken: list[int] = []
    month = front_month(calendar, group, kind, date)
    for months_of_set, count in zip(SETS, COUNTS[kind]):
        left = count
        while left > 0:
            if is_beyond(calendar, month):
                return tuple(taken), False
            if month % 12 + 1 in months_of_set:
                taken.append(month)
                left -= 1
            month += 1
    return tuple(taken), True


# The next months of some names from a month on, so many of them; those beyond the
# cover are left out.
def next_months(calendar: Calendar, names: Collection[int], count: int, month: int) -> list[int]:
    taken: list[int] = []
    while len(taken) < count and not is_beyond(calendar, month):
        if month % 12 + 1 in names:
            taken.append(month)
        month += 1
    return taken


# 02, note 1: "the next four of March, June, September, December, and with them
# the next April, May and July. All count from the front". The answer: the months
# that are in the cover, and whether all of them are.
def months_of_2005(calendar: Calendar, group: bytes, date: int) -> Keys:
    front = front_month(calendar, group, product.FUTURE_2005, date)
    taken = [month for names, count in PARTS_2005
             for month in next_months(calendar, names, count, front)]
    return tuple(sorted(taken)), len(taken) == sum(count for _, count in PARTS_2005)


# 02, note 3: "the four start at the first whose day is not before the date". A
# Friday before the date has its day before it, so the walk starts at the date. The
# day after the cover's last one where the cover has no such Friday.
def front_friday(calendar: Calendar, date: int) -> int:
    last = trading.last_day(calendar)
    for friday in weekly_fridays(date, last):
        day = trading.latest_trading_day(calendar, friday)
        if day is not None and day >= date:
            return friday
    return last + 1


# 02, note 3: "the next four expiry days. Ours are the Fridays that are not the third
# Friday of their month". The answer: those of the four that are in the cover, and
# whether all of them are.
def four_fridays(calendar: Calendar, date: int) -> Keys:
    taken = tuple(islice(weekly_fridays(front_friday(calendar, date), trading.last_day(calendar)),
                         FRIDAYS))
    return taken, len(taken) == FRIDAYS


# The front month, or the front Friday of a weekly option.
def front_key(calendar: Calendar, group: bytes, kind: int, date: int) -> int:
    if product.is_weekly(kind):
        return front_friday(calendar, date)
    return front_month(calendar, group, kind, date)


# The months or Fridays that a kind lists on a date, and whether all of them are in
# the cover. A call asks for the same listing several times, so the last ones are
# kept.
@lru_cache(maxsize=64)
def listed_keys(calendar: Calendar, group: bytes, kind: int, date: int) -> Keys:
    if product.is_weekly(kind):
        return four_fridays(calendar, date)
    if kind == product.FUTURE_2005:
        return months_of_2005(calendar, group, date)
    return months_by_steps(calendar, group, kind, date)


# A maturity of the fresh listing.
def fresh_maturity(calendar: Calendar, group: bytes, kind: int, key: int) -> Fresh:
    day = last_trading_day(calendar, group, kind, key)
    assert day is not None
    return key, day, days_back(calendar, group, kind, key)


# 01, The table: "the fresh listing": key, last trading day and days stepped back by
# rising key; months or Fridays beyond the cover are left out.
@lru_cache(maxsize=64)
def fresh_listing(calendar: Calendar, group: bytes, kind: int, date: int) -> tuple[Fresh, ...]:
    keys, _ = listed_keys(calendar, group, kind, date)
    return tuple(fresh_maturity(calendar, group, kind, key) for key in keys)


# 01, question 16: "Are all months of the fresh listing in the cover?" 02, note 3:
# "16 and 18 read with Fridays".
def listing_in_cover(calendar: Calendar, group: bytes, kind: int, date: int) -> bool:
    return listed_keys(calendar, group, kind, date)[1]


# 01, The table: "the number of cover months before the front month". 02, note 3:
# "the cover's weekly Fridays before the front one take the place of cover months".
def keys_before(calendar: Calendar, kind: int, front: int) -> int:
    if product.is_weekly(kind):
        return len(list(weekly_fridays(trading.first_day(calendar), front - 1)))
    return front - trading.first_month(calendar)


# 02, note 3, question 24, "in opening kind 5: is the date at least seven days after
# the cover's first day?" The other kinds are not asked.
def passes_24(calendar: Calendar, kind: int, date: int) -> bool:
    return not product.is_weekly(kind) or date >= trading.first_day(calendar) + 7


# 02, note 9, question 27: "does the front maturity stay the same month or Friday,
# whatever its day, so that none before it comes back?", with the calendar before and
# after a reopening.
def front_stays(before: Calendar, after: Calendar, group: bytes, kind: int, date: int) -> bool:
    return front_key(after, group, kind, date) == front_key(before, group, kind, date)
