"""The cover, closed days, trading days and exchange days (01, "Days and months",
questions 5, 6 and 15; 02, notes 4, 5 and 9)."""

from collections.abc import Iterable
from dataclasses import dataclass, replace
from functools import lru_cache

from tests.second import dates

YEARS_AT_MOST = 16
BYTES_PER_YEAR = 46
MAP_BYTES = YEARS_AT_MOST * BYTES_PER_YEAR
BITS_PER_YEAR = 8 * BYTES_PER_YEAR


# The calendar: the cover as first year and number of years, the day numbers of
# the closed days, and those of the second map (02, note 4). A negative entry
# stands for a bit of a map that belongs to no day of the cover (see days_of_map).
@dataclass(frozen=True)
class Calendar:
    first_year: int
    years: int
    closed: frozenset[int]
    exchange: frozenset[int] = frozenset()

    # A calendar from the bytes of its two maps.
    @classmethod
    def from_maps(cls, first_year: int, years: int, data: bytes, second: bytes = b'') -> 'Calendar':
        return cls(first_year, years, days_of_map(first_year, years, data),
                   days_of_map(first_year, years, second))

    # The map of the closed days as bytes; bytes past the last year are zero.
    def to_map(self) -> bytes:
        return map_of_days(self.first_year, self.closed)

    # The second map as bytes.
    def to_second_map(self) -> bytes:
        return map_of_days(self.first_year, self.exchange)


# 01, Master file: "day n of the year (from 0) is the bit of value
# 2^(7 − n mod 8)"; 46 bytes for each year. 02, note 4: "same bit order". A bit
# set outside every year of the cover is kept as −1 − its position, so that
# question 5 answers no.
def days_of_map(first_year: int, years: int, data: bytes) -> frozenset[int]:
    days = set()
    for position in bits_set(data):
        day = day_at(first_year, years, position)
        days.add(-1 - position if day is None else day)
    return frozenset(days)


# The bytes of a map with these days.
def map_of_days(first_year: int, days: Iterable[int]) -> bytes:
    data = bytearray(MAP_BYTES)
    for day in days:
        position = -1 - day if day < 0 else position_of(first_year, day)
        data[position // 8] |= 1 << (7 - position % 8)
    return bytes(data)


# The positions of the bits set in a map, the highest bit of a byte first.
def bits_set(data: bytes) -> list[int]:
    return [8 * place + bit for place, byte in enumerate(data) if byte
            for bit in range(8) if byte & (1 << (7 - bit))]


# The day number at a position of the map, or None where no day of the cover is.
def day_at(first_year: int, years: int, position: int) -> int | None:
    index, day_of_year = divmod(position, BITS_PER_YEAR)
    year = first_year + index
    if index >= years or not dates.FIRST_YEAR <= year <= dates.LAST_YEAR:
        return None
    if day_of_year >= dates.year_length(year):
        return None
    return dates.first_day_of_year(year) + day_of_year


# The position in the map of a day of the cover.
def position_of(first_year: int, day: int) -> int:
    year = dates.date_of(day)[0]
    return BITS_PER_YEAR * (year - first_year) + day - dates.first_day_of_year(year)


# 01, question 5, for the bytes of a map: "Weekend bits, bits after the year's
# end [..] are zero"; bytes past the last year are zero too.
def map_is_clean(first_year: int, years: int, data: bytes) -> bool:
    for position in bits_set(data):
        day = day_at(first_year, years, position)
        if day is None or not dates.is_weekday(day):
            return False
    return True


# 02, note 4: a bit of the second map "may be set only where the first map has
# its bit".
def second_map_is_clean(data: bytes, second: bytes) -> bool:
    return set(bits_set(second)) <= set(bits_set(data))


# 01, The table: "with 1 to 16 years from 2000 to 2099".
def cover_fits(calendar: Calendar) -> bool:
    return (1 <= calendar.years <= YEARS_AT_MOST
            and calendar.first_year >= dates.FIRST_YEAR
            and calendar.first_year + calendar.years - 1 <= dates.LAST_YEAR)


# 01, Days and months: "The cover is a run of whole years." Its first day.
def first_day(calendar: Calendar) -> int:
    return dates.first_day_of_year(calendar.first_year)


# The last day of the cover.
def last_day(calendar: Calendar) -> int:
    year = calendar.first_year + calendar.years - 1
    return dates.first_day_of_year(year) + dates.year_length(year) - 1


# The first month of the cover.
def first_month(calendar: Calendar) -> int:
    return dates.month_number(calendar.first_year, 1)


# The last month of the cover.
def last_month(calendar: Calendar) -> int:
    return first_month(calendar) + 12 * calendar.years - 1


# 01, question 11: "Is the day in the cover?"
def in_cover(calendar: Calendar, day: int) -> bool:
    if not dates.is_day(day):
        return False
    year = dates.date_of(day)[0]
    return calendar.first_year <= year < calendar.first_year + calendar.years


# A closed day: a day of the cover whose bit is 1.
def is_closed(calendar: Calendar, day: int) -> bool:
    return day in calendar.closed and in_cover(calendar, day)


# 01, Days and months: "A trading day is a Monday to Friday in the cover that is
# not closed." Question 14.
def is_trading_day(calendar: Calendar, day: int) -> bool:
    return (dates.is_weekday(day) and day not in calendar.closed
            and in_cover(calendar, day))


# 02, note 4: a day of the second map, on which "there is no trading, yet payments
# and deliveries run".
def is_in_second_map(calendar: Calendar, day: int) -> bool:
    return day in calendar.exchange and in_cover(calendar, day)


# 02, note 4: "Due days count trading days and these days".
def is_exchange_day(calendar: Calendar, day: int) -> bool:
    return is_trading_day(calendar, day) or is_in_second_map(calendar, day)


# 01, question 5: only Mondays to Fridays of the cover are closed; 02, note 4:
# only closed days are in the second map. The verdict on a calendar is kept, as a
# long session asks it again at every call.
@lru_cache(maxsize=256)
def is_clean(calendar: Calendar) -> bool:
    return (calendar.exchange <= calendar.closed
            and all(dates.is_weekday(day) and in_cover(calendar, day)
                    for day in calendar.closed))


# 01, question 6: "Does every run of seven days in the cover hold a trading
# day?" Runs lie wholly in the cover.
@lru_cache(maxsize=256)
def every_week_trades(calendar: Calendar) -> bool:
    without = 0
    for day in range(first_day(calendar), last_day(calendar) + 1):
        if dates.is_weekday(day) and day not in calendar.closed:
            without = 0
        else:
            without += 1
        if without == 7:
            return False
    return True


# 01, The table: "Close marks one day closed." 02, note 4: "A closure notice leaves
# the second map's bit 0." A day outside the cover changes nothing.
def close_day(calendar: Calendar, day: int) -> Calendar:
    if not in_cover(calendar, day):
        return calendar
    return replace(calendar, closed=calendar.closed | {day})


# 01, question 15: "With it closed, does every seven-day run still hold a
# trading day?"
def every_week_trades_without(calendar: Calendar, day: int) -> bool:
    return every_week_trades(close_day(calendar, day))


# 02, note 9, question 26: "is the day a closed Monday to Friday?"
def is_closed_weekday(calendar: Calendar, day: int) -> bool:
    return is_closed(calendar, day) and dates.is_weekday(day)


# 02, note 9: reopening "clears the day in both maps". A day outside the cover
# changes nothing.
def reopen_day(calendar: Calendar, day: int) -> Calendar:
    if not in_cover(calendar, day):
        return calendar
    return replace(calendar, closed=calendar.closed - {day}, exchange=calendar.exchange - {day})


# 01, Last trading day: a day "if it is a trading day, else the latest trading
# day before it"; None if there is none in the cover.
def latest_trading_day(calendar: Calendar, day: int) -> int | None:
    day = min(day, last_day(calendar))
    while day >= first_day(calendar):
        if is_trading_day(calendar, day):
            return day
        day -= 1
    return None


# 01, Due day: "the n-th trading day after a given trading day", with 02, note 4
# the n-th exchange day; None if it is not in the cover. 02, note 5: "from any day":
# "the first counted day is the first exchange day after it".
def nth_exchange_day_after(calendar: Calendar, day: int, n: int) -> int | None:
    day = max(day, first_day(calendar) - 1)
    while n > 0:
        day += 1
        if day > last_day(calendar):
            return None
        if is_exchange_day(calendar, day):
            n -= 1
    return day
