"""Day numbers, dates and month numbers (01, "Days and months")."""

from bisect import bisect_right
from functools import lru_cache

FIRST_YEAR = 2000
LAST_YEAR = 2099
DAYS = 36525
MONTHS = 1200
FRIDAY = 4


# 01, Days and months: "Gregorian".
def is_leap_year(year: int) -> bool:
    return year % 4 == 0 and (year % 100 != 0 or year % 400 == 0)


# 01, Days and months: "the Gregorian month lengths"; month is 1 to 12.
def month_length(year: int, month: int) -> int:
    if month == 2:
        return 29 if is_leap_year(year) else 28
    return 30 if month in (4, 6, 9, 11) else 31


# The number of days of a year.
def year_length(year: int) -> int:
    return 366 if is_leap_year(year) else 365


# 01, Days and months: "A month number is 12 × (year − 2000) + month − 1, so 0
# to 1,199."
def month_number(year: int, month: int) -> int:
    return 12 * (year - FIRST_YEAR) + month - 1


# The year and the month (1 to 12) of a month number.
def year_and_month(month: int) -> tuple[int, int]:
    return FIRST_YEAR + month // 12, month % 12 + 1


# 01, Days and months: "The first day of each of the 1,200 months".
def _first_days() -> list[int]:
    days = []
    day = 0
    for month in range(MONTHS):
        days.append(day)
        day += month_length(*year_and_month(month))
    assert day == DAYS
    return days


FIRST_DAYS = _first_days()


# The day number of the first day of a month.
def first_day_of_month(month: int) -> int:
    return FIRST_DAYS[month]


# The day number of 1 January of a year of 2000-2099.
def first_day_of_year(year: int) -> int:
    return FIRST_DAYS[month_number(year, 1)]


# 01, Days and months: "Weekday = (day + 5) mod 7, Monday 0."
def weekday(day: int) -> int:
    return (day + 5) % 7


# Whether a day number is one of Monday to Friday.
def is_weekday(day: int) -> bool:
    return weekday(day) <= FRIDAY


# 01, question 23: "Is it a date [..] of 2000-2099?"
def is_date(year: int, month: int, day: int) -> bool:
    return (FIRST_YEAR <= year <= LAST_YEAR and 1 <= month <= 12
            and 1 <= day <= month_length(year, month))


# 01, question 23: "Is it a [..] day number, of 2000-2099?"
def is_day(day: int) -> bool:
    return 0 <= day < DAYS


# 01, Days and months: "A day number counts from 1 January 2000 (0, a Saturday)
# to 31 December 2099 (36,524)"; the date is one of 2000-2099.
def day_of(year: int, month: int, day: int) -> int:
    return FIRST_DAYS[month_number(year, month)] + day - 1


# The month number of the month that holds a day of 2000-2099.
def month_of(day: int) -> int:
    return bisect_right(FIRST_DAYS, day) - 1


# 01, Days and months: "Date to day and day to date undo each other." Dates are kept,
# as every test of a day asks for its year.
@lru_cache(maxsize=DAYS)
def date_of(day: int) -> tuple[int, int, int]:
    month = month_of(day)
    year, month_of_year = year_and_month(month)
    return year, month_of_year, day - FIRST_DAYS[month] + 1


# 01, Questions: "Date and day: 23." The call from date to day: (number, day).
def date_to_day(year: int, month: int, day: int) -> tuple[int, int]:
    if not is_date(year, month, day):
        return 23, 0
    return 0, day_of(year, month, day)


# 01, Questions: "Date and day: 23." The call from day to date: (number, year,
# month, day).
def day_to_date(day: int) -> tuple[int, int, int, int]:
    if not is_day(day):
        return 23, 0, 0, 0
    return (0, *date_of(day))
