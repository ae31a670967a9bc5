"""Made-up calendars for load tests (02, note 14)."""

from tests.second import dates, trading
from tests.second.trading import Calendar


# 02, note 14: "The next value is (1,664,525 × value + 1,013,904,223) mod 2^32."
def next_value(value: int) -> int:
    return (1_664_525 * value + 1_013_904_223) % 2**32


# Whether with a day closed some run of seven days that has it, wholly in the
# cover, holds no trading day.
def leaves_a_run(calendar: Calendar, closed: set[int], day: int) -> bool:
    first = max(trading.first_day(calendar), day - 6)
    last = min(trading.last_day(calendar) - 6, day)
    return any(all(one == day or one in closed or not dates.is_weekday(one)
                   for one in range(start, start + 7))
               for start in range(first, last + 1))


# 02, note 14: "Go through the Mondays to Fridays of the cover in order, one new
# value each; close the day if value div 2^24 is below 8, unless that would leave
# a seven-day run without a trading day. Days not yet visited count as open."
# "[A]ny other cover gets 4 and a calendar of zeros." (number, calendar).
def make(seed: int, first_year: int, years: int) -> tuple[int, Calendar]:
    cover = Calendar(first_year, years, frozenset())
    if not trading.cover_fits(cover):
        return 4, Calendar(0, 0, frozenset())
    value = seed
    closed: set[int] = set()
    for day in range(trading.first_day(cover), trading.last_day(cover) + 1):
        if dates.is_weekday(day):
            value = next_value(value)
            if value // 2**24 < 8 and not leaves_a_run(cover, closed, day):
                closed.add(day)
    return 0, Calendar(first_year, years, frozenset(closed))
