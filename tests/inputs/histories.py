"""Histories of tables: the master files and the script that the program tables
reads, and the lines that it must print.

python3 -m tests.inputs.histories --write crates/compare_tables/data
python3 -m tests.inputs.histories --check crates/compare_tables/data
"""

import sys
from functools import lru_cache

from tests.inputs import stored
from tests.inputs.products import FUTURES_2005, WEEKLY
from tests.inputs.tables.damages import (damaged_second_maps, damaged_tables, damaged_tables_of_2005,
                                         damaged_weekly_tables, date_before_cover, dues_on_unsound_table,
                                         every_call_on_zeros)
from tests.inputs.tables.files import (EASTER_ALONE, EASTER_SECOND, EXAMPLE, FIRST_DAYS_WEEKLY, ONE_YEAR,
                                       ONE_YEAR_2005, REFUSED_SECOND, REFUSED_WEEKLY, SEED, SEVEN_YEARS,
                                       SEVEN_YEARS_SECOND, SIXTEEN_YEARS, SIXTEEN_YEARS_2005, SIXTEEN_YEARS_SECOND,
                                       SIXTEEN_YEARS_WEEKLY, THREE_YEARS, THREE_YEARS_2005, THREE_YEARS_SIZES,
                                       THREE_YEARS_WEEKLY, TWO_YEARS, TWO_YEARS_2005, TWO_YEARS_WEEKLY, WEEKLY_2010,
                                       YEAR_END_SECOND, Numbers, accepted_files, all_files, calendar_of, easter_sunday,
                                       file_name, first_date, last_date, openable, opening_date, product_of,
                                       refused_files, refused_second_maps, refused_weekly_files)
from tests.inputs.tables.measures import measured_tables
from tests.inputs.tables.moments import (PRICES, push_calls, some_calls, some_calls_and_measures,
                                         some_calls_and_reopenings, some_value)
from tests.inputs.tables.reopenings import reopened_tables
from tests.inputs.tables.script import CALLS, NO_KIND, Script, book_call, make
from tests.second import dates, product, trading
from tests.second.book import Book


# ---- Mixed histories ----

# A history of mixed calls, with value calls among them.
def mixed_history(script, numbers, number, code, date, length, choose=some_calls):
    script.open(number, code, date)
    for _ in range(length):
        make(script, choose(numbers, script.book))
        if numbers.below(3) == 0:
            some_value(script, numbers)


# Mixed histories of every product of the accepted files that can be opened.
def mixed_histories(script, numbers):
    for number, code in [(number, code) for number in range(EXAMPLE + 1) for code in openable(number)]:
        span = last_date(number, code) - first_date(number) + 1
        mixed_history(script, numbers, number, code, first_date(number) + numbers.below(span) // 2, 15)


# 01, "March 2008 and its neighbours": the example's three calls, and the
# closures that its sentences name.
def example_history(script):
    day = dates.day_of(2008, 3, 20)
    script.open(EXAMPLE, b'AXA ', day)
    make(script, (('R', day + 1), ('C', day), ('R', day + 1), ('R', day)))
    for code in (b'AXA ', b'ENI '):
        script.open(EXAMPLE, code, day - 2)
        script.close(day)
        script.last_trading_day(98)
        script.roll(day - 1)
        script.roll(day)


# ---- Rolls to the cover's end ----

# Dates from one to another, at most a number of days apart.
def dates_between(numbers, start, end, step):
    stops = [start]
    while stops[-1] < end:
        stops.append(min(end, stops[-1] + 1 + numbers.below(step)))
    return stops


# 01, question 16, by rolls to the last date that it accepts, one day at a time at
# the end, and to dates after it, which are refused.
def roll_to_the_end(script, numbers, number, code, step):
    start, end = opening_date(number, code), last_date(number, code)
    script.open(number, code, start)
    for date in (*dates_between(numbers, start, end - 3, step), *range(end - 2, end + 4),
                 trading.last_day(script.book.calendar)):
        script.roll(date)


# Rolls to the end in covers of 2, 3, 7 and 16 years, all kinds.
def rolls_to_the_end(script, numbers):
    for number, code, step in ((TWO_YEARS, b'ENI ', 25), (THREE_YEARS, b'TIT ', 30),
                               (THREE_YEARS, b'FIAT', 30), (SEVEN_YEARS, b'ENEL', 60),
                               (SEVEN_YEARS, b'DAI ', 60), (SIXTEEN_YEARS, b'BP  ', 160),
                               (SIXTEEN_YEARS, b'MSFT', 160), (SIXTEEN_YEARS, b'NOK1', 160)):
        roll_to_the_end(script, numbers, number, code, step)


# ---- Closures ----

# The front month pushed out several times in one history, or rolled past where
# question 15 keeps its last trading day.
def push_often(script, number, code, date):
    script.open(number, code, date)
    for _ in range(5):
        make(script, [*push_calls(script.book), ('R', script.book.maturities[0][1] + 1)])


# The same for each kind and for Italian groups.
def pushed_histories(script):
    for number, code, date in ((EXAMPLE, b'AXA ', 2930), (EXAMPLE, b'AXAF', 2930), (EXAMPLE, b'ENI ', 2930),
                               (SEVEN_YEARS, b'FIAT', 6980), (SEVEN_YEARS, b'ENEL', 6980),
                               (SIXTEEN_YEARS, b'TIT ', 30700), (SIXTEEN_YEARS, b'DAI ', 30700),
                               (SIXTEEN_YEARS, b'BAY ', 30700)):
        push_often(script, number, code, date)


# 01, question 16 by a close: the same at the cover's end, where the month that
# would enter lies beyond the cover. The close is refused and nothing changes.
def pushed_at_the_end(script):
    for number, code in ((EXAMPLE, b'AXA '), (EXAMPLE, b'AXAF'), (EXAMPLE, b'ENI '),
                         (SEVEN_YEARS, b'TIT '), (SEVEN_YEARS, b'DAI '), (SIXTEEN_YEARS, b'FIAT')):
        script.open(number, code, last_date(number, code) - 20)
        make(script, push_calls(script.book))
        script.roll(script.table.date)


# 01, Questions: "the number of the first answered no": 15 and not 16, where the
# front month would be pushed out by the last day of its week at the cover's end.
def closed_week_at_the_end(script):
    for number, code in ((EXAMPLE, b'AXA '), (EXAMPLE, b'AXAF')):
        script.open(number, code, last_date(number, code) - 20)
        friday = script.book.maturities[0][1]
        make(script, [*(('C', day) for day in range(friday - 4, friday)), ('R', friday - 1), ('C', friday)])


# 01, question 15: the days of a week closed one after the other, the last
# refused; then the first again, refused by 14.
def closed_weeks(script, numbers):
    for number, code in ((ONE_YEAR, b'ENI '), (SEVEN_YEARS, b'NOK1'), (SIXTEEN_YEARS, b'1   ')):
        start = first_date(number)
        monday = start + 7 - dates.weekday(start) + 7 * numbers.below(5)
        script.open(number, code, start)
        make(script, [('C', day) for day in (*range(monday, monday + 5), monday)])


# 02, note 2: "0 to 6". The days up to the third Friday of August 2008 closed one
# after the other, the earliest last: an Italian month steps back to the Friday
# before, another one to Monday.
def stepped_back(script):
    august = dates.month_number(2008, 8)
    friday = dates.day_of(2008, 8, 15)
    for code, last in ((b'ENI ', friday - 1), (b'AXA ', friday), (b'AXAF', friday)):
        script.open(EXAMPLE, code, friday - 14)
        for day in range(last, last - 4, -1):
            script.close(day)
            script.last_trading_day(august)


# Many closures one after the other, with a roll after each ten.
def many_closures(script, numbers, number, code, date, count):
    script.open(number, code, date)
    for step in range(count):
        soon = script.book.date + 1 + numbers.below(30)
        script.close(numbers.one_of([soon, *(day for _, day, _, _ in script.book.maturities)]))
        if step % 10 == 9:
            script.roll(script.book.date + numbers.below(25))


# Histories of many closures: all kinds, Italian groups and others.
def closure_histories(script, numbers):
    many_closures(script, numbers, EXAMPLE, b'AXAF', 2922, 50)
    many_closures(script, numbers, TWO_YEARS, b'ENI ', 2560, 50)
    many_closures(script, numbers, SEVEN_YEARS, b'BAY ', 7000, 50)
    many_closures(script, numbers, SIXTEEN_YEARS, b'ENEL', 33000, 50)


# ---- Refused opens ----

# 01, questions 1 to 8 of open, by files that they refuse and by one that is not
# there; also where 9 and 11 would be answered no.
def opens_of_refused_files(script):
    first = len(accepted_files())
    for place, (number, _) in enumerate(refused_files()):
        if script.open(first + place, b'AXA ', 4400) != number:
            raise ValueError(f'file {first + place} is not refused by {number}')
        script.open(first + place, b'NONE', 65535)
    script.open(99, b'AXA ', 4400)


# 01, question 9 of open.
def opens_of_absent_ids(script):
    script.open(ONE_YEAR, b'NONE', 65535)
    for code in (b'AXB ', b'    ', b'AX  ', b'axa ', bytes(4), b'ZZZZ', b'0   '):
        script.open(ONE_YEAR, code, 4400)


# 01, questions 11 and 16 of open: dates at the ends of each cover and outside it.
def opens_at_the_ends(script):
    for number in range(EXAMPLE + 1):
        start, end = first_date(number), trading.last_day(calendar_of(number))
        open_each(script, number, (max(0, start - 1), start, end, end + 1, 65535))


# One product opened on several dates.
def open_each(script, number, days):
    for date in days:
        script.open(number, b'AXA ', date)


# 01, question 16 of open: a cover too short for the product's kind.
def opens_in_short_covers(script):
    for number, code in ((ONE_YEAR, b'DAI '), (TWO_YEARS, b'FIAT'), (THREE_YEARS, b'ENEL')):
        script.open(number, code, first_date(number))


# ---- Value calls ----

# 01, Due day: "the n-th trading day after a given trading day", around Easter
# and to the cover's end.
def due_calls(script):
    end = trading.last_day(script.book.calendar)
    easter = easter_sunday(2020)
    for day in (*range(easter - 6, easter + 4), *range(end - 7, end + 2)):
        script.due(day)


# 01, question 18: the months from the one before the front month on.
def month_calls(script):
    front = script.book.maturities[0][0]
    for month in range(front - 1, front + 18):
        script.last_trading_day(month)


# 01, questions 19 and 20.
def tick_calls(script):
    for price in PRICES:
        script.tick(price)


# 01, cash: "contracts × size × (final − agreed), signed", and questions 19 to 22.
def cash_calls(script):
    for contracts, agreed, final in ((3, 123400, 125000), (3, 125000, 123400), (1, 100, 100),
                                     (100000, 999999900, 0), (100000, 100, 999999999),
                                     (100001, 100, 100), (0, 100, 100), (1, 0, 0),
                                     (1, 1000000000, 0), (1, 7, 0), (1, 100, 1000000000)):
        script.cash(contracts, agreed, final)


# The value calls of products with each count of days to settlement.
def value_calls(script):
    for code in (b'AXAF', b'DAI ', b'ENI ', b'NOK1', b'BP  ', b'CRH ', b'BAY ', b'FIAT'):
        script.open(SEVEN_YEARS, code, 7000)
        due_calls(script)
        month_calls(script)
        tick_calls(script)
        cash_calls(script)


# ---- Whole histories in one call ----

# The calls of a mixed history, chosen by the book alone.
def calls_of(numbers, number, code, date, length, choose=some_calls):
    item = product_of(number, code)
    book = Book(item.kind, item.group, item.size, calendar_of(number), date)
    calls = []
    while len(calls) < length:
        more = choose(numbers, book)[:length - len(calls)]
        calls += [(call, book_call(book, *call)) for call in more]
    return [call for call, _ in calls]


# 01, The table: "Demand 3 is a single claim about the list": lists of many
# lengths, the empty one among them.
def whole_histories(script, numbers):
    for number, code, date, length in ((EXAMPLE, b'AXA ', 2930, 120), (THREE_YEARS, b'TIT ', 2930, 120),
                                       (SEVEN_YEARS, b'ENEL', 6950, 200), (SIXTEEN_YEARS, b'FIAT', 30700, 256),
                                       (SIXTEEN_YEARS, b'CRH ', 33000, 100), (ONE_YEAR, b'AXA ', 4383, 60),
                                       (TWO_YEARS, b'BAY ', 2557, 60), (EXAMPLE, b'ENI ', 3000, 0)):
        script.history(number, code, date, calls_of(numbers, number, code, date, length))


# A buffer longer than the answers; one too short, and numbers that are no whole
# calls, with which no call is made; an open that is refused.
def odd_histories(script, numbers):
    calls = calls_of(numbers, EXAMPLE, b'AXA ', 3000, 5)
    script.history(EXAMPLE, b'AXA ', 3000, calls, buffer_lent=22)
    script.history(EXAMPLE, b'AXA ', 3000, calls, buffer_lent=19)
    script.history(EXAMPLE, b'AXA ', 3000, calls, numbers_lent=19)
    script.history(EXAMPLE, b'AXA ', 3000, calls, numbers_lent=21, buffer_lent=24)
    script.history_without_open(EXAMPLE, b'NONE', 3000, calls)


# A call whose kind number is none of 0 to 3, with the day of a close that would be
# accepted, first, in the middle and last: nothing is done. Numbers whose low bytes are
# those of a kind are among them. Where only the calls before it are lent, these are made.
def histories_of_no_kind(script):
    day = dates.day_of(2008, 3, 20)
    for kind in (4, 5, 255, 256, 257, 65536, 65539, 2**24 - 1):
        script.history(EXAMPLE, b'AXA ', 2930, [('R', 2940), (NO_KIND, kind, day), ('C', day)])
    script.history(EXAMPLE, b'AXA ', 2930, [(NO_KIND, 4, day)])
    script.history(EXAMPLE, b'AXA ', 2930, [(NO_KIND, 4, day), ('R', 2940)])
    script.history(EXAMPLE, b'AXA ', 2930, [('R', 2940), ('C', day), (NO_KIND, 4, 1, 2, 300)])
    script.history(EXAMPLE, b'AXA ', 2930, [('R', 2940), ('C', day), (NO_KIND, 4, day)], numbers_lent=8)
    script.history_without_open(EXAMPLE, b'NONE', 3000, [('C', day), (NO_KIND, 4, day)])


# ---- Futures of 2005 ----

# 02, note 1, by its own months: only 21 March 2008 is closed. In a cover of 2008
# alone question 16 accepts 20 March and refuses 21 March, which lists March 2009.
def months_of_2005(script):
    day = dates.day_of(2008, 3, 20)
    for number in (ONE_YEAR_2005, THREE_YEARS_2005):
        script.open(number, b'AXA5', first_date(number))
        make(script, (('R', day), ('R', day + 1), ('R', dates.day_of(2008, 7, 19))))
        for date in (first_date(number) + 1, day, day + 1, dates.day_of(2008, 7, 19)):
            script.open(number, b'AXA5', date)
    for date in (*range(day - 2, day + 3), dates.day_of(2008, 7, 17), dates.day_of(2008, 7, 18)):
        script.open(THREE_YEARS_2005, b'FIA5', date)


# Rolls to the end, front months pushed out and many closures of futures of 2005.
def histories_of_2005(script, numbers):
    for number, code, step in ((TWO_YEARS_2005, b'FIA5', 25), (THREE_YEARS_2005, b'AXA5', 30),
                               (SIXTEEN_YEARS_2005, b'VOD5', 160)):
        roll_to_the_end(script, numbers, number, code, step)
    for number, code, date in ((THREE_YEARS_2005, b'AXA5', 2930), (THREE_YEARS_2005, b'FIA5', 2930),
                               (SIXTEEN_YEARS_2005, b'IT05', 30700)):
        push_often(script, number, code, date)
    for code in (b'AXA5', b'FIA5'):
        script.open(ONE_YEAR_2005, code, last_date(ONE_YEAR_2005, code) - 20)
        make(script, push_calls(script.book))
    many_closures(script, numbers, SIXTEEN_YEARS_2005, b'FIA5', 33000, 50)


# 02, note 1: "The due day, cash and group digit of kind 4 are those of a future".
def values_of_2005(script):
    for item in FUTURES_2005:
        script.open(SIXTEEN_YEARS_2005, item.id, 33000)
        due_calls(script)
        month_calls(script)
        tick_calls(script)
        cash_calls(script)


# 02, note 1: "A table of kind 4 owes the same history of numbers as any other."
def all_of_2005(script, numbers):
    months_of_2005(script)
    histories_of_2005(script, numbers)
    for number in (THREE_YEARS_2005, SIXTEEN_YEARS_2005):
        for item in FUTURES_2005:
            mixed_history(script, numbers, number, item.id, first_date(number) + numbers.below(400), 15)
    values_of_2005(script)
    damaged_tables_of_2005(script)
    for number, code, date, length in ((THREE_YEARS_2005, b'AXA5', 2923, 120),
                                       (SIXTEEN_YEARS_2005, b'FIA5', 30700, 256)):
        script.history(number, code, date, calls_of(numbers, number, code, date, length))


# ---- Exchange days without trading ----

# 02, note 4: 21 and 24 March 2008 closed, 24 March in the second map, and the same
# without the map: due days from each day around them, before and after a closure.
def dues_at_easter(script):
    start = dates.day_of(2008, 3, 17)
    for number in (EASTER_SECOND, EASTER_ALONE):
        for code in (b'AXA ', b'AXAF', b'BAY ', b'BP  ', b'ENI ', b'FIAT'):
            script.open(number, code, start)
            for day in range(start, start + 15):
                script.due(day)
            script.close(dates.day_of(2008, 3, 26))
            for day in range(start, start + 15):
                script.due(day)


# 02, note 4: "question 17 reads with exchange days": at the cover's end, where
# the last three Mondays to Fridays are closed and in the second map.
def dues_at_the_end(script):
    end = trading.last_day(calendar_of(YEAR_END_SECOND))
    for code in (b'AXA ', b'BP  ', b'ENI '):
        script.open(YEAR_END_SECOND, code, first_date(YEAR_END_SECOND))
        for day in range(end - 14, end + 2):
            script.due(day)


# 02, note 4: "A closure notice leaves the second map's bit 0"; a day of the second
# map is closed, and no trading day.
def closures_at_easter(script):
    script.open(EASTER_SECOND, b'AXA ', dates.day_of(2008, 3, 17))
    for day in (20, 24, 25, 21, 25):
        script.close(dates.day_of(2008, 3, day))
        script.due(dates.day_of(2008, 3, 19))
    script.roll(dates.day_of(2008, 3, 24))
    script.due(dates.day_of(2008, 3, 24))


# 02, note 4: "Question 5 reads the second map as said"; 6 reads the first alone.
def opens_of_refused_second_maps(script):
    for place, (number, _) in enumerate(refused_second_maps()):
        if script.open(REFUSED_SECOND + place, b'AXA ', 3000) != number:
            raise ValueError(f'file {REFUSED_SECOND + place} is not refused by {number}')


# 02, note 4: "Last trading days and listings don't change", and due days of every
# count of days to settlement, in histories on calendars with second maps.
def all_of_second_maps(script, numbers):
    opens_of_refused_second_maps(script)
    dues_at_easter(script)
    dues_at_the_end(script)
    closures_at_easter(script)
    for number in (SEVEN_YEARS_SECOND, SIXTEEN_YEARS_SECOND):
        for code in openable(number):
            mixed_history(script, numbers, number, code, first_date(number) + numbers.below(400), 10)
            for _ in range(10):
                script.due(script.book.date + numbers.below(60))
    damaged_second_maps(script)
    for number, code, date, length in ((SEVEN_YEARS_SECOND, b'ENEL', 6950, 100),
                                       (SIXTEEN_YEARS_SECOND, b'FIAT', 30700, 200)):
        script.history(number, code, date, calls_of(numbers, number, code, date, length))


# ---- Weekly options ----

# 02, note 3, by its own Fridays: only 21 March 2008 is closed. 28 March, 4, 11 and
# 25 April on 17 March, with 2 May on 29 March, for an Italian group and for
# another. Friday 1 May 2009 closed ends on Thursday 30 April.
def worked_fridays(script):
    for code in (b'AXAW', b'ENIW'):
        script.open(THREE_YEARS_WEEKLY, code, dates.day_of(2008, 3, 17))
        make(script, [('R', dates.day_of(2008, month, day)) for month, day in (
            (3, 21), (3, 28), (3, 29), (3, 31), (4, 12), (4, 18), (4, 19), (6, 30), (6, 30))])
        script.open(THREE_YEARS_WEEKLY, code, dates.day_of(2008, 3, 31))
        script.open(THREE_YEARS_WEEKLY, code, dates.day_of(2009, 4, 20))
        make(script, [(letter, dates.day_of(2009, month, day)) for letter, month, day in (
            ('C', 5, 1), ('C', 5, 8), ('R', 4, 30), ('R', 5, 1), ('C', 5, 7))])
        friday_calls(script)


# 02, note 3: 24, "after 11, in opening kind 5: is the date at least seven days
# after the cover's first day?" The other kinds are not asked.
def opens_in_the_first_week(script):
    for number in (THREE_YEARS_WEEKLY, WEEKLY_2010, FIRST_DAYS_WEEKLY, SIXTEEN_YEARS_WEEKLY):
        start = first_date(number)
        for code in (b'AXAW', b'ENIW', b'AXA ', b'NONE'):
            for date in range(start - 1, start + 9):
                script.open(number, code, date)


# 01, question 16, with Fridays (02, note 3): 2010 ends with a weekly Friday, and 3
# December is the last date with four of them. By an open, by a roll, and by a close
# that pushes 3 December out.
def fridays_at_the_end(script):
    day = dates.day_of(2010, 12, 3)
    for number in (WEEKLY_2010, THREE_YEARS_WEEKLY):
        for code in (b'AXAW', b'ENIW'):
            for date in (day - 1, day, day + 1, day + 28, day + 29):
                script.open(number, code, date)
            script.open(number, code, day - 3)
            make(script, (*push_calls(script.book), ('R', day), ('R', day + 1)))


# 02, note 3: "each taken back to the latest trading day at or before it": the days
# up to Friday 22 August 2008 closed one after the other; 15 refuses the last of the
# week. Then its Thursday alone, and the Monday after it.
def fridays_stepped_back(script):
    friday = dates.day_of(2008, 8, 22)
    for code in (b'AXAW', b'ENIW'):
        script.open(THREE_YEARS_WEEKLY, code, friday - 8)
        for day in range(friday, friday - 5, -1):
            script.close(day)
            script.last_trading_day(friday)
        script.open(THREE_YEARS_WEEKLY, code, friday - 8)
        make(script, (('C', friday - 1), ('C', friday + 3), ('R', friday), ('R', friday + 1)))


# 01, question 18, with Fridays (02, note 3): every day from a week before the front
# Friday to a week after the last one, and the numbers of their months.
def friday_calls(script):
    fridays = [key for key, _, _, _ in script.book.maturities]
    for key in (*range(fridays[0] - 7, fridays[-1] + 8), *map(dates.month_of, fridays), 0, 65535):
        script.last_trading_day(key)


# Rolls to the end, with more than 255 numbers given in 16 years, front Fridays
# pushed out, weeks closed and many closures.
def weekly_histories(script, numbers):
    for number, code, step in ((WEEKLY_2010, b'ITW ', 9), (TWO_YEARS_WEEKLY, b'ENIW', 12),
                               (THREE_YEARS_WEEKLY, b'AXAW', 60), (SIXTEEN_YEARS_WEEKLY, b'BPW ', 40)):
        roll_to_the_end(script, numbers, number, code, step)
    for number, code, date in ((THREE_YEARS_WEEKLY, b'AXAW', 2930), (THREE_YEARS_WEEKLY, b'ENIW', 2990),
                               (TWO_YEARS_WEEKLY, b'BAYW', 2600), (SIXTEEN_YEARS_WEEKLY, b'ENIW', 30700)):
        push_often(script, number, code, date)
    for code in (b'AXAW', b'ENIW'):
        start = opening_date(WEEKLY_2010, code) + 7 * numbers.below(40)
        script.open(WEEKLY_2010, code, start)
        make(script, [('C', day) for day in range(start + 1, start + 15)])
    many_closures(script, numbers, SIXTEEN_YEARS_WEEKLY, b'ITW ', 33000, 50)
    many_closures(script, numbers, THREE_YEARS_WEEKLY, b'ENIW', 2929, 50)


# Due day, listed Fridays, tick and cash of weekly options: the due day is an
# option's, and cash gets 21.
def weekly_values(script):
    for item in WEEKLY:
        script.open(TWO_YEARS_WEEKLY, item.id, 2700)
        end = trading.last_day(script.book.calendar)
        for day in (*range(2697, 2720), *range(end - 7, end + 2)):
            script.due(day)
        friday_calls(script)
        tick_calls(script)
        cash_calls(script)


# 02, note 3: "Weekly tables open, roll and close a day, with numbers, like the
# monthly ones"; "there demand 3 and its book read with Fridays for months".
def all_of_weekly_options(script, numbers):
    for place, (number, _) in enumerate(refused_weekly_files()):
        if script.open(REFUSED_WEEKLY + place, b'AXAW', 3000) != number:
            raise ValueError(f'file {REFUSED_WEEKLY + place} is not refused by {number}')
    worked_fridays(script)
    opens_in_the_first_week(script)
    fridays_at_the_end(script)
    fridays_stepped_back(script)
    weekly_histories(script, numbers)
    for number in (THREE_YEARS_WEEKLY, TWO_YEARS_WEEKLY, SIXTEEN_YEARS_WEEKLY):
        for item in WEEKLY:
            mixed_history(script, numbers, number, item.id, opening_date(number, item.id) + numbers.below(400), 20)
    weekly_values(script)
    damaged_weekly_tables(script)
    for number, code, date, length in ((THREE_YEARS_WEEKLY, b'AXAW', 2929, 120), (TWO_YEARS_WEEKLY, b'ENIW', 2600, 80),
                                       (SIXTEEN_YEARS_WEEKLY, b'BAYW', 30700, 256)):
        script.history(number, code, date, calls_of(numbers, number, code, date, length))


# ---- Exercise entered on a holiday ----

# 02, note 5: "Due now counts from any day in the cover". Only 21 March 2008 is
# closed: from every day around that weekend, and at the cover's ends, where 17 "can
# still refuse" and the days outside get 11; products with 1, 2, 3 and 4 days to
# settlement. The same days on a damaged table.
def dues_from_any_day(script):
    for number, code in ((EXAMPLE, b'AXAF'), (THREE_YEARS_WEEKLY, b'BAYW'), (EXAMPLE, b'AXA '),
                         (THREE_YEARS_WEEKLY, b'BPW ')):
        friday = dates.day_of(2008, 3, 21)
        script.open(number, code, friday - 4)
        first, last = first_date(number), trading.last_day(calendar_of(number))
        days = (*range(friday - 4, friday + 8), *range(first - 1, first + 7), *range(last - 8, last + 2))
        for day in days:
            script.due(day)
        dues_on_unsound_table(script, days)


# 02, note 5: "the first counted day is the first exchange day after it": every day
# of the weeks around days of the second map, from which no count begins on the day
# itself.
def dues_around_second_maps(script):
    for number, code in ((SEVEN_YEARS_SECOND, b'AXAF'), (SEVEN_YEARS_SECOND, b'BAY '),
                         (SIXTEEN_YEARS_SECOND, b'NOK1'), (TWO_YEARS_WEEKLY, b'AXAW')):
        script.open(number, code, opening_date(number, code))
        for marked in sorted(calendar_of(number).exchange)[:40:8]:
            for day in range(marked - 4, marked + 5):
                script.due(day)


# ---- A holiday called off ----

# 02, note 9: "calls on a table, monthly and weekly": reopenings between rolls and
# closures, on every kind, in calendars with second maps and without.
def mixed_reopenings(script, numbers):
    for number in (THREE_YEARS, SIXTEEN_YEARS, SIXTEEN_YEARS_SECOND, TWO_YEARS_WEEKLY):
        for code in openable(number):
            date = opening_date(number, code) + numbers.below(300)
            if date <= last_date(number, code):
                mixed_history(script, numbers, number, code, date, 12, some_calls_and_reopenings)


# 02, note 9: "Histories with reopenings in them are held to the same statement as
# those without".
def whole_reopenings(script, numbers):
    for number, code, date, length in ((EXAMPLE, b'AXA ', 2930, 120), (SEVEN_YEARS, b'ENEL', 6950, 120),
                                       (SIXTEEN_YEARS_SECOND, b'FIAT', 30700, 256),
                                       (SIXTEEN_YEARS_SECOND, b'FIA5', 33000, 120),
                                       (TWO_YEARS_WEEKLY, b'AXAW', 2600, 120),
                                       (SIXTEEN_YEARS_WEEKLY, b'ENIW', 30700, 256)):
        script.history(number, code, date, calls_of(numbers, number, code, date, length, some_calls_and_reopenings))


# Numbers of whole calls, but not of all of them; numbers that are no whole calls; a
# buffer that has no room for the last number; arguments that no two bytes hold, each
# 65,536 more than one that is accepted, which get 11; an open that is refused.
def odd_reopenings(script):
    calls = [(letter, dates.day_of(2008, 3, day)) for letter, day in (
        ('C', 20), ('E', 21), ('E', 20), ('R', 20), ('C', 21), ('E', 21))]
    start = dates.day_of(2008, 3, 17)
    for numbers_lent, buffer_lent in ((20, 24), (20, 20), (16, 23), (4, 4), (0, 0), (22, 24), (23, 24), (1, 4),
                                      (24, 23), (24, 20), (20, 18)):
        script.history(EXAMPLE, b'AXA ', start, calls, numbers_lent, buffer_lent)
    script.history(EXAMPLE, b'AXA ', start, [one for letter, day in calls for one in (
        (letter, day + 65536), (letter, day + 255 * 65536), (letter, day))])
    script.history_without_open(EXAMPLE, b'NONE', start, calls)


# 02, note 9, whole.
def all_of_reopenings(script, numbers):
    reopened_tables(script)
    mixed_reopenings(script, numbers)
    whole_reopenings(script, numbers)
    odd_reopenings(script)


# ---- Splits and reductions ----

# 02, note 11: measures between rolls, closures and reopenings, on every kind; cash after
# each of them. Options get 21.
def mixed_measures(script, numbers):
    for number, code in ((THREE_YEARS, b'VOD '), (THREE_YEARS, b'FIAT'), (THREE_YEARS, b'AXA '),
                         (SIXTEEN_YEARS_SECOND, b'1   '), (SIXTEEN_YEARS_SECOND, b'FIA5'),
                         (SIXTEEN_YEARS_SECOND, b'VOD5'), (THREE_YEARS_SIZES, b'FRA0'), (THREE_YEARS_SIZES, b'FRA4'),
                         (TWO_YEARS_WEEKLY, b'AXAW')):
        script.open(number, code, opening_date(number, code) + numbers.below(200))
        for _ in range(16):
            make(script, some_calls_and_measures(numbers, script.book))
            script.cash(numbers.one_of((1, 3, 99999)), 100, numbers.one_of((0, 100, 101, 125003)))


# 02, note 11: a measure "joins the calls a history may hold".
def whole_measures(script, numbers):
    for number, code, date, length in ((EXAMPLE, b'AXAF', 2930, 120), (THREE_YEARS, b'FIAT', 2930, 120),
                                       (SIXTEEN_YEARS_SECOND, b'FIAT', 30700, 256),
                                       (SIXTEEN_YEARS_SECOND, b'FIA5', 33000, 256),
                                       (THREE_YEARS_SIZES, b'FRA1', 2930, 120), (EXAMPLE, b'AXA ', 2930, 60),
                                       (TWO_YEARS_WEEKLY, b'ENIW', 2600, 60)):
        script.history(number, code, date, calls_of(numbers, number, code, date, length, some_calls_and_measures))


# Numbers of whole calls, but not of all of them; numbers that are no whole calls; a buffer
# without room for the last; p, q and prices that no two bytes hold, each 65,536 more than
# one that is accepted; an open that is refused.
def odd_measures(script):
    start = dates.day_of(2008, 3, 17)
    calls = [('Z', 3, 2, 123400), ('R', start + 1), ('Z', 2, 3, 123400), ('C', start + 3), ('Z', 1, 3, 1)]
    for numbers_lent, buffer_lent in ((20, 20), (16, 20), (4, 4), (12, 15), (18, 20), (20, 19), (3, 20)):
        script.history(EXAMPLE, b'AXAF', start, calls, numbers_lent, buffer_lent)
    script.history(EXAMPLE, b'AXAF', start, [
        ('Z', 65536 + 3, 2, 100), ('Z', 3, 65536 + 2, 100), ('Z', 2**32 - 1, 2**32 - 1, 100), ('Z', 65536, 65536, 100),
        ('Z', 3, 2, 2**32 - 1), ('Z', 3, 2, 65536 + 100), ('Z', 3, 2, 100)])
    script.history_without_open(EXAMPLE, b'NONE', start, calls)


# 02, note 11, whole.
def all_of_measures(script, numbers):
    measured_tables(script)
    mixed_measures(script, numbers)
    whole_measures(script, numbers)
    odd_measures(script)


# ---- What one closure can reach ----

# 02, note 10: the trading days of some weeks after the date closed, each on the same
# table.
def closures_one_by_one(script):
    script.save()
    calendar, date = script.table.calendar, script.table.date
    for day in range(date + 1, date + 50):
        if trading.is_trading_day(calendar, day):
            script.close(day)
            script.restore()


# The date comes to a closed day, with two trading days left to the last trading day
# of the front maturity: these two.
def two_days_left(script):
    last = script.book.maturities[0][1]
    before = trading.latest_trading_day(script.book.calendar, last - 1)
    earlier = trading.latest_trading_day(script.book.calendar, before - 1)
    make(script, (('R', earlier - 1), ('C', earlier), ('R', earlier)))
    return before, last


# "two closures accepted one after the other are accepted in the other order and
# leave the same table, numbers included".
def closures_in_both_orders(script, one, two):
    script.save()
    front = script.table.places[0][0]
    ends = []
    for first, second in ((one, two), (two, one)):
        ends.append((script.close(first), script.close(second), script.table))
        script.restore()
    both = [end for end in ends if end[:2] == (0, 0)]
    if both and ends[0] != ends[1]:
        raise ValueError(f'the closures of {one} and {two} are not the same in both orders')
    if both and ends[0][2].places[0][0] != front:
        script.seen.add(('both orders', script.table.product.kind))


# Both for each kind; of two closures the second takes the front maturity off.
def closures_of_every_kind(script):
    for number, code, date in ((EXAMPLE, b'AXA ', 2940), (EXAMPLE, b'ENI ', 2940), (EXAMPLE, b'AXAF', 2940),
                               (SEVEN_YEARS, b'TIT ', 7050), (SEVEN_YEARS, b'ENEL', 7050),
                               (SEVEN_YEARS, b'DAI ', 7050), (THREE_YEARS_2005, b'FIA5', 2940),
                               (THREE_YEARS_WEEKLY, b'AXAW', 3030), (THREE_YEARS_WEEKLY, b'ENIW', 3030)):
        script.open(number, code, date)
        closures_one_by_one(script)
        script.open(number, code, date)
        before, last = two_days_left(script)
        next_last = script.book.maturities[1][1]
        for one, two in ((before, last), (last, next_last), (before, next_last)):
            closures_in_both_orders(script, one, two)


# ---- The whole script ----

# 01, Questions, and 02, notes 3, 5, 9 and 11: the numbers that each call can give back.
ANSWERS = {
    'O': (0, 1, 2, 3, 4, 5, 6, 7, 8, 9, 11, 16, 24),
    'R': (0, 10, 11, 12, 16),
    'C': (0, 10, 11, 13, 14, 15, 16),
    'E': (0, 10, 11, 13, 26, 27),
    'Z': (0, 10, 19, 21, 28, 29),
    'L': (0, 10, 18),
    'U': (0, 10, 11, 17),
    'T': (0, 10, 19, 20),
    'Q': (0, 10, 19, 20, 21, 22),
}


# Every number of days stepped back: a Friday steps back to Monday at most, an
# Italian Thursday may pass Monday to the Friday before.
STEPS = {'third Friday': (0, 1, 2, 3, 4), 'Italian': (0, 1, 2, 3, 6), 'weekly': (0, 1, 2, 3, 4)}


# What happens on tables of each kind, with an Italian group and with another:
# closures that push the front month or Friday out; reopenings that 27 refuses, accepted
# ones, and of these the ones of a day of the second map and the ones that move the
# front's day and another day later.
EVENTS = ('pushed', 'refused by 27', 'reopened', 'reopened in both maps', 'front later', 'another later')


# 02, note 11: what happens on tables of each kind of future.
SIZES = ('larger', 'smaller', 'same size', 'rounded up', 'rounded down', 'below a share')

# 02, note 11: what 29 is answered no for, and cash with a rest, of either sign, with an
# amount and with an amount of 0.
RANGES = ('size 0', 'size too large', 'price 0', 'price too large')
RESTS = ((False, True), (True, True), (False, False), (True, False))


# What the script must have: every answer of every call, also in whole histories, these
# events, closures in both orders that push the front out, and every number of days
# stepped back.
def wanted():
    answers = {(letter, number) for letter, given in ANSWERS.items() for number in given}
    in_histories = {('history', letter, number) for letter in CALLS for number in ANSWERS[letter]}
    events = {(event, kind, italian) for event in EVENTS for kind in product.KINDS for italian in (False, True)}
    both_orders = {('both orders', kind) for kind in product.KINDS}
    sizes = {(event, kind, italian) for event in SIZES for kind in product.FUTURES for italian in (False, True)}
    ranges = {('29', reason) for reason in RANGES} | {('rest', *signs) for signs in RESTS}
    return (answers | in_histories | events | both_orders | sizes | ranges
            | {('back', back, rule) for rule, steps in STEPS.items() for back in steps})


# The script with all its histories.
@lru_cache(maxsize=1)
def whole_script():
    numbers = Numbers(SEED + 1)
    script = Script(all_files())
    opens_of_refused_files(script)
    opens_of_absent_ids(script)
    opens_at_the_ends(script)
    opens_in_short_covers(script)
    example_history(script)
    pushed_histories(script)
    pushed_at_the_end(script)
    closed_week_at_the_end(script)
    closed_weeks(script, numbers)
    stepped_back(script)
    closure_histories(script, numbers)
    rolls_to_the_end(script, numbers)
    mixed_histories(script, numbers)
    value_calls(script)
    damaged_tables(script)
    date_before_cover(script)
    every_call_on_zeros(script)
    whole_histories(script, numbers)
    odd_histories(script, numbers)
    histories_of_no_kind(script)
    all_of_2005(script, Numbers(SEED + 3))
    all_of_second_maps(script, Numbers(SEED + 5))
    all_of_weekly_options(script, Numbers(SEED + 7))
    dues_from_any_day(script)
    dues_around_second_maps(script)
    all_of_reopenings(script, Numbers(SEED + 9))
    closures_of_every_kind(script)
    all_of_measures(script, Numbers(SEED + 11))
    if wanted() - script.seen:
        raise ValueError(f'the script has no {sorted(wanted() - script.seen)}')
    others = {answer for answer in script.seen - wanted() if answer[0] in (*ANSWERS, 'history')}
    if others:
        raise ValueError(f'no call may answer {sorted(others)}')
    return script


# What the program tables must print.
def lines():
    return whole_script().lines


# The folder's files by name.
def folder():
    files = {file_name(number): file for number, file in enumerate(all_files())}
    files['script.bin'] = b''.join(whole_script().records)
    return files


if __name__ == '__main__':
    sys.exit(stored.command('histories.py', sys.argv[1:], folder))
