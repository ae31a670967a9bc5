"""Damaged tables: one field of a sound table changed, and every call on it (01,
"A table is sound if"; 02, notes 1 to 5, 9 and 11)."""

from tests.inputs.tables.files import (EASTER_SECOND, EXAMPLE, FIRST_DAYS_WEEKLY, ONE_YEAR, SEVEN_YEARS,
                                       SEVEN_YEARS_SECOND, SIXTEEN_YEARS, SIXTEEN_YEARS_2005, SIXTEEN_YEARS_SECOND,
                                       SIXTEEN_YEARS_WEEKLY, THREE_YEARS_2005, THREE_YEARS_WEEKLY, WEEKLY_2010,
                                       first_date, opening_date)
from tests.inputs.tables.moments import closed_after
from tests.inputs.tables.script import (BACK, CLOSED, CURRENCY, DATE, DAY, EXCHANGE, FIRST_YEAR, GIVEN, GROUP, ID, KEY,
                                        KIND, MARKET, NUMBER, SIZE, TICK, YEARS)
from tests.second import dates, listing, product, table, trading


# 01, The table: "its product fields [..] satisfy [..] 7", each field in turn.
def product_damages(item):
    other = 49 if product.is_future(item.kind) else 48
    return [(ID, 0, 32), (ID, 0, 97), (ID, 1, 0), (ID, 3, 33),
            (GROUP, 0, 97), (GROUP, 1, 48), (GROUP, 2, other), (GROUP, 2, 50), (GROUP, 3, 58),
            (MARKET, 0, 32), (MARKET, 2, 48), (MARKET, 3, 97),
            *((KIND, 0, kind) for kind in product.KINDS if kind != item.kind),
            (SIZE, 0, 0), (SIZE, 0, 655360000), (TICK, 0, 0), (TICK, 0, 2), (TICK, 0, 65535),
            (CURRENCY, 0, 74), (CURRENCY, 1, 69), (CURRENCY, 2, 0)]


# The place in the map of a day's byte and the day's bit in it.
def map_place(calendar, day):
    position = trading.position_of(calendar.first_year, day)
    return position // 8, 1 << (7 - position % 8)


# The place in the map and the bits of the open days, Monday to Friday, of a week
# of the cover that has no third Friday and lies in one byte.
def week_in_one_byte(calendar):
    friday = trading.first_day(calendar)
    while not (dates.weekday(friday) == dates.FRIDAY and map_place(calendar, friday)[1] < 16
               and friday - 4 >= trading.first_day(calendar)
               and listing.third_friday(dates.month_of(friday)) != friday):
        friday += 1
    days = [day for day in range(friday - 4, friday + 1) if trading.is_trading_day(calendar, day)]
    return map_place(calendar, friday)[0], sum(map_place(calendar, day)[1] for day in days)


# 01, The table: its "calendar satisfy questions 5, 6 [..], with 1 to 16 years
# from 2000 to 2099": the cover changed; a weekend bit; a bit after a year's
# end; a byte of a year beyond the cover; a whole week; a last trading day that
# is now closed.
def calendar_damages(now):
    calendar = now.calendar
    first_year, years = calendar.first_year, calendar.years
    saturday = now.date - dates.weekday(now.date) + 5
    damages = [(FIRST_YEAR, 0, first_year + 1), (FIRST_YEAR, 0, first_year - 1), (FIRST_YEAR, 0, 0),
               (FIRST_YEAR, 0, 1999), (FIRST_YEAR, 0, 2100), (FIRST_YEAR, 0, 65535),
               (YEARS, 0, 0), (YEARS, 0, 17), (YEARS, 0, 65535), (YEARS, 0, 1),
               (CLOSED, *map_place(calendar, saturday)), (CLOSED, *map_place(calendar, saturday + 1)),
               (CLOSED, 45, 1), (CLOSED, *week_in_one_byte(calendar)),
               (CLOSED, *map_place(calendar, now.places[1][1]))]
    if years < trading.YEARS_AT_MOST:
        damages += [(CLOSED, trading.BYTES_PER_YEAR * years, 16), (CLOSED, trading.MAP_BYTES - 1, 1)]
    return damages


# 01, The table: "its date is in the cover"; "its months and days are the fresh
# listing [..] and unused places are zero".
def listing_damages(now):
    calendar = now.calendar
    used = len(table.maturities(now))
    key, day, _, _ = now.places[0]
    unused = [((KEY, DAY, NUMBER)[place % 3], place, 1) for place in range(used, table.PLACES)]
    return [(DATE, 0, max(0, trading.first_day(calendar) - 1)), (DATE, 0, trading.last_day(calendar) + 1),
            (DATE, 0, trading.last_day(calendar)), (DATE, 0, 65535), (DATE, 0, day + 1),
            (KEY, 0, key + 1), (KEY, 0, key - 1), (KEY, used - 1, 0),
            (KEY, used - 1, now.places[used - 1][0] + 1), (KEY, 1, 65535),
            (DAY, 0, day - 1), (DAY, 0, day + 1), (DAY, 0, 0), (DAY, used - 1, 65535),
            (DAY, used - 1, now.places[used - 2][1]), *unused]


# 02, note 2: "a sound table has it right": the days stepped back of used places,
# the second of which has stepped back, and of an unused one.
def back_damages(now):
    used = len(table.maturities(now))
    back = now.places[1][2]
    unused = [(BACK, used, 1), (BACK, table.PLACES - 1, 65535)] if used < table.PLACES else []
    return [(BACK, 0, now.places[0][2] + 1), (BACK, 1, 0), (BACK, 1, back - 1), (BACK, 1, back + 1),
            (BACK, used - 1, 65535), *unused]


# 01, The table: "given − listed is [..] at most the number of cover months before
# the front month"; 02, note 3: or of weekly Fridays. The largest count given.
def most_given(now):
    return (len(table.maturities(now))
            + listing.keys_before(now.calendar, now.product.kind, now.places[0][0]))


# 01, The table: "its numbers are distinct, from 1 to the count given; and given
# − listed is at least 0 and at most the number of cover months before the front
# month": doubled, zero, above given; given too small and too large.
def number_damages(now):
    used = len(table.maturities(now))
    return [(NUMBER, 0, now.places[1][3]), (NUMBER, used - 1, now.places[0][3]),
            (NUMBER, 2, now.places[used - 1][3]), (NUMBER, 0, 0), (NUMBER, used - 1, 0),
            (NUMBER, 0, now.given + 1), (NUMBER, used - 1, now.given + 1), (NUMBER, 1, 65535),
            (GIVEN, 0, used - 1), (GIVEN, 0, now.places[used - 1][3] - 1), (GIVEN, 0, 0),
            (GIVEN, 0, most_given(now) + 1), (GIVEN, 0, 65535)]


# A trading day in the distance on which no listed maturity ends and which can be
# closed.
def day_of_no_maturity(now):
    last_days = [day for _, day, _, _ in table.maturities(now)]
    day = last_days[1] + 7
    while not (trading.is_trading_day(now.calendar, day) and day not in last_days
               and trading.every_week_trades_without(now.calendar, day)):
        day += 1
    return day


# Changes that leave a table sound: another id, market, size and tick, such a day
# closed, the largest count given.
def harmless_changes(now):
    return [(ID, 0, 90), (ID, 0, 48), (MARKET, 3, 65), (SIZE, 0, 1), (SIZE, 0, 9999), (SIZE, 0, 655359999),
            (TICK, 0, 5), (CLOSED, *map_place(now.calendar, day_of_no_maturity(now))), (GIVEN, 0, most_given(now))]


# The first day after a sound table's date that it can close.
def day_to_close(now):
    day = now.date + 1
    while table.close(now, day)[0]:
        day += 1
    return day


# The first day after a sound table's date that it can reopen; the date, which 13
# refuses, where there is none.
def day_to_reopen(now):
    return next((day for day in closed_after(now.calendar, now.date) if table.reopen(now, day)[0] == 0), now.date)


# Every call, with arguments that the saved table would accept: the refusals.
def every_call(script):
    now = script.saved
    return {script.roll(now.date), script.close(day_to_close(now)),
            script.last_trading_day(now.places[0][0]), script.due(now.places[0][1]),
            script.tick(100), script.cash(1, 100, 200), script.reopen(day_to_reopen(now)),
            script.measure(1, 1, 100)}


# 01, Questions: "the number of the first answered no": 10 also where later
# questions would be answered no.
def every_call_refused_twice(script):
    refusals = {script.roll(65535), script.roll(0), script.close(65535), script.close(0),
                script.last_trading_day(65535), script.due(65535), script.due(5),
                script.tick(0), script.tick(7), script.cash(0, 0, 0), script.cash(0, 100, 100),
                script.reopen(65535), script.reopen(0), script.reopen(5),
                script.measure(0, 0, 0), script.measure(1, 0, 100), script.measure(1000, 1, 999999999)}
    if refusals != {10}:
        raise ValueError('a damaged table is refused by another question than 10')


# Every call on a damaged table: 01, question 10, "With it: table calls return
# the same table and counts 0 and 0".
def try_damage(script, *changes):
    script.restore()
    for change in changes:
        script.damage(*change)
    if every_call(script) != {10}:
        raise ValueError(f'{changes} leave the table sound')


# Every damage of a table.
def damages_of(now):
    return (*product_damages(now.product), *calendar_damages(now),
            *listing_damages(now), *back_damages(now), *number_damages(now))


# The saved table damaged in each way.
def try_damages(script):
    for change in damages_of(script.saved):
        try_damage(script, change)
    every_call_refused_twice(script)


# The saved table with each of the changes that leave it sound.
def try_harmless_changes(script):
    leave_sound(script, harmless_changes(script.saved))


# The saved table with each of some changes, after which it must be sound.
def leave_sound(script, changes):
    for change in changes:
        script.restore()
        script.damage(*change)
        if 10 in every_call(script):
            raise ValueError(f'{change} does not leave the table sound')


# Tables of each kind after a roll and a closure.
BASES = ((EXAMPLE, b'AXA ', 3000, 100), (EXAMPLE, b'AXAF', 2930, 45), (SEVEN_YEARS, b'TIT ', 6980, 200),
         (SEVEN_YEARS, b'ENEL', 6980, 150), (SIXTEEN_YEARS, b'FIAT', 31000, 3100))


# The damages and the harmless changes of each of these tables.
def damaged_tables(script):
    damage_each(script, BASES)


# The same for some tables.
def damage_each(script, bases):
    for number, code, date, later in bases:
        script.open(number, code, date)
        script.roll(date + later)
        script.close(script.book.maturities[1][1])
        script.save()
        try_damages(script)
        try_harmless_changes(script)


# 01, The table: "its date is in the cover": the day before the cover, on which
# the listing would be that of the first day.
def date_before_cover(script):
    for name in (b'AXA ', b'AXAF', b'ENI '):
        start = first_date(EXAMPLE)
        script.open(EXAMPLE, name, start)
        script.save()
        try_damage(script, (DATE, 0, start - 1))


# 02, note 1: tables of futures of 2005 after a roll and a closure.
BASES_2005 = ((THREE_YEARS_2005, b'AXA5', 2923, 100), (SIXTEEN_YEARS_2005, b'FIA5', 31000, 3100))

# 02, note 1: dates on which the front month is not the first one whose last trading
# day is not before the date, or not the first of the cover's seven names.
BOUNDS_2005 = ((2008, 1, 2), (2008, 7, 19), (2009, 9, 19), (2010, 1, 1))


# The largest count given on each of some dates, one less, and one more. Of futures of
# 2005 all cover months before the front month count, not only those of the seven names.
def given_at_bounds(script, number, code, bounds):
    for date in bounds:
        script.open(number, code, dates.day_of(*date))
        script.save()
        most = most_given(script.saved)
        leave_sound(script, [(GIVEN, 0, most - 1), (GIVEN, 0, most)])
        try_damage(script, (GIVEN, 0, most + 1))


# The damages and the harmless changes of tables of futures of 2005.
def damaged_tables_of_2005(script):
    damage_each(script, BASES_2005)
    given_at_bounds(script, THREE_YEARS_2005, b'AXA5', BOUNDS_2005)


# 02, note 4: a bit of the second map "may be set only where the first map has its
# bit": a bit on a trading day, on a Saturday, after the year's end, in a year beyond
# the cover; the first map's bit cleared under a bit of the second.
def second_map_damages(now):
    calendar = now.calendar
    damages = [(EXCHANGE, *map_place(calendar, now.places[1][1] - 7)),
               (EXCHANGE, *map_place(calendar, now.date - dates.weekday(now.date) + 5)),
               (EXCHANGE, 45, 1), (CLOSED, *map_place(calendar, max(calendar.exchange)))]
    if calendar.years < trading.YEARS_AT_MOST:
        damages += [(EXCHANGE, trading.BYTES_PER_YEAR * calendar.years, 16),
                    (EXCHANGE, trading.MAP_BYTES - 1, 1)]
    return damages


# Changes that leave a table sound: a bit of the second map cleared, one set on a
# closed day that had none.
def harmless_second_maps(now):
    calendar = now.calendar
    return [(EXCHANGE, *map_place(calendar, max(calendar.exchange))),
            (EXCHANGE, *map_place(calendar, max(calendar.closed - calendar.exchange)))]


# 02, note 4: tables with a second map after a roll and a closure.
BASES_SECOND = ((EASTER_SECOND, b'AXA ', 2930, 20), (SEVEN_YEARS_SECOND, b'DAI ', 6980, 200),
                (SIXTEEN_YEARS_SECOND, b'FIA5', 31000, 3100))


# The damages and the harmless changes of their second maps.
def damaged_second_maps(script):
    for number, code, date, later in BASES_SECOND:
        script.open(number, code, date)
        script.roll(date + later)
        script.close(script.book.maturities[1][1])
        script.save()
        for change in second_map_damages(script.saved):
            try_damage(script, change)
        every_call_refused_twice(script)
        leave_sound(script, harmless_second_maps(script.saved))


# 02, note 3: tables of weekly options after a roll and a closure.
BASES_WEEKLY = ((THREE_YEARS_WEEKLY, b'AXAW', 2930, 400), (SIXTEEN_YEARS_WEEKLY, b'ENIW', 31000, 3100))

# 02, note 3: dates with one weekly Friday of the cover before the front one and with
# more; on the last, at the end of 16 years, more than 255.
BOUNDS_WEEKLY = ((2008, 1, 11), (2008, 3, 17), (2008, 4, 12), (2010, 12, 1))
BOUNDS_OF_16_YEARS = ((2084, 1, 8), (2099, 11, 16))


# 02, note 3, "the Fridays that are not the third Friday of their month": a table of
# 7 April 2008, which lists 11 and 25 April, 2 and 9 May, with a Friday exchanged
# for a third Friday, for a Friday not yet listed, for its month's number; two
# Fridays exchanged for one another; with its Fridays named by the numbers of their
# months.
def other_fridays(script):
    script.open(THREE_YEARS_WEEKLY, b'AXAW', dates.day_of(2008, 4, 7))
    script.save()
    fridays = [place[0] for place in table.maturities(script.saved)]
    third = listing.third_friday(dates.month_of(fridays[0]))
    for place, friday in ((1, third), (3, listing.third_friday(dates.month_of(fridays[3]))),
                          (3, fridays[3] + 14), (0, fridays[0] - 7)):
        try_damage(script, (KEY, place, friday))
        try_damage(script, (KEY, place, friday), (DAY, place, friday))
    for place, friday in enumerate(fridays):
        try_damage(script, (KEY, place, dates.month_of(friday)))
    try_damage(script, *((KEY, place, dates.month_of(friday)) for place, friday in enumerate(fridays)))
    try_damage(script, (KEY, 1, fridays[2]), (DAY, 1, fridays[2]), (KEY, 2, fridays[1]), (DAY, 2, fridays[1]))


# 02, note 3: "and the date passes 24": the dates of the cover's first seven days,
# some of which have the listing of the first date that passes.
def dates_of_the_first_week(script):
    for number in (THREE_YEARS_WEEKLY, WEEKLY_2010, FIRST_DAYS_WEEKLY):
        for code in (b'AXAW', b'ENIW'):
            date = opening_date(number, code)
            script.open(number, code, date)
            script.save()
            for earlier in range(date - 1, date - 9, -1):
                try_damage(script, (DATE, 0, earlier))


# The damages and the harmless changes of weekly tables.
def damaged_weekly_tables(script):
    damage_each(script, BASES_WEEKLY)
    given_at_bounds(script, THREE_YEARS_WEEKLY, b'ENIW', BOUNDS_WEEKLY)
    given_at_bounds(script, SIXTEEN_YEARS_WEEKLY, b'AXAW', BOUNDS_OF_16_YEARS)
    other_fridays(script)
    dates_of_the_first_week(script)


# 02, note 5, on an unsound table: due from some days gets 10, whatever day it is.
def dues_on_unsound_table(script, days):
    script.damage(GIVEN, 0, 0)
    if {script.due(day) for day in days} != {10}:
        raise ValueError('due on a damaged table is refused by another question than 10')


# The table of zeros that a refused open gives back is not sound.
def every_call_on_zeros(script):
    script.open(ONE_YEAR, b'NONE', 4400)
    every_call_refused_twice(script)
