"""Reopenings by their own days: tables on which 26 and 27 decide, listed days that
move later, days of the second map, the cover's end (02, note 9)."""

from tests.inputs.tables.files import (EASTER_SECOND, EXAMPLE, SEVEN_YEARS, SIXTEEN_YEARS, SIXTEEN_YEARS_2005,
                                       THREE_YEARS_2005, THREE_YEARS_WEEKLY, TWO_YEARS_WEEKLY, last_date)
from tests.inputs.tables.moments import push_and_reopen_calls
from tests.inputs.tables.script import make
from tests.second import dates, listing, product, trading

# Tables of every kind but 2 and 3, of an Italian group and of another, in 2008 to 2010
# with only 21 March 2008 closed.
BASES = ((EXAMPLE, b'AXA '), (EXAMPLE, b'ENI '), (EXAMPLE, b'AXAF'), (THREE_YEARS_2005, b'AXA5'),
         (THREE_YEARS_2005, b'FIA5'), (THREE_YEARS_WEEKLY, b'AXAW'), (THREE_YEARS_WEEKLY, b'ENIW'))


# Calls on days of March 2008.
def in_march(*calls):
    return [(letter, dates.day_of(2008, 3, day)) for letter, day in calls]


# 20 March closed too, so that March ends on the 19th. On 17 March both days reopen, in
# either order, and neither the 17th, Saturday the 22nd nor Tuesday the 25th does. On
# the 20th March has ended, and 21 March would bring it back; an Italian month's anchor
# is the 20th, and a weekly option has none there.
def march_reopened(script):
    start = dates.day_of(2008, 3, 17)
    for number, code in BASES:
        for calls in ((('E', 17), ('E', 16), ('E', 22), ('E', 23), ('E', 25), ('E', 21), ('E', 21), ('E', 20)),
                      (('E', 20), ('E', 20), ('E', 21), ('R', 21), ('E', 21)),
                      (('R', 20), ('E', 21), ('E', 20), ('E', 22), ('E', 24), ('R', 21), ('E', 21))):
            script.open(number, code, start)
            make(script, in_march(('C', 20), *calls))
        for day in (0, trading.first_day(script.book.calendar) - 1, trading.last_day(script.book.calendar) + 1, 65535):
            script.reopen(day)


# A day and the one before it closed, the date rolled to the latter, and the day
# reopened: 27 refuses it where a listed maturity's anchor is that day, and only there.
# 17 and 18 January are no anchors of a future of 2005, third Fridays none of a weekly
# option, 25 January only of that.
def anchors_reopened(script):
    for number, code in BASES:
        for month, day in ((1, 17), (1, 18), (1, 25), (4, 17), (4, 18), (4, 25)):
            anchor = dates.day_of(2008, month, day)
            script.open(number, code, anchor - 7)
            make(script, (('C', anchor - 1), ('C', anchor), ('R', anchor - 1), ('E', anchor), ('E', anchor - 1),
                          ('R', anchor + 1), ('E', anchor)))


# The front month or Friday pushed out and the day reopened, several times, for the
# kinds with the longer terms too.
def pushed_and_reopened(script):
    for number, code, date in ((SEVEN_YEARS, b'TIT ', 6980), (SEVEN_YEARS, b'BAY ', 6980),
                               (SEVEN_YEARS, b'ENEL', 6980), (SEVEN_YEARS, b'DAI ', 6980),
                               (SIXTEEN_YEARS, b'FIAT', 30700), (SIXTEEN_YEARS_2005, b'FIA5', 30700),
                               (TWO_YEARS_WEEKLY, b'BAYW', 2600), (TWO_YEARS_WEEKLY, b'ENIW', 2600)):
        script.open(number, code, date)
        for _ in range(4):
            make(script, [*push_and_reopen_calls(script.book), ('R', script.book.maturities[0][1] + 1)])


# A maturity of a table and its anchor: the third one that is listed.
def third_anchor(script):
    key = script.book.maturities[2][0]
    return key, listing.anchor(script.book.group, script.book.kind, key)


# The trading days of the week up to an anchor, but the earliest, closed one after the
# other, and reopened from the earliest on, from the latest on, and in another order:
# the listed day moves later, "up to its anchor", or stays.
def moved_later(script):
    for number, code in BASES:
        script.open(number, code, dates.day_of(2008, 6, 2))
        key, anchor = third_anchor(script)
        days = range(anchor - 3, anchor + 1) if product.is_italian(script.book.group) else range(anchor - 4, anchor)
        for order in (days, days[::-1], (days[1], days[3], days[0], days[2])):
            for letter in ('C', 'E'):
                for day in order:
                    make(script, [(letter, day)])
                    script.last_trading_day(key)


# 01, question 15, after a reopening: a week closed up to its last day, which is refused;
# one of its days reopened, and the last day closed.
def week_reopened(script):
    for number, code in BASES:
        monday = dates.day_of(2008, 5, 5)
        script.open(number, code, monday - 10)
        make(script, [*(('C', day) for day in range(monday, monday + 5)), ('E', monday + 1), ('C', monday + 4),
                      ('E', monday + 5), ('C', monday + 1), ('E', monday + 1), ('R', monday + 3),
                      ('E', monday + 4), ('E', monday + 2)])


# Due days from each day of the weeks around Easter 2008.
def dues_at_easter(script):
    for day in range(dates.day_of(2008, 3, 17), dates.day_of(2008, 3, 29)):
        script.due(day)


# "clears the day in both maps": 24 March 2008, in both maps, and 21 March, in the first
# alone, reopened and closed again; the second map's bit stays 0. The due days after
# each call, and a roll, which would be refused by 10 if a bit of the second map stood
# alone.
def both_maps_reopened(script):
    for code in (b'AXA ', b'AXAF', b'BAY ', b'BP  ', b'ENI ', b'FIAT'):
        script.open(EASTER_SECOND, code, dates.day_of(2008, 3, 17))
        for call in in_march(('E', 24), ('R', 18), ('C', 24), ('E', 21), ('E', 24), ('C', 21), ('R', 21)):
            make(script, [call])
            dues_at_easter(script)


# At the cover's end, where no month or Friday can enter: the front's days closed and
# reopened. 16 is not asked.
def reopened_at_the_end(script):
    for number, code in (*BASES, (SEVEN_YEARS, b'TIT '), (SEVEN_YEARS, b'DAI ')):
        script.open(number, code, last_date(number, code) - 10)
        last = script.book.maturities[0][1]
        before = trading.latest_trading_day(script.book.calendar, last - 1)
        make(script, [('C', last), ('C', before), ('E', last), ('E', before), ('C', before), ('C', last),
                      ('E', before), ('R', last_date(number, code)), ('E', last)])


# A closure and its reopening leave the table as it was where the front stays: every day
# of two months.
def closed_and_reopened(script):
    for number, code in ((EXAMPLE, b'AXA '), (EXAMPLE, b'ENI '), (THREE_YEARS_WEEKLY, b'AXAW')):
        script.open(number, code, dates.day_of(2008, 4, 7))
        for day in range(script.book.date, script.book.date + 60):
            old = script.table
            if script.close(day) == 0 and script.reopen(day) == 0 and script.table != old:
                raise ValueError(f'reopening {day} does not undo its closure')


# All of these.
def reopened_tables(script):
    march_reopened(script)
    anchors_reopened(script)
    pushed_and_reopened(script)
    moved_later(script)
    week_reopened(script)
    both_maps_reopened(script)
    reopened_at_the_end(script)
    closed_and_reopened(script)
