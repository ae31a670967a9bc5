"""The master files that both programs judge, each with a name that begins with
the refusal it gets: 'ok', or 'q' and the number of the question.

  python3 -m tests.inputs.cases --list                 index, name, length, refusal
  python3 -m tests.inputs.cases --write FILE           all cases in one file
  python3 -m tests.inputs.cases --example FILE         the example of 788 products
  python3 -m tests.inputs.cases --check CASES EXAMPLE  are the stored files these?
"""

import os
import sys
from dataclasses import replace

from tests import ROOT
from tests.inputs.products import item
from tests.second import dates, master
from tests.second.product import CURRENCIES, SHARE, TICKS
from tests.second.trading import BYTES_PER_YEAR, Calendar

DATA = os.path.join(ROOT, 'tests', 'inputs', 'data')

# The ids that are asked of every accepted file.
IDS = (b'AXA ', b'ALV ', b'A   ', b'AALF', b'ADS ', b'ADSG', b'ZURN', b'ZZZZ', b'0000',
       b'09IM', b'0A73', b'AXA\0', b'axa ', b'    ', bytes(4))


# ---- The files that are damaged ----

# The day numbers of the Mondays to Fridays from one date to another.
def weekdays(first, last):
    return frozenset(day for day in range(dates.day_of(*first), dates.day_of(*last) + 1)
                     if dates.is_weekday(day))


GOOD_FRIDAY = weekdays((2008, 3, 21), (2008, 3, 21))
SIX_PRODUCTS = [item(b'A'), item(b'AXA'), item(b'B', group=b'IT01', kind=0),
                item(b'B1'), item(b'Z'), item(b'ZZZZ', group=b'DE11', kind=3, size=65535 * SHARE)]
SMALL_PRODUCTS = [item(b'A'), item(b'AXA'), item(b'B')]


# Six blocks: calendar blocks 0, 1, 2 and product blocks 3, 4, 5 of two records.
def six(*damages, closed=GOOD_FRIDAY, second=frozenset()):
    return master.build(Calendar(2008, 3, closed, second), SIX_PRODUCTS, 2, damages)


# Two blocks: a year and a product block of three records.
def small(*damages, year=2008, closed=frozenset(), second=frozenset(), products=SMALL_PRODUCTS):
    return master.build(Calendar(year, 1, closed, second), products, 15, damages)


ANY = (('first', 0), ('middle', 2), ('last', 5))
CALENDARS = (('first', 0), ('middle', 1), ('last', 2))
PRODUCTS = (('first', 3), ('middle', 4), ('last', 5))


# A number in base 36 with the digits 0-9 and A-Z, which rise byte by byte.
def base_36(number):
    digits = b'0123456789ABCDEFGHIJKLMNOPQRSTUVWXYZ'
    return bytes(digits[number // 36 ** k % 36] for k in (3, 2, 1, 0))


# Products with rising ids from 0000 to ZZZZ and fields that differ.
def many_products(count):
    codes = [base_36(881 * k) for k in range(count - 1)] + [b'ZZZZ']
    return [item(code, group=b'FR%d%d' % (k % 4 > 0, k % 10), kind=k % 4, size=(1 + 34 * k) * SHARE,
                 tick=TICKS[k % 4], currency=CURRENCIES[k % 5])
            for k, code in enumerate(codes)]


# The file with most years and, with them, most records: 128 blocks.
def largest(*damages):
    closed = frozenset(day for day in range(dates.day_of(2084, 1, 5), dates.DAYS, 11)
                       if dates.is_weekday(day))
    return master.build(Calendar(2084, 16, closed), many_products(1680), 15, damages)


# The 788 products of 2008 with the closures of 2008 to 2015.
def example():
    with open(os.path.join(DATA, 'closures-2000-2099.csv')) as lines:
        calendar = master.calendar_from_csv(lines, 2008, 8)
    with open(os.path.join(DATA, 'products-2008.csv')) as lines:
        return master.build(calendar, master.products_from_csv(lines))


# ---- Accepted files ----

# Question 1: "from 1,024 to 65,536"; question 4: "1 to 16 calendar blocks"; "the
# count of records (1–15)".
def accepted():
    yield 'ok-example', example()
    yield 'ok-2-blocks', small(products=[item(b'AXA')])
    yield 'ok-128-blocks-16-years', largest()
    yield 'ok-128-blocks-1-year', master.build(Calendar(2000, 1, frozenset()), many_products(1905))
    for first_year, years in ((2008, 2), (2008, 3), (2000, 16), (2084, 16)):
        calendar = Calendar(first_year, years, frozenset())
        yield f'ok-{first_year}-{years}-years', master.build(calendar, SMALL_PRODUCTS)
    for year in (2000, 2001, 2098, 2099):
        yield f'ok-{year}', small(year=year)
    for count in (1, 14, 15, 16, 30, 31):
        yield f'ok-{count}-records', small(products=many_products(count))
    yield 'ok-one-record-in-each-block', master.build(
        Calendar(2008, 1, frozenset()), many_products(4), 1)
    yield 'ok-blocks-of-2-15-and-1', blocks_of_sizes(2, 15, 1)
    yield 'ok-six-blocks', six()


# A year, then product blocks with these counts of records.
def blocks_of_sizes(*sizes):
    file = bytearray(master.build(Calendar(2008, 1, frozenset()), []))
    products = many_products(sum(sizes))
    for size in sizes:
        content = b''.join(master.record_of(one) for one in products[:size])
        file += master.block_of(master.PRODUCTS, size, len(file) // master.BLOCK, content)
        del products[:size]
    return bytes(file)


# ---- Questions 1 and 2 ----

# 1: "Is the length a multiple of 512, from 1,024 to 65,536?"
def length_cases():
    for length in (0, 1, 511, 512, 513, 1023, 1025, 1535, 3071, 3073):
        yield f'q1-{length}-bytes', six(('length', length))
    for length in (65537, 66048):
        yield f'q1-{length}-bytes', largest(('length', length))
    yield 'q4-1024-bytes', six(('length', 1024))
    yield 'q3-1024-zeros', bytes(1024)
    yield 'q3-65536-zeros', bytes(65536)
    yield 'q2-1024-times-255', b'\xff' * 1024
    yield 'q1-511-zeros', bytes(511)


# A product block of 15 records whose check is this number, after a year. The
# size of the last record stands in bytes 477 and 478.
def with_check(number, *damages):
    products = many_products(15)
    products[14] = replace(products[14], size=0)
    check = master.check_of(small(products=products)[master.BLOCK:])
    shares = next(shares for shares in range(1, 65536)
                  if (check + 478 * (shares // 256) + 479 * (shares % 256)) % 65521 == number)
    products[14] = replace(products[14], size=shares * SHARE)
    return small(*damages, products=products)


# 2: "Is every check right?"
def check_cases():
    for place, block in ANY:
        yield f'q2-check-of-{place}-block-plus-1', six(('check', block, 1))
        yield f'q2-byte-of-{place}-block', six(('bytes only', block, 300, b'\1'))
    for offset in (0, 15, 509, 510):
        yield f'q2-byte-{offset}', small(('bytes only', 1, offset, b'\x7f'))
    for number in (0, 14):
        yield f'ok-check-{number}', with_check(number)
        yield f'q2-check-{number}-plus-65521', with_check(number, ('check', 1, 65521))
    yield 'q2-bytes-exchanged', small(('bytes only', 1, 16 + 13, b'\x64\0'))
    yield 'q2-last-of-128-blocks', largest(('check', 127, 1))


# ---- Questions 3 and 4 ----

# 3: "Is every header, bytes 0–15, right (year 2000–2099)?"
def header_cases():
    wrong = (('kind-3', 0, b'\3'), ('version-2', 1, b'\2'), ('byte-6', 6, b'\1'),
             ('byte-15', 15, b'\1'))
    for place, block in ANY:
        for name, offset, data in wrong:
            yield f'q3-{name}-of-{place}-block', six(('bytes', block, offset, data))
        index = master.two_bytes(block + 1)
        yield f'q3-index-plus-1-of-{place}-block', six(('bytes', block, 4, index))
    for name, offset, data in (('kind-0', 0, b'\0'), ('version-0', 1, b'\0'),
                               ('index-257', 4, b'\1\1'), ('257-records', 2, b'\1\1')):
        yield f'q3-{name}', small(('bytes', 1, offset, data))
    for place, block in CALENDARS:
        for year in (1999, 2100):
            data = master.two_bytes(year)
            yield f'q3-year-{year}-of-{place}-calendar', six(('bytes', block, 2, data))
    for place, block in PRODUCTS:
        for count in (0, 16):
            data = master.two_bytes(count)
            yield f'q3-{count}-records-in-{place}-products', six(('bytes', block, 2, data))
    sixteenth = master.record_of(item(b'ZZZZ'))[:14]
    yield 'q3-16-records', small(('bytes', 1, 496, sixteenth), ('bytes', 1, 2, b'\0\x10'),
                                 products=many_products(15))
    yield 'q3-last-of-128-blocks', largest(('bytes', 127, 5, b'\x7e'))


# A year's calendar block without closures, for a place in a file.
def calendar_block(year, index):
    return master.block_of(master.CALENDAR, year, index, b'')


# A file from blocks, with the right indices and checks.
def joined(*blocks):
    file = bytearray(b''.join(blocks))
    master.renumber(file)
    return bytes(file)


# Calendar blocks of these years, then a product block.
def with_years(*years):
    blocks = [calendar_block(year, 0) for year in years]
    return joined(*blocks, small()[master.BLOCK:])


# 4: "Do 1 to 16 calendar blocks of consecutive rising years come first, then at
# least one product block and no other kind?"
def order_cases():
    yield 'q4-no-calendar', joined(six()[3 * master.BLOCK:])
    yield 'q4-no-products', joined(six()[:3 * master.BLOCK])
    yield 'q4-16-years-no-products', joined(*(calendar_block(2000 + k, k) for k in range(16)))
    yield 'q4-17-years', with_years(*range(2008, 2025))
    yield 'q4-17-years-to-2099', with_years(*range(2083, 2100))
    for name, years in (('equal', (2008, 2008)), ('falling', (2009, 2008)),
                        ('gap', (2008, 2010)), ('equal-last', (2008, 2009, 2009)),
                        ('gap-last', (2008, 2009, 2011)), ('gap-first', (2007, 2009, 2010)),
                        ('falling-last', (2008, 2009, 2008)), ('all-falling', (2010, 2009, 2008)),
                        ('equal-then-gap', (2008, 2008, 2010)), ('after-2099', (2099, 2000))):
        yield f'q4-years-{name}', with_years(*years)
    yield 'q4-products-first', six(('exchange', 0, 5))
    yield 'q4-calendar-after-products', six(('exchange', 2, 3))
    yield 'q4-calendar-last', six(late_calendar())
    products = small()[master.BLOCK:]
    yield 'q4-calendar-between', joined(calendar_block(2008, 0), products, calendar_block(2009, 0))
    yield 'q4-calendar-17-after-products', joined(
        *(calendar_block(2000 + k, k) for k in range(16)), products, calendar_block(2016, 0))
    yield 'q4-products-twice-around', joined(products, calendar_block(2008, 0), products)


# Damage: the last of six blocks becomes the calendar block of 2011.
def late_calendar():
    return 'bytes', 5, 0, calendar_block(2011, 5)[:master.CHECK]


# ---- Questions 5 and 6 ----

# Damage: a map with only this day of the year, in a calendar block. The first map
# begins at byte 16, the second at byte 62.
def one_bit(block, n, at=16):
    data = bytearray(BYTES_PER_YEAR)
    data[n // 8] = 1 << (7 - n % 8)
    return 'bytes', block, at, bytes(data)


# 5: "Weekend bits, bits after the year's end and bytes 62–509 are zero."
def clean_cases():
    saturdays = {0: 4, 1: 2, 2: 1}
    for place, block in CALENDARS:
        yield f'q5-saturday-in-{place}-calendar', six(one_bit(block, saturdays[block] + 7 * 25))
        yield f'q5-sunday-in-{place}-calendar', six(one_bit(block, saturdays[block] + 1))
        for offset in (62, 509):
            yield (f'q5-byte-{offset}-of-{place}-calendar',
                   six(('bytes', block, offset, b'\1')))
    for year, n in ((2007, 365), (2007, 366), (2007, 367), (2008, 366), (2008, 367),
                    (2099, 365), (2000, 366)):
        yield f'q5-bit-{n}-of-{year}', small(one_bit(0, n), year=year)
    for year, n in ((2000, 0), (2000, 365), (2009, 59), (2020, 59)):
        yield f'q5-weekend-bit-{n}-of-{year}', small(one_bit(0, n), year=year)
    for year, n in ((2000, 2), (2000, 59), (2008, 0), (2008, 59), (2008, 365), (2009, 364),
                    (2099, 0), (2099, 364)):
        yield f'ok-bit-{n}-of-{year}', small(one_bit(0, n), year=year)
    yield 'q5-all-bits', small(('bytes', 0, 16, b'\xff' * BYTES_PER_YEAR))


# Closures of six blocks; 2008 begins with a Tuesday, 2010 ends with a Friday.
CLOSURES = (
    ('q6-week-in-first-year', (2008, 4, 7), (2008, 4, 11)),
    ('q6-week-in-middle-year', (2009, 4, 6), (2009, 4, 10)),
    ('q6-week-in-last-year', (2010, 11, 8), (2010, 11, 12)),
    ('q6-seven-days-to-monday', (2008, 4, 8), (2008, 4, 14)),
    ('ok-six-days-to-sunday', (2008, 4, 8), (2008, 4, 13)),
    ('q6-turn-of-the-year', (2008, 12, 29), (2009, 1, 2)),
    ('q6-seven-days-over-the-turn', (2008, 12, 30), (2009, 1, 5)),
    ('ok-six-days-over-the-turn', (2008, 12, 30), (2009, 1, 4)),
    ('ok-first-six-days', (2008, 1, 1), (2008, 1, 6)),
    ('q6-first-seven-days', (2008, 1, 1), (2008, 1, 7)),
    ('ok-last-four-days', (2010, 12, 28), (2010, 12, 31)),
    ('q6-last-seven-days', (2010, 12, 25), (2010, 12, 31)),
    ('q6-all-days', (2008, 1, 1), (2010, 12, 31)),
)


# 6: "Does every run of seven days in the cover hold a trading day?" Runs that
# the cover cuts shorter than seven days are not asked.
def week_cases():
    for name, first, last in CLOSURES:
        yield name, six(closed=weekdays(first, last))
    yield 'ok-last-days-of-one-year', small(closed=weekdays((2008, 12, 29), (2008, 12, 31)))
    every_second = frozenset(day for day in weekdays((2008, 1, 1), (2010, 12, 31)) if day % 2)
    yield 'ok-every-second-day', six(closed=every_second)


# ---- Questions 7 and 8 ----

# For each field of a record, its place and values just outside its range.
OUTSIDE = (
    ('id', 0, (b'    ', b' A  ', b'A A ', bytes(4), b'AXA\0', b'/   ', b':   ', b'@   ', b'[   ',
               b'a   ', b'AXA@', b'AXA[')),
    ('group', 4, (b'@R11', b'[R11', b'F@11', b'F[11', b'FR/1', b'FR01', b'FR21', b'FR1/', b'FR1:')),
    ('market', 8, (b'@PAR', b'[PAR', b'X@AR', b'X[AR', b'XP@R', b'XP[R', b'XPA@', b'XPA[')),
    ('kind', 12, (b'\0', b'\4', b'\xff')),
    ('size', 13, (b'\0\0',)), ('size', 20, (b'\x27\x10', b'\xff\xff')),
    ('tick', 15, (b'\0\0', b'\0\2', b'\0\4', b'\0\6', b'\0\x09', b'\0\x0b', b'\0\x32', b'\0\x63',
                  b'\0\x65', b'\x64\0', b'\1\x64')),
    ('currency', 17, (b'EUQ', b'EUS', b'CHE', b'CHG', b'USC', b'USE', b'GBO', b'GBQ', b'GBW',
                      b'GBY', b'FUR', b'EVR')),
    ('byte', 22, (b'\1',)), ('byte', 26, (b'\1',)), ('byte', 31, (b'\1',)),
)

# Records with values at the ends of the ranges.
INSIDE = [
    item(b'0', kind=0, group=b'AA00'), item(b'0000', kind=0, group=b'ZZ09'),
    item(b'9', kind=1, group=b'AA10'), item(b'A', kind=2, group=b'ZZ19'),
    item(b'A0', kind=3, market=b'AAAA'), item(b'A9', market=b'ZZZZ'),
    item(b'AXA', size=SHARE), item(b'AZ9Z', size=256 * SHARE), item(b'B', size=65535 * SHARE),
    item(b'B1', tick=1, currency=b'CHF'), item(b'B9', tick=5, currency=b'USD'),
    item(b'Z', tick=10, currency=b'GBP'), item(b'ZZZZ', tick=100, currency=b'GBX'),
]


# 7: "Is every record [..] as stated?" Values in the second of three records.
def field_cases():
    for name, offset, values in OUTSIDE:
        for value in values:
            yield f'q7-{name}-{offset}-{value.hex()}', small(('bytes', 1, 48 + offset, value))
    for digits in (b'FR11', b'FR20'):
        yield f'q7-future-{digits.hex()}', small(products=[item(b'A', group=digits, kind=0)])
    yield 'ok-values-at-the-ends', small(products=INSIDE)


# 7: "Is every record, and all that must be zero in its block, as stated?"
def record_cases():
    for place, block in PRODUCTS:
        yield f'q7-first-record-of-{place}-products', six(('bytes', block, 28, b'\xff'))
        yield f'q7-last-record-of-{place}-products', six(('bytes', block, 60, b'\xff'))
        yield f'q7-unused-record-of-{place}-products', six(('bytes', block, 80, b'\1'))
        yield f'q7-byte-509-of-{place}-products', six(('bytes', block, 509, b'\1'))
    for offset in (495, 496):
        yield f'q7-byte-{offset}', small(('bytes', 1, offset, b'\1'))
    yield 'q7-byte-496-after-15-records', small(('bytes', 1, 496, b'\1'),
                                                products=many_products(15))
    one_more = master.record_of(item(b'C'))
    yield 'q7-record-after-the-count', small(('bytes', 1, 16 + 32 * 3, one_more))
    yield 'q7-record-left-out', small(('bytes', 1, 16 + 32, bytes(32)))
    yield 'q7-last-of-128-blocks', largest(('bytes', 127, 16 + 32 * 14 + 31, b'\1'))


# Changes of ids in six blocks: block, record and the new id. The ids are A and
# AXA, B and B1, Z and ZZZZ.
ID_CHANGES = (
    ('q8-equal-in-first-products', 3, 1, b'A   '), ('q8-falling-in-first-products', 3, 1, b'9   '),
    ('q8-equal-in-middle-products', 4, 1, b'B   '), ('q8-falling-in-last-products', 5, 1, b'Y   '),
    ('q8-equal-over-first-border', 4, 0, b'AXA '), ('q8-falling-over-first-border', 4, 0, b'AX  '),
    ('q8-equal-over-last-border', 5, 0, b'B1  '), ('q8-falling-over-last-border', 5, 0, b'B0  '),
    ('q8-equal-but-not-neighbours', 4, 0, b'A   '),
    ('ok-rising-by-last-byte', 4, 0, b'AXAA'), ('ok-rising-digit-then-letter', 4, 1, b'BA  '),
    ('q8-falling-by-second-byte', 3, 0, b'AY  '), ('q8-falling-by-last-byte', 3, 0, b'AXAA'),
    ('ok-rising-by-third-byte', 3, 0, b'AX9Z'),
)


# 8: "Do the ids strictly rise, byte by byte, over the file?"
def id_cases():
    for name, block, number, code in ID_CHANGES:
        yield name, six(('bytes', block, 16 + 32 * number, code))
    yield 'q8-products-exchanged', six(('exchange', 3, 4))
    yield 'q8-same-block-twice', six(('repeat', 4))
    yield 'q8-last-of-128-blocks', largest(
        ('bytes', 127, 16 + 32 * 14, many_products(1680)[1678].id))


# ---- Several faults in a file ----

# Damage: closures of a calendar block of six blocks.
def closures(block, first, last):
    calendar = Calendar(2008 + block, 1, weekdays(first, last))
    return 'bytes', block, 16, calendar.to_map()[:BYTES_PER_YEAR]


# For each question a damage of six blocks: one in an early block, one in a late
# block. A damage of a lower number is done after those of higher numbers.
EARLY = {
    2: ('check', 0, 1),
    3: ('bytes', 0, 6, b'\1'),
    4: ('bytes', 0, 2, master.two_bytes(2007)),
    5: ('bytes', 0, 62, b'\1'),
    6: closures(0, (2008, 4, 7), (2008, 4, 11)),
    7: ('bytes', 3, 28, b'\4'),
    8: ('bytes', 3, 48, b'A   '),
}
LATE = {
    2: ('check', 5, 1),
    3: ('bytes', 5, 6, b'\1'),
    4: late_calendar(),
    5: ('bytes', 2, 509, b'\1'),
    6: closures(2, (2010, 11, 8), (2010, 11, 12)),
    7: ('bytes', 5, 509, b'\1'),
    8: ('bytes', 5, 16, b'B1  '),
}
LENGTH = ('length', 3073)


# "the number of the first answered no": two faults, the one with the lower number
# in an earlier block and in a later one. Faults of 5 and 6 stand in calendar
# blocks, those of 7 and 8 in product blocks; 1 is of the whole file.
def pair_cases():
    for high in range(2, 9):
        yield f'q1-and-{high}', six(EARLY[high], LENGTH)
        for low in range(2, high):
            yield f'q{low}-early-and-{high}-late', six(LATE[high], EARLY[low])
            if low not in (5, 6) or high not in (7, 8):
                yield f'q{low}-late-and-{high}-early', six(EARLY[high], LATE[low])


# All faults from one number to 8, of early blocks.
def many_fault_cases():
    for low in range(1, 8):
        damages = [EARLY[number] for number in range(8, max(low, 2) - 1, -1)]
        yield f'q{low}-to-8', six(*damages, *([LENGTH] if low == 1 else []))


# ---- Futures of 2005 ----

# 02, note 1: "The [..] group digit of kind 4 [is that] of a future; question 7 now
# admits 4." Kind 6 and the digits 1 and 2 of kind 4 are refused.
def kind_4_cases():
    futures = [item(b'A', group=b'FR01', kind=4), item(b'AXA', group=b'IT01', kind=4),
               item(b'B', group=b'AA00', kind=4), item(b'B1', group=b'ZZ09', kind=4, size=65535 * SHARE)]
    yield 'ok-kind-4', small(products=futures)
    yield 'ok-kind-4-among-others', master.build(
        Calendar(2008, 3, GOOD_FRIDAY), [*SMALL_PRODUCTS, *(replace(one, id=b'Z%c  ' % one.id[0])
                                                             for one in futures[1:3])], 2)
    for place, block in PRODUCTS:
        yield f'ok-kind-4-in-{place}-products', six(('bytes', block, 20, b'FR01'),
                                                    ('bytes', block, 28, b'\4'))
    for group in (b'FR11', b'IT11', b'FR21', b'FR/1', b'FR0:'):
        yield (f'q7-kind-4-group-{group.hex()}',
               small(products=[item(b'A', group=group, kind=4)]))
    for group in (b'FR01', b'FR11'):
        for kind in (6, 255):
            yield (f'q7-kind-{kind}-group-{group.hex()}',
                   small(products=[item(b'A', group=group, kind=kind)]))


# ---- Weekly options ----

# 02, note 3: "under kind 5 and the option groups"; "question 7 now admits 5." The
# digits 0 and 2 of kind 5 are refused, and kinds 6, 7 and 13.
def kind_5_cases():
    options = [item(b'A', kind=5), item(b'AXA', group=b'IT11', kind=5, tick=1),
               item(b'B', group=b'AA10', kind=5), item(b'B1', group=b'ZZ19', kind=5, size=65535 * SHARE)]
    yield 'ok-kind-5', small(products=options)
    yield 'ok-all-kinds', master.build(
        Calendar(2008, 3, GOOD_FRIDAY),
        [item(b'A%d' % kind, group=b'FR01' if kind in (0, 4) else b'FR11', kind=kind)
         for kind in range(6)] + [item(b'AXA', kind=5)], 3)
    for place, block in PRODUCTS:
        yield f'ok-kind-5-in-{place}-products', six(('bytes', block, 20, b'FR11'),
                                                    ('bytes', block, 28, b'\5'))
        yield f'q7-kind-5-in-{place}-products', six(('bytes', block, 20, b'FR01'),
                                                    ('bytes', block, 28, b'\5'))
    for group in (b'FR01', b'IT01', b'FR21', b'FR/1', b'FR1:'):
        yield (f'q7-kind-5-group-{group.hex()}',
               small(products=[item(b'A', group=group, kind=5)]))
    for kind in (6, 7, 13):
        yield f'q7-kind-{kind}-among-kind-5', small(products=[*options, item(b'Z', kind=kind)])


# ---- The second map (02, note 4) ----

EASTER = weekdays((2008, 3, 21), (2008, 3, 24))
EASTER_MONDAY = weekdays((2008, 3, 24), (2008, 3, 24))
SECOND_MAP = 62


# Accepted: "A bit there [..] may be set only where the first map has its bit", some
# of the closed days, all of them, the first and the last day of a year, 16 years.
def accepted_second_maps():
    yield 'ok-second-map-24-march', six(closed=EASTER, second=EASTER_MONDAY)
    yield 'ok-second-map-as-the-first', six(closed=EASTER, second=EASTER)
    for year, n in ((2008, 0), (2008, 365), (2009, 364), (2000, 59), (2099, 364)):
        yield f'ok-second-bit-{n}-of-{year}', small(one_bit(0, n), one_bit(0, n, SECOND_MAP), year=year)
    every_second = frozenset(day for day in weekdays((2008, 1, 1), (2010, 12, 31)) if day % 2)
    some = frozenset(day for day in every_second if day % 3)
    yield 'ok-second-map-of-many-days', six(closed=every_second, second=some)
    sixteen = frozenset(day for day in range(dates.day_of(2084, 1, 5), dates.DAYS, 11)
                        if dates.is_weekday(day))
    yield 'ok-second-maps-of-16-years', master.build(
        Calendar(2084, 16, sixteen, sixteen), many_products(30), 15)
    week = weekdays((2009, 4, 6), (2009, 4, 9))
    yield 'ok-four-days-in-the-second-map', six(closed=week, second=week)


# 5, where the second map has a bit that the first has not: on a trading day, next to
# a closed day, in another year's block, on a weekend, after the year's end.
def second_without_first_cases():
    for place, block in CALENDARS:
        yield f'q5-second-bit-alone-in-{place}-calendar', six(one_bit(block, 100, SECOND_MAP))
    for n in (72, 79, 81, 87, 88):
        yield f'q5-second-bit-{n}-where-80-is-closed', six(one_bit(0, n, SECOND_MAP))
    yield 'q5-second-map-of-another-year', six(one_bit(1, 80, SECOND_MAP))
    for n in (4, 5):
        yield f'q5-second-bit-on-weekend-{n}', small(one_bit(0, n, SECOND_MAP))
        yield (f'q5-both-bits-on-weekend-{n}',
               small(one_bit(0, n), one_bit(0, n, SECOND_MAP)))
    for year, n in ((2007, 365), (2007, 366), (2007, 367), (2008, 366), (2008, 367)):
        yield f'q5-second-bit-{n}-of-{year}', small(one_bit(0, n, SECOND_MAP), year=year)
        yield (f'q5-both-bits-{n}-of-{year}',
               small(one_bit(0, n), one_bit(0, n, SECOND_MAP), year=year))
    yield 'q5-all-second-bits', six(('bytes', 0, SECOND_MAP, b'\xff' * BYTES_PER_YEAR), closed=EASTER)


# 5: "bytes [..]–509 are zero", now after the second map.
def after_second_map_cases():
    for offset in (108, 109, 509):
        yield (f'q5-byte-{offset}-after-the-second-map',
               six(('bytes', 0, offset, b'\1'), closed=EASTER, second=EASTER_MONDAY))
    for place, block in CALENDARS:
        yield f'q5-byte-108-of-{place}-calendar', six(('bytes', block, 108, b'\x80'))


# 6 reads the first map alone; lower numbers come first.
def second_map_order_cases():
    week = weekdays((2008, 4, 7), (2008, 4, 11))
    yield 'q6-week-in-the-second-map', six(closed=week, second=week)
    yield 'q6-week-with-days-in-the-second-map', six(closed=week, second=weekdays((2008, 4, 7), (2008, 4, 8)))
    yield 'q5-second-bit-alone-and-a-week', six(one_bit(2, 100, SECOND_MAP), closed=week)
    yield 'q2-second-map-byte', six(('bytes only', 0, 72, b'\x80'), closed=EASTER)
    yield 'q3-header-and-second-bit', six(one_bit(0, 100, SECOND_MAP), ('bytes', 5, 6, b'\1'))


def second_map_cases():
    yield from accepted_second_maps()
    yield from second_without_first_cases()
    yield from after_second_map_cases()
    yield from second_map_order_cases()


# ---- Loading one block at a time (02, note 8) ----

# What a loader that carries too little, or too much, from block to block gets wrong.
def one_block_cases():
    # a gap in the years that a later block fills, so that their number and the last are right
    for name, years in (('two', (2008, 2010, 2010, 2011)), ('one', (2008, 2010, 2009, 2011))):
        yield f'q4-years-gap-filled-by-{name}', with_years(*years)
    # a year that is not a leap year has no day 365
    yield 'q6-seven-days-over-the-turn-of-2009', six(closed=weekdays((2009, 12, 29), (2010, 1, 4)))
    yield 'ok-six-days-over-the-turn-of-2009', six(closed=weekdays((2009, 12, 30), (2010, 1, 3)))
    # a week of which one day lies in the next year
    yield 'q6-week-with-one-day-in-the-next-year', six(closed=weekdays((2008, 12, 26), (2009, 1, 1)))
    # headers that say more than a block or a century has
    for name, block, number in (('65535-records', 5, 65535), ('year-65535', 0, 65535), ('year-0', 2, 0)):
        yield f'q3-{name}', six(('bytes', block, 2, master.two_bytes(number)))
    # a product block that says it has no record, between ids that fall
    yield 'q3-no-records-and-8', six(('bytes', 5, 16, b'A   '), ('bytes', 4, 2, b'\0\0'))
    # the fault with the lower number in the last block
    yield 'q2-last-and-3-first', six(('bytes', 0, 2, master.two_bytes(1999)), ('check', 5, 1))


# ---- Sizes in ten-thousandths of a share (02, note 11) ----

# Damage: the shares of bytes 13–14 and the ten-thousandths of bytes 20–21 of the second
# of three records.
def size_bytes(shares, part):
    return (('bytes', 1, 48 + 13, master.two_bytes(shares)), ('bytes', 1, 48 + 20, master.two_bytes(part)))


# "record bytes 20–21 hold 0 to 9,999 [..] and question 7 says so; [..] a file's [size] not
# below one share". 10,000 ten-thousandths are no share of their own.
def size_cases():
    for shares, part in ((100, 1), (100, 256), (100, 9999), (1, 0), (1, 1), (33, 3333), (65535, 9999)):
        yield f'ok-size-{shares}-and-{part}', small(*size_bytes(shares, part))
    for shares, part in ((65535, 10000), (0, 1), (0, 5000), (0, 9999), (0, 10000), (0, 65535)):
        yield f'q7-size-{shares}-and-{part}', small(*size_bytes(shares, part))
    yield 'ok-ten-thousandths-in-all-products', six(*(('bytes', block, at, b'\x0d\x05')
                                                      for _, block in PRODUCTS for at in (36, 68)))
    yield 'q7-ten-thousandths-in-last-products', six(('bytes', 5, 68, b'\x27\x10'))
    yield 'q7-ten-thousandths-of-unused-record', six(('bytes', 3, 100, b'\0\1'))
    yield 'q7-ten-thousandths-and-8', small(('bytes', 1, 48, b'A   '), ('bytes', 1, 100, b'\xff\xff'))
    yield 'q6-and-ten-thousandths', small(('bytes', 1, 36, b'\xff\xff'), closed=weekdays((2008, 4, 7), (2008, 4, 11)))


# ---- All cases ----

# Every case in turn: (name, file).
def cases():
    for part in (accepted, length_cases, check_cases, header_cases, order_cases, clean_cases,
                 week_cases, field_cases, record_cases, id_cases, pair_cases, many_fault_cases,
                 kind_4_cases, second_map_cases, kind_5_cases, one_block_cases, size_cases):
        yield from part()


# The refusal that a case's name says.
def refusal_of(name):
    return 0 if name.startswith('ok-') else int(name[1])


# All cases in one file: for each its length in four bytes, big-endian, then the
# case.
def stored():
    return b''.join(len(file).to_bytes(4, 'big') + file for _, file in cases())


# Writes a file.
def write(path, data):
    with open(path, 'wb') as out:
        out.write(data)
    return 0


# Whether a stored file has the bytes that a script writes; says so if not.
def is_stored(path, data, script='tests/inputs/cases.py'):
    held = None
    if os.path.exists(path):
        with open(path, 'rb') as file:
            held = file.read()
    if held != data:
        print(f'{path} is not what {script} writes')
    return held == data


# Index, name, length and refusal of each case.
def list_cases():
    for index, (name, file) in enumerate(cases()):
        print(index, name, len(file), master.load(file)[0])
    return 0


# Does what the command line says.
def main(arguments):
    if arguments == ['--list']:
        return list_cases()
    if len(arguments) == 2 and arguments[0] == '--write':
        return write(arguments[1], stored())
    if len(arguments) == 2 and arguments[0] == '--example':
        return write(arguments[1], example())
    if len(arguments) == 3 and arguments[0] == '--check':
        same = [is_stored(arguments[1], stored()), is_stored(arguments[2], example())]
        return 0 if all(same) else 1
    print(__doc__, file=sys.stderr)
    return 2


if __name__ == '__main__':
    sys.exit(main(sys.argv[1:]))
