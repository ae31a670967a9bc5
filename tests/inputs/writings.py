"""Drafts, calendars and lists of records that both programs write a master file
from, each with a name that begins with the refusal it gets: 'ok', or 'q' and the
number of the question; and accepted files whose contents are written again.

  python3 -m tests.inputs.writings --list            index, name, room, refusal, length
  python3 -m tests.inputs.writings --write FOLDER    drafts and files
  python3 -m tests.inputs.writings --check FOLDER    are the stored ones these?
"""

import os
import sys
from dataclasses import replace
from itertools import combinations

from tests.inputs import cases
from tests.inputs.cases import many_products, weekdays
from tests.inputs.products import item
from tests.second import dates, master, trading, writing
from tests.second.trading import Calendar

# The buffer of the program under test, and the most that a case may have of it.
BUFFER = 66048
FILE_MOST = master.FILE_AT_MOST
GOOD_FRIDAY = cases.GOOD_FRIDAY
EASTER = cases.EASTER
EASTER_MONDAY = cases.EASTER_MONDAY


# The bytes of the buffer before a file is written into it.
def buffer_before(room):
    return bytes((7 * i + 3) % 256 for i in range(room))


# A draft from 2008 on, one record where no products are given.
def draft(first_year=2008, years=3, closed=GOOD_FRIDAY, second=frozenset(), products=None):
    products = [item(b'AXA')] if products is None else products
    return writing.draft_of(Calendar(first_year, years, closed, second), products)


# The draft with another cover over the same maps and records.
def covered(first_year, years, **changes):
    return replace(draft(closed=frozenset()), first_year=first_year, years=years, **changes)


# A map with bits of year k set.
def marked(data, k, *days):
    changed = bytearray(data)
    for n in days:
        position = trading.BITS_PER_YEAR * k + n
        changed[position // 8] |= 1 << (7 - position % 8)
    return bytes(changed)


# The draft with other bytes in one record.
def with_record(one, k, offset, data):
    records = bytearray(one.records)
    records[master.RECORD * k + offset:master.RECORD * k + offset + len(data)] = data
    return replace(one, records=bytes(records))


# ---- Accepted drafts, and buffers ----

# "full product blocks, the last one perhaps short".
def counts():
    for count in (1, 14, 15, 16, 29, 30, 31, 45, 46):
        yield f'ok-{count}-records', draft(products=many_products(count)), BUFFER


def covers():
    for first_year, years in ((2000, 1), (2099, 1), (2000, 16), (2084, 16), (2007, 2)):
        yield f'ok-{first_year}-{years}-years', covered(first_year, years), BUFFER


# Both maps, in each of the years; what stands after the last year is no day, and
# the file does not have it.
def maps():
    yield 'ok-second-map', draft(closed=EASTER, second=EASTER_MONDAY), BUFFER
    every_year = frozenset(dates.day_of(year, 5, 5) for year in range(2008, 2024)
                           if dates.is_weekday(dates.day_of(year, 5, 5)))
    yield 'ok-both-maps-of-16-years', draft(years=16, closed=every_year, second=every_year), BUFFER
    last = weekdays((2010, 12, 31), (2010, 12, 31))
    yield 'ok-last-day', draft(closed=last, second=last), BUFFER
    one = draft()
    yield 'ok-bits-after-the-last-year', replace(one, closed=marked(one.closed, 3, 0, 5, 367)), BUFFER
    yield 'ok-second-bits-after-it', replace(one, exchange=marked(one.exchange, 15, 0, 367)), BUFFER


# 25: "is the buffer long enough for the file, and the file at most 65,536
# bytes?"
def rooms():
    for name, one, length in (('4-blocks', draft(), 2048),
                              ('16-records', draft(products=many_products(16)), 2560)):
        for room, number in ((length - 1, 25), (length, 0), (length + 1, 0), (0, 25), (512, 25)):
            yield f'{"q25" if number else "ok"}-{name}-in-{room}-bytes', one, room


def largest():
    sixteen = draft(2084, 16, frozenset(), products=many_products(1680))
    one_year = draft(2000, 1, frozenset(), products=many_products(1905))
    for name, one in (('16-years', sixteen), ('1-year', one_year)):
        more = replace(one, records=one.records[:-32] + master.record_of(item(b'ZZZY'))
                       + one.records[-32:])
        yield f'ok-128-blocks-{name}', one, FILE_MOST
        yield f'ok-128-blocks-{name}-and-a-byte', one, FILE_MOST + 1
        yield f'q25-128-blocks-{name}-without-a-byte', one, FILE_MOST - 1
        yield f'q25-129-blocks-{name}', more, BUFFER


def accepted():
    for part in (counts, covers, maps, rooms, largest):
        yield from part()


# ---- Questions 3 to 8 alone ----

# 3: a year outside 2000–2099, also with too many years; "no record at all gets 4
# unless 3 comes first".
def year_cases():
    for first_year, years in ((1999, 1), (1999, 3), (2100, 1), (2099, 2), (2090, 16), (2090, 17),
                              (2084, 17), (0, 1), (65535, 1), (65535, 65535), (2000, 65535),
                              (2000, 101)):
        yield f'q3-{first_year}-{years}-years', covered(first_year, years), BUFFER
    yield 'q3-1999-and-no-record', covered(1999, 1, records=b''), BUFFER


def order_cases():
    for first_year, years in ((2000, 17), (2008, 0), (1999, 0), (0, 0), (65535, 0), (2000, 100)):
        yield f'q4-{first_year}-{years}-years', covered(first_year, years), BUFFER
    yield 'q4-no-record', covered(2008, 3, records=b''), BUFFER
    yield 'q4-no-record-and-no-year', covered(2008, 0, records=b''), 0


def clean_cases():
    one = draft()
    for k in (0, 2):
        for n in (366, 367):
            yield f'q5-bit-{n}-of-year-{k}', replace(one, closed=marked(one.closed, k, n)), BUFFER
    yield 'q5-bit-365-of-2009', replace(one, closed=marked(one.closed, 1, 365)), BUFFER
    yield 'q5-saturday', replace(one, closed=marked(one.closed, 0, 4)), BUFFER
    yield 'q5-second-without-first', replace(one, exchange=marked(one.exchange, 0, 81)), BUFFER
    both = replace(one, closed=marked(one.closed, 0, 4), exchange=marked(one.exchange, 0, 4))
    yield 'q5-saturday-in-both-maps', both, BUFFER


def week_cases():
    week = weekdays((2008, 4, 7), (2008, 4, 11))
    yield 'q6-a-week', draft(closed=week), BUFFER
    yield 'q6-a-week-in-both-maps', draft(closed=week, second=week), BUFFER
    yield 'q6-over-the-year-end', draft(closed=weekdays((2008, 12, 29), (2009, 1, 2))), BUFFER
    four = weekdays((2008, 4, 7), (2008, 4, 10))
    yield 'ok-four-days', draft(closed=four), BUFFER


WRONG_BYTES = (('id', 0, b'a'), ('id-space', 0, b' '), ('group', 4, b'1'), ('digit', 6, b'0'),
               ('market', 8, b'1'), ('kind', 12, b'\xff'), ('size-0', 13, b'\0\0'),
               ('tick-2', 15, b'\0\2'), ('currency', 17, b'XXX'), ('byte-22', 22, b'\1'),
               ('byte-31', 31, b'\1'))


# 7: wrong bytes, in the first record, the last of a block, the first of the next
# and the last; a list that ends within a record.
def record_cases():
    one = draft(products=many_products(31))
    for name, offset, data in WRONG_BYTES:
        yield f'q7-{name}', with_record(draft(), 0, offset, data), BUFFER
    for k in (0, 14, 15, 30):
        yield f'q7-byte-31-of-record-{k}', with_record(one, k, 31, b'\1'), BUFFER
    for length in (1, 31, 33, 479, 481, 511, 991):
        yield f'q7-{length}-bytes', replace(one, records=one.records[:length]), BUFFER


# 02, note 11: sizes in ten-thousandths of a share. A table's product whose size fell below
# a share has no record that question 7 accepts.
def size_cases():
    for size in (10000, 10001, 333333, 1000000, 655350000, 655359999):
        yield f'ok-size-{size}', draft(products=[item(b'A', size=size), item(b'AXA')]), BUFFER
    for size in (0, 1, 5000, 9999):
        yield f'q7-size-{size}', draft(products=[item(b'A', size=size), item(b'AXA')]), BUFFER
    for part in (10000, 65535):
        yield f'q7-ten-thousandths-{part}', with_record(draft(), 0, 20, master.two_bytes(part)), BUFFER
    many = [item(one.id, size=10000 + 9999 * k) for k, one in enumerate(many_products(31))]
    yield 'ok-31-sizes', draft(products=many), BUFFER


# 8, within a block and over the end of one.
def id_cases():
    for k in (0, 13, 14, 29):
        products = many_products(31)
        products[k], products[k + 1] = products[k + 1], products[k]
        yield f'q8-records-{k}-and-{k + 1}-exchanged', draft(products=products), BUFFER
        products = many_products(31)
        products[k + 1] = replace(products[k + 1], id=products[k].id)
        yield f'q8-record-{k}-twice', draft(products=products), BUFFER
    yield 'q8-last-id-first', draft(products=[many_products(17)[-1]] + many_products(17)[:-1]), BUFFER


def alone():
    for part in (year_cases, order_cases, clean_cases, week_cases, record_cases, id_cases, size_cases):
        yield from part()


# ---- Two faults ----

# A fault of each question, done to a draft of two records and its room.
FAULTS = {
    3: lambda one, room: (replace(one, first_year=2098), room),
    4: lambda one, room: (replace(one, years=17), room),
    5: lambda one, room: (replace(one, exchange=marked(one.exchange, 2, 367)), room),
    6: lambda one, room: (replace(one, closed=marked(one.closed, 0, *range(6, 11))), room),
    7: lambda one, room: (with_record(one, 1, 12, b'\xff'), room),
    8: lambda one, room: (with_record(one, 0, 0, b'Z'), room),
    25: lambda one, room: (one, 2047),
}


# The lower number comes first; 25 comes after the others.
def pairs():
    start = draft(closed=frozenset(), products=[item(b'A'), item(b'AXA')])
    for first, second in combinations(FAULTS, 2):
        one, room = FAULTS[second](*FAULTS[first](start, BUFFER))
        yield f'q{first}-and-{second}', one, room
    one, room = start, BUFFER
    for number in sorted(FAULTS, reverse=True):
        one, room = FAULTS[number](one, room)
        yield f'q{number}-and-all-after-it', one, room


# ---- All drafts, and the files ----

# Every draft in turn: (name, draft, room).
def drafts():
    for part in (accepted, alone, pairs):
        yield from part()


# The accepted files of tests/inputs/cases.py that are not the largest, with full product
# blocks and with others.
def files():
    for name, file in cases.cases():
        if name.startswith('ok-') and len(file) < FILE_MOST:
            yield name, file


# The refusal that a draft's name says.
def refusal_of(name):
    return 0 if name.startswith('ok-') else int(name[1:].split('-')[0])


# A draft: first year and years in two bytes each, room and length of the records
# in four, the two maps, the records.
def stored_draft(one, room):
    return (one.first_year.to_bytes(2, 'big') + one.years.to_bytes(2, 'big')
            + room.to_bytes(4, 'big') + len(one.records).to_bytes(4, 'big')
            + one.closed + one.exchange + one.records)


# What is stored: (name, bytes). Each of the files comes after its length in four
# bytes.
def stored():
    yield 'drafts', b''.join(stored_draft(one, room) for _, one, room in drafts())
    yield 'files', b''.join(len(file).to_bytes(4, 'big') + file for _, file in files())


# Index, name, room, refusal and length of each draft.
def list_drafts():
    for index, (name, one, room) in enumerate(drafts()):
        print(index, name, room, *writing.write(one, buffer_before(room))[:2])
    return 0


# Does what the command line says.
def main(arguments):
    if arguments == ['--list']:
        return list_drafts()
    if len(arguments) == 2 and arguments[0] == '--write':
        for name, data in stored():
            cases.write(os.path.join(arguments[1], name), data)
        return 0
    if len(arguments) == 2 and arguments[0] == '--check':
        same = [cases.is_stored(os.path.join(arguments[1], name), data, 'tests/inputs/writings.py')
                for name, data in stored()]
        return 0 if all(same) else 1
    print(__doc__, file=sys.stderr)
    return 2


if __name__ == '__main__':
    sys.exit(main(sys.argv[1:]))
