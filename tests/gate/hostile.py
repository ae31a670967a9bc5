"""Hostile input for the module scullpouch for Python: objects that measure themselves
otherwise than their bytes are, texts, numbers and sizes that do not fit.

python3 -m tests.gate.hostile NAME makes one attempt, in a process of its own, since a fault
may end it: where all is answered as it should be, it prints nothing and its status is 0.
The module is found as any is, by PYTHONPATH. What is expected stands here, or is what the
second program says.
"""

import os
import sys
from array import array
from datetime import date, datetime
from decimal import Decimal

import scullpouch

from tests import ROOT
from tests.inputs.runs import files
from tests.second import dates, deliver, generated, master, notices, reconcile, table

DATE = dates.day_of(2008, 3, 20)
TABLE = 1624
MAP = 736
LARGEST = 65536


def read(*path):
    with open(os.path.join(ROOT, *path), 'rb') as file:
        return file.read()


FILE = read('examples', 'master.bin')


# What a call gives: its value, the number of its refusal in a tuple, or the name of its error.
def came(call, *arguments):
    try:
        return call(*arguments)
    except scullpouch.Refused as refused:
        return ('refused', refused.number)
    except Exception as error:
        return type(error).__name__


def expect(found, expected, what=''):
    if found != expected:
        raise SystemExit(f'{what}: {found!r} where {expected!r} is right')


# ---- Objects that lie ----

# Bytes that say they are longer than they are.
class Longer(bytes):
    def __len__(self):
        return LARGEST


# Bytes that say they are fewer.
class Shorter(bytes):
    def __len__(self):
        return 512


# A bytearray that says what it is the first time, and that it has room for every file from then on.
class Growing(bytearray):
    asked = 0

    def __len__(self):
        self.asked += 1
        return super().__len__() if self.asked == 1 else LARGEST


# A number that says it lies between any two.
class Between(int):
    def __ge__(self, _):
        return True

    def __lt__(self, _):
        return True

    __le__ = __gt__ = __ge__


# A date whose year would be cut to 2008.
class Late(date):
    year = 2008 + 65536


# ---- Attempts ----

# An id that cannot be encoded, or that no record can have: 1 to 8 first, then 9, before the date is asked.
def ids():
    spoilt = FILE[:-1] + bytes([FILE[-1] ^ 1])
    for text in ('ŻYW', 'Ω', '\ud800', '\U0001d11e', 'ÉTÉ', 'A\0', 'A?', '', ' AXA', 'AXAAX', 'ŻŻŻŻŻ'):
        for file in (FILE, spoilt, FILE[:-1], b''):
            for day in (DATE, 0):
                refusal = table.open_table(file, b'\xff' * 4, day)[0]
                expect(came(scullpouch.open, file, text, day), ('refused', refusal), (text, len(file), day))
        expect(came(scullpouch.Master(FILE).open, text, DATE), ('refused', 9), text)
    expect(came(scullpouch.open, FILE, b'AXA', DATE), 'TypeError')


# Maps and tables of so many items that have more bytes, and of so many bytes in fewer items.
def items():
    calendar = scullpouch.make(7, 2008, 1)
    record = master.record_of(files.all_products()[0])
    right = scullpouch.write(calendar, record)
    for field in ('closed', 'exchange'):
        held = getattr(calendar, field)
        for data in (array('H', bytes(2 * MAP)), array('Q', bytes(8 * MAP)), bytes(MAP - 1), bytes(MAP + 1), b''):
            expect(came(scullpouch.write, calendar._replace(**{field: data}), record), 'ValueError', (field, data))
        spaced = memoryview(bytes(byte for one in held for byte in (one, 255)))[::2]
        for data in (array('H', held), memoryview(held).cast('B', (16, 46)), bytearray(held), spaced):
            expect(scullpouch.write(calendar._replace(**{field: data}), record), right, (field, data))
    stored = bytes(scullpouch.open(FILE, 'AXA', DATE))
    for data in (array('H', bytes(2 * TABLE)), bytes(TABLE - 1), bytes(TABLE + 1), b''):
        expect(came(scullpouch.Table.from_bytes, data), 'ValueError', data)
    for data in (array('H', stored), bytearray(stored)):
        expect(bytes(scullpouch.Table.from_bytes(data)), stored)
    expect(came(scullpouch.Table.from_bytes, 'A' * TABLE), 'TypeError')


# Counts that do not fit 16 bits, or are not two.
def counts():
    stored = bytes(TABLE)
    for moved in ((65536, 0), (0, 65536), (65539, 1), (-1, 0), (0, -1), (1,), (1, 2, 3), ()):
        expect(came(scullpouch.Table.from_bytes, stored, moved), 'ValueError', moved)
    expect(scullpouch.Table.from_bytes(stored, (65535, 3)).moved, (65535, 3))


# Numbers that slip between comparisons, and numbers that are none.
def numbers():
    for number in (Between(DATE + 65536), Between(-1), 65536, -1):
        expect(came(scullpouch.open, FILE, 'AXA', number), 'ValueError', int(number))
        expect(came(scullpouch.open(FILE, 'AXA', DATE).judge, [number]), 'ValueError', int(number))
    for number in (float(DATE), str(DATE), None):
        expect(came(scullpouch.open, FILE, 'AXA', number), 'TypeError', number)


# Files, blocks, records, maps and tables that say they are longer or fewer than they are.
def lengths():
    years, records = master.load(FILE)[1:]
    calendar = scullpouch.make(7, 2008, 1)
    record = master.record_of(files.all_products()[0])
    right = scullpouch.write(calendar, record)
    stored = bytes(scullpouch.open(FILE, 'AXA', DATE))
    for lying in (Longer, Shorter):
        expect(came(scullpouch.load, lying(FILE)), (years, records), lying)
        expect(came(scullpouch.load, lying(FILE[:511])), ('refused', 1), lying)
        expect(bytes(scullpouch.open(lying(FILE), 'AXA', DATE)), stored, lying)
        expect(bytes(scullpouch.Master(lying(FILE)).open('AXA', DATE)), stored, lying)
        expect(came(scullpouch.Intake(2).take, lying(FILE[:511])), ('refused', 1), lying)
        expect(came(scullpouch.Intake(2).take, lying(FILE[:512])), None, lying)
        expect(came(scullpouch.write, calendar, lying(record)), right, lying)
        expect(came(scullpouch.write, calendar._replace(closed=lying(calendar.closed)), record), right, lying)
        expect(bytes(scullpouch.Table.from_bytes(lying(stored))), stored, lying)
        for data in (lying(TABLE - 1), lying(TABLE + 1)):
            expect(came(scullpouch.Table.from_bytes, data), 'ValueError', lying)


# A buffer that says it has more room than it has; the file has 65,536 bytes.
def room():
    calendar = scullpouch.make(7, 2000, 16)
    records = b''.join(map(master.record_of, files.all_products()[:1680]))
    expect(len(scullpouch.write(calendar, records)), LARGEST)
    for _ in range(100):
        buffer = Growing(b'\xa5' * 512)
        expect(came(scullpouch.write_into, buffer, calendar, records), ('refused', 25))
        expect(bytes(memoryview(buffer)), b'\xa5' * 512)
    wide = array('H', bytes(LARGEST))
    expect(came(scullpouch.write_into, wide, calendar, records), LARGEST)
    expect(wide.tobytes(), scullpouch.write(calendar, records))
    expect(came(scullpouch.write_into, bytes(LARGEST), calendar, records), 'TypeError')
    expect(came(scullpouch.write_into, memoryview(bytearray(2 * LARGEST))[::2], calendar, records), 'TypeError')


# A file that was judged stays as it was then, whatever becomes of the caller's.
def changes():
    right = bytes(scullpouch.open(FILE, 'AXA', DATE))
    file = bytearray(FILE)
    judged = scullpouch.Master(file)
    file[:] = bytes(len(file))
    expect(bytes(judged.open('AXA', DATE)), right)
    del file[512:]
    expect(bytes(judged.open('AXA', DATE)), right)


# A bytearray is the caller's own again while an error is still at hand.
def locks():
    calendar = scullpouch.make(7, 2008, 1)
    record = master.record_of(files.all_products()[0])
    for held, records, error in (
            (calendar._replace(years=65536), record, ValueError), (calendar._replace(closed=b''), record, ValueError),
            (calendar, 'A' * 32, TypeError), (calendar._replace(exchange=None), record, TypeError),
            (calendar._replace(years=0), record, scullpouch.Refused), (calendar, record[:31], scullpouch.Refused),
            (None, record, TypeError)):
        buffer = bytearray(LARGEST)
        try:
            scullpouch.write_into(buffer, held, records)
        except error as raised:
            buffer += b'one more'
            expect(type(raised), error)
        expect(bytes(buffer), bytes(LARGEST) + b'one more', error)


# What is said of a list, in an `if`: a no that names key 0, January 2000, is a no.
def verdicts():
    held = scullpouch.open(FILE, 'AXA', DATE)
    fresh = [number for one in held.maturities for number in (one.key, one.day)]
    for numbers, same, key in ((fresh, True, None), ([0, 0, *fresh], False, 0), ([0], False, 0),
                               (fresh[2:], False, fresh[0]), ([*fresh, *fresh[-2:]], False, fresh[-2])):
        verdict = held.judge(numbers)
        expect((bool(verdict), verdict.same, verdict.key), (same, same, key), numbers)


# Days that are marked after the cover's last year: write accepts them, and they are not in the file.
def marks():
    record = master.record_of(files.all_products()[0])
    for years in (1, 2, 15, 16, 17, 65535):
        _, made = generated.make(7, 2000, 16)
        whole = scullpouch.Calendar(2000, years, made.to_map(), bytes(MAP))
        cut = min(46 * years, MAP)
        expect(whole.marked_after_cover(), any(whole.closed[cut:]), years)
        kept = whole._replace(closed=whole.closed[:cut].ljust(MAP, b'\0'))
        expect(kept.marked_after_cover(), False, years)
        expect(came(scullpouch.write, whole, record), came(scullpouch.write, kept, record), years)
        last = bytearray(MAP)
        last[-1] = 1
        expect(kept._replace(exchange=last).marked_after_cover(), years < 16, years)


# Notices and rows of every size, texts that say they are longer or fewer than they are, and ids that no record can have.
def deliveries():
    file, said, given = (read('examples', 'morning', name) for name in ('master.bin', 'notices.txt', 'wrong.csv'))
    judged, held = scullpouch.Master(file), scullpouch.Notices(said)
    right = held.differences(judged, given)
    expect(right.text.encode(), reconcile.reconcile(file, said, given)[0])
    for lying in (Longer, Shorter, bytearray):
        expect(scullpouch.Notices(lying(said)).rows(judged).encode(), deliver.deliver(file, said)[0], lying)
        expect(held.differences(judged, lying(given)), right, lying)
    for text in (b'', b'\n', b'\xef\xbb\xbf', b'\xff', bytes(65536), bytes(65537), said + b'#' * 1_000_000, said * 3,
                 said + b'\nM AXA 3 2'):
        expect(number_of_bad(text), notices.read(text)[0], text[-20:])
    row = b'AXA,2008-04,2008-04-18\n'
    for text in (b'', b'\n', b'\xef\xbb\xbf', b'\xef\xbb\xbfXXXX,2008-04,2008-04-18', b'A' * 1_000_000,
                 bytes(range(256)) * 40, row * 65536, row * 65537):
        expect(held.differences(judged, text).text.encode(), reconcile.reconcile(file, said, text)[0], text[-20:])
    for text in ('ŻYW', '\ud800', '', ' AXA', 'AXAAX'):
        expect(came(held.table, judged, text), ('refused', 9), text)
    for place in (-1, 2**64):
        expect(came(scullpouch.product_at, file, place), 'ValueError', place)
    expect(came(scullpouch.product_at, file, 2**64 - 1), ('refused', 9))


# A date is its day wherever a day is taken, and is given back; a time of a day is no day, nor is a date the key of a month,
# and one of another century is refused.
def days():
    day, next_day = date(2008, 3, 20), date(2008, 3, 21)
    judged = scullpouch.Master(FILE)
    held, other = judged.open('AXA', day), judged.open('AXA', DATE)
    expect(bytes(held), bytes(scullpouch.open(FILE, 'AXA', day)))
    for name in ('close', 'roll', 'reopen', 'due'):
        expect(came(getattr(held, name), next_day), came(getattr(other, name), DATE + 1), name)
        expect(came(getattr(held, name), date(1999, 12, 31)), ('refused', 23), name)
        expect(came(getattr(held, name), datetime(2008, 3, 24)), 'TypeError', name)
        expect(came(getattr(held, name), Late(2008, 3, 24)), 'ValueError', name)
    expect((scullpouch.date(day), scullpouch.as_date(DATE), scullpouch.day_text(day)), ((2008, 3, 20), day, '2008-03-20'))
    expect(came(scullpouch.as_date, 36525), ('refused', 23))
    expect([one.date for one in held.maturities], [date(*dates.date_of(one.day)) for one in held.maturities])
    fresh = [number for one in held.maturities for number in (one.key, one.date)]
    expect(bool(held.judge(fresh)), True)
    for call, key in ((held.last_trading_day, day), (held.judge, [day])):
        expect(came(call, key), 'TypeError')
    weekly = scullpouch.open(read('examples', 'morning', 'master.bin'), 'AXAW', date(2008, 4, 17))
    friday = weekly.maturities[0]
    expect(weekly.last_trading_day(scullpouch.as_date(friday.key)), (friday.day, friday.back))
    calendar = judged.calendar
    expect(calendar.with_closed(day).closed, calendar.with_closed(DATE).closed)
    expect((calendar.trades(day), calendar.with_closed(day).trades(day)), (True, False))


# A decimal is its ten-thousandths wherever a price is taken; one that has more digits, is negative or none is not.
def decimals():
    future = next(one for one in scullpouch.Master(FILE).products if one.kind == 0).id
    held = scullpouch.open(FILE, future, DATE)
    _, negative, amount, rest = table.cash(table.open_table(FILE, future.encode().ljust(4), DATE)[1], 3, 125000, 123400)
    cash = held.cash(3, Decimal('12.50'), Decimal('12.34'))
    expect(cash, (negative, amount, rest))
    expect(cash.decimal, -Decimal(amount) / 10_000 - Decimal(rest) / 100_000_000)
    expect(held.copy().measure(3, 2, Decimal('12.34')), held.copy().measure(3, 2, 123400))
    for text in ('12.34', '1234e-2', '12.340000', '12.34' + '0' * 9_000, '0.00e5', '-0'):
        expect(came(held.tick, Decimal(text)), came(held.tick, int(10_000 * Decimal(text))), text)
    for text in ('12.34567', '1e-99999999', '-0.0001', '-1', 'NaN', 'sNaN', 'Infinity', '1e99999999', '429496.7296',
                 '12.' + '3' * 9_000):
        expect(came(held.tick, Decimal(text)), 'ValueError', text)
    for price in (12.34, '12.34', None):
        expect(came(held.tick, price), 'TypeError', price)
    expect([str(scullpouch.as_decimal(number)) for number in (0, 1, 123400)], ['0.0000', '0.0001', '12.3400'])


# What an error says begins with the argument's name; what a value is shows what it stands for.
def names():
    judged = scullpouch.Master(FILE)
    held, calendar = judged.open('AXA', DATE), judged.calendar
    for name, call, *arguments in (
            ('date', held.roll, 70000), ('date', scullpouch.open, FILE, 'AXA', '2008-03-20'), ('day', held.close, -1),
            ('day', held.due, datetime(2008, 3, 20)), ('p', held.measure, -1, 1, 1), ('q', held.measure, 1, 1.5, 1),
            ('price', held.measure, 1, 1, 2**32), ('price', held.tick, Decimal('1.23456')), ('key', held.last_trading_day, None),
            ('contracts', held.cash, -1, 1, 1), ('agreed', held.cash, 1, '1', 1), ('final_price', held.cash, 1, 1, -1),
            ('numbers[1]', held.judge, [1, 65536]), ('file', scullpouch.load, 'text'), ('id', judged.open, b'AXA', DATE),
            ('closed', calendar._replace(closed=b'').trades, DATE), ('years', calendar._replace(years=-1).trades, DATE),
            ('records', scullpouch.write, calendar, None), ('calendar', scullpouch.write, None, b''),
            ('buffer', scullpouch.write_into, b'', calendar, b''), ('data', scullpouch.Table.from_bytes, b''),
            ('moved', scullpouch.Table.from_bytes, bytes(TABLE), (1,)), ('left', scullpouch.Table.from_bytes, bytes(TABLE), (1, -1)),
            ('block', scullpouch.Intake(2).take, None), ('blocks', scullpouch.Intake, 65536), ('b', scullpouch.Queue().handle, -1),
            ('table', scullpouch.Queue().join, 65536), ('text', scullpouch.Notices, 'O 2008-03-20'), ('seed', scullpouch.make, -1, 1, 1),
            ('master', scullpouch.Notices(b'O 2008-03-20').rows, None), ('group', held.product._replace(group='FR010').record)):
        try:
            call(*arguments)
        except (TypeError, ValueError) as error:
            expect(str(error).split(':')[0], name, error)
        else:
            expect('accepted', 'an error', name)
    expect(repr(held), "<Table of 'AXA' on 2008-03-20: 12 maturities, 2008-03 to 2012-12>")
    years, records = master.load(FILE)[1:]
    expect(repr(judged), f'<Master of {years} years from {calendar.first_year}, {records} products>')
    expect(f'{len(master.contents(FILE)[0].closed)} days closed' in repr(calendar) and len(repr(calendar)) < 120, True)


# The first bad line of a text of notices, 0 where there is none.
def number_of_bad(text):
    try:
        scullpouch.Notices(text)
    except scullpouch.BadLine as bad:
        return bad.number
    return 0


if __name__ == '__main__':
    globals()[sys.argv[1]]()
