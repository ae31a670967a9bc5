"""Rows for the program reconcile: those of a delivery in any order and form, with faults
planted; lines that are none; lines and numbers of rows around the most."""

from tests.inputs.runs.lines import OTHER_DATES, OTHER_IDS, day_word
from tests.inputs.runs.notices import MARK
from tests.second import dates, product
from tests.second.rows import LINE_AT_MOST, ROWS_AT_MOST

HEADINGS = (b'product,number,maturity,last_trading_day,days_back', b'product', b'"product";"maturity"', b'product\tx',
            b'product,' + b'x' * 400, b'product,"a"b', b'number,product', b'Product,maturity', b'products', b' product',
            b'"product', MARK + b'product', b'product,maturity,last_trading_day')

NUMBERS = (b'0', b'1', b'007', b'65535', b'0065535', b'65536', b'99999', b'4294967297', b'18446744073709551617', b'',
           b'x', b'-1', b'1.0', b' 1')

# Lines that are no rows, after the quotes, separators and fields of which one is wrong.
BAD_LINES = (
    b'#', b'# AXA,2008-04,2008-04-18', b',', b',,', b',,,,', b';;', b'"', b'""', b'","', b'"","",""', b'AXA',
    b'AXA,2008-04', b'AXA,2008-04,2008-04-18,', b'AXA,2008-04,2008-04-18,0', b'AXA,2,2008-04,2008-04-18,0,',
    b'AXA,2,2008-04,2008-04-18,0,0', b'AXA 2008-04 2008-04-18', b'AXA, 2008-04,2008-04-18', b' AXA,2008-04,2008-04-18',
    b'AXA ,2008-04,2008-04-18', b'AXA|2008-04|2008-04-18', b"'AXA','2008-04','2008-04-18'", b'"AXA,2008-04,2008-04-18',
    b'AXA",2008-04,2008-04-18', b'"AXA"x,2008-04,2008-04-18', b'"AXA" ,2008-04,2008-04-18', b'A"X"A,2008-04,2008-04-18',
    b'AXA,"2008-04,2008-04-18"', b'"AXA,2008-04",2008-04-18', b'"AXA;2008-04;2008-04-18"', b'AXA,2008-04,"2008-04-18 "',
    b'AXA,2008-04,2008-04-18"', b'""AXA"",2008-04,2008-04-18', b'"""AXA""",2008-04,2008-04-18',
    b'AXA,2008-13,2008-04-18', b'AXA,2008-00,2008-04-18', b'AXA,2100-01,2008-04-18', b'AXA,1999-12,2008-04-18',
    b'AXA,2008-04-18,2008-04-18', b'AXAW,2008-04,2008-04-18', b'AXAW,2008-02-30,2008-04-18', b'ZZ,2008-13,2008-04-18',
    b'ZZ,2008-02-30,2008-04-18', b'product,maturity,last_trading_day', b'\0', b'AXA,2008-04,2008-04-18\0',
    b'AXA,2008-04,2008-04-18\x0c', MARK + b'AXA,2008-04,2008-04-18', b'AXA\0,2008-04,2008-04-18', b'\xff',
    b'AXA,2008-04,2008-04-18\rAXA,2008-05,2008-05-16', *(b'%s,2008-04,2008-04-18' % code for code in OTHER_IDS),
    *(b'AXA,2008-04,%s' % date for date in OTHER_DATES), *(b'AXA,%s,2008-04-18' % date for date in OTHER_DATES),
    *(b'AXAW,%s,2008-04-18' % date for date in OTHER_DATES),
    *(b'AXA,%s,2008-04,2008-04-18,0' % number for number in NUMBERS),
    *(b'AXA,2,2008-04,2008-04-18,%s' % number for number in NUMBERS))


# ---- Faults ----

# A maturity of a kind, near another day or month.
def some_maturity(chance, kind):
    day = chance.randrange(dates.DAYS)
    return day_word(day) if product.is_weekly(kind) else b'%04d-%02d' % dates.year_and_month(dates.month_of(day))


# The date a few days from another, or any.
def other_date(chance, word):
    if chance.random() < 0.3:
        return day_word(chance.randrange(dates.DAYS))
    day = dates.day_of(*map(int, word.split(b'-'))) + chance.choice((-7, -1, 1, 7))
    return day_word(min(max(day, 0), dates.DAYS - 1))


# A row with one field changed: its day, its number, its days back, its maturity, its id.
def changed_row(chance, row, items):
    row = list(row)
    place = chance.choice((3, 3, 3, 1, 1, 4, 4, 2, 0))
    if place == 3:
        row[3] = other_date(chance, row[3])
    elif place == 2:
        row[2] = some_maturity(chance, chance.choice(items).kind)
    elif place == 0:
        row[0] = chance.choice([item.id.rstrip() for item in items] + [b'XXXX', b'0', b'Z9'])
    else:
        row[place] = chance.choice(NUMBERS[:5])
    return row


# Rows with one fault: one left out, one changed, one more, with its own fields or with others.
def with_fault(chance, rows, items):
    if not rows:
        item = chance.choice(items)
        return [[item.id.rstrip(), b'1', some_maturity(chance, item.kind), day_word(chance.randrange(dates.DAYS)),
                 b'0']]
    place = chance.randrange(len(rows))
    other = changed_row(chance, rows[place], items)
    return chance.choice((rows[:place] + rows[place + 1:], rows[:place] + [other] + rows[place + 1:],
                          rows + [rows[place]],
                          [*rows, other], [other, *rows]))


# ---- Forms ----

# A row as a line, with three fields or five.
def line_of(chance, row, plain):
    fields = [row[0], row[2], row[3]] if chance.random() < 0.4 else row
    if plain:
        return b','.join(fields)
    line = b''
    for place, field in enumerate(fields):
        separator = chance.choice((b',', b';', b'\t')) if place else b''
        line += separator + (b'"%s"' % field if chance.random() < 0.3 else field)
    return line + chance.choice((b'', b'', b' ', b'\t', b'\r'))


# The lines of rows; other lines among them, and a heading.
def lines_of(chance, rows):
    plain = chance.random() < 0.3
    lines = [line_of(chance, row, plain) for row in rows]
    for _ in range(0 if plain else chance.choice((0, 0, 1, 3))):
        lines.insert(chance.randint(0, len(lines)), chance.choice(BAD_LINES + (b'', b' ', b'\r')))
    heading = chance.choice((b'', HEADINGS[0], chance.choice(HEADINGS)))
    return ([b''] * chance.randrange(2) + [heading] if heading else []) + lines


# The rows of a delivery, shuffled or not, with some faults, as a text.
def text_of(chance, delivery, items):
    rows = [line.split(b',') for line in delivery.splitlines()[1:]]
    for _ in range(chance.choice((0, 0, 1, 3, 8))):
        rows = with_fault(chance, rows, items)
    if chance.random() < 0.7:
        chance.shuffle(rows)
    mark = MARK if chance.random() < 0.2 else b''
    return mark + b'\n'.join(lines_of(chance, rows)) + chance.choice((b'', b'\n', b'\r\n'))


# All bad lines, and the headings, in some order.
def odd_lines(chance):
    lines = [*BAD_LINES, *HEADINGS, b'', b' ', b'AXA,2008-04,2008-04-18', b'XXXX,2008-04-18,2008-04-18']
    chance.shuffle(lines)
    return b'\n'.join(lines)


# A row with one byte changed, for every byte and some other values.
def every_byte(chance, row):
    return b'\n'.join(row[:place] + bytes([value]) + row[place + 1:]
                      for place in range(len(row)) for value in chance.sample(range(256), 40))


# Rows around 255 bytes, blanks at their ends and the mark not counted.
def long_lines():
    row = b'AXA,%s,2008-04,2008-04-18,0'
    at_most = row % b'2'.rjust(LINE_AT_MOST - len(row) + 2, b'0')
    lines = [at_most, at_most + b' ', at_most + b'\t\r ' * 100, at_most + b' ' * 300 + b'x',
             row % b'2'.rjust(len(at_most) - len(row) + 3, b'0'), b' ' * 255, b' ' * 256, b' ' * 70_000, b'x' * 255,
             b'x' * 256, b'x' * 70_000, at_most[:-1] + b'\r0', b'"' * 255, b',' * 300]
    return [MARK + b'\n'.join(lines), MARK + b'\n'.join(lines[4:]), b'\n'.join(lines[::-1]),
            b'product,' + b'x' * 247 + b'\n' + at_most,
            b'product,' + b'x' * 70_000 + b'\n' + at_most, b'x' * 300 + b'\nproduct\n' + at_most]


# As many rows as there may be, and one more: good, bad, of an id that is not there.
def many(chance):
    row, unknown = b'AXA,2008-04,2008-04-18\n', b'XXXX,1,2008-04-18,2008-04-18,0\n'
    most = b'product\nx\n' + row * (ROWS_AT_MOST - 2) + unknown + chance.choice((row, unknown))
    return [most + end for end in (b'x\n\n# y', row, unknown + b'x\n' + row, b'x\n' + row[:-1])]
