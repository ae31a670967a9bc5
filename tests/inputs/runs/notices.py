"""Texts of notices for the programs deliver, reconcile and query: histories that fit the
moments of one product and are made on all, in every form that a line may have; lines that
are none; texts of all lengths around the longest."""

from tests.inputs.runs.lines import OTHER_DATES, OTHER_IDS, OTHER_LINES, day_word, mutated
from tests.inputs.tables.moments import some_calls_and_measures
from tests.inputs.tables.script import book_call
from tests.second import dates, listing
from tests.second.book import Book
from tests.second.notices import TEXT_AT_MOST

MARK = b'\xef\xbb\xbf'
BLANKS = (b'', b'', b'', b' ', b'\t', b'\r', b' \t\r ')
SAYING_NOTHING = (b'', b' ', b'\t\r', b'#', b'# notice 12 of 14 March', b'# O 2008-03-20', b'#\xff\0', b'##',
                  b'#' * 300)

# A measure's words that are refused, and words that are none.
LARGE = (b'1001', b'65537', b'4294967298', b'18446744073709551618', b'9' * 40, b'9' * 2000)
PRICES = (b'0', b'0.0000', b'0.0001', b'99999.9999', b'100000', b'100000.0000', b'1844674407370955.1617',
          b'9' * 300 + b'.9999')
OTHER_PRICES = (b'', b'1.', b'.5000', b'1.5', b'1.50000', b'1,5000', b'-1', b'+1', b'1e3', b'1.0000.', b'1.5 00', b'x',
                b'1.x000', b'1:0000', b'0x1', b'1.000\0')
OTHER_NUMBERS = (b'', b'x', b'-1', b'+1', b'1.0', b'1.0000', b'0x1', b'1 1', b'\xb2', b'1_0', b':', b'/')


# ---- Lines ----

# A price of 1/10,000 of the currency as a word, with zeros in front at times, and without
# its point where it is whole.
def price_word(chance, price):
    whole, parts = divmod(price, 10_000)
    word = chance.choice((b'', b'', b'', b'0', b'000')) + b'%d' % whole
    return word if not parts and chance.random() < 0.5 else word + b'.%04d' % parts


def number_word(chance, number):
    return chance.choice((b'', b'', b'', b'0', b'0000000')) + b'%d' % number


# A line of a day; one that is none of 2000-2099 becomes the nearest that is.
def day_line(letter, day):
    return letter.encode() + b' ' + day_word(min(max(day, 0), dates.DAYS - 1))


def measure_line(chance, code, p, q, price):
    return b' '.join((b'M', code.rstrip(), number_word(chance, p), number_word(chance, q), price_word(chance, price)))


# The line of a call of tables/moments.py on a product.
def line_of(chance, code, call):
    if call[0] == 'Z':
        return measure_line(chance, code, *call[1:])
    return day_line(*call)


# A measure on any product, or on an id that is not in the file, refused by its numbers or not.
def some_measure(chance, items):
    code = chance.choice([item.id for item in items] * 2 + [b'NONE', b'0   ', b'ZZZ '])
    p, q = chance.choice(((b'3', b'2'), (b'1', b'3'), (chance.choice(LARGE), b'1'), (b'1', chance.choice(LARGE)),
                          (b'0', b'1'), (b'1', b'0')))
    return b' '.join((b'M', code.rstrip(), p, q, chance.choice(PRICES + (b'12.3400', b'12', b'7'))))


# A line that is no notice, or no second opening.
def other_line(chance, lines):
    return chance.choice((
        chance.choice(OTHER_LINES), chance.choice((b'R ', b'C ', b'E ', b'O ')) + chance.choice(OTHER_DATES),
        b'M %s 3 2 1' % chance.choice(OTHER_IDS), b'M AXA 3 2 ' + chance.choice(OTHER_PRICES),
        b'M AXA %s 2 1' % chance.choice(OTHER_NUMBERS), b'M AXA 3 %s 1' % chance.choice(OTHER_NUMBERS),
        mutated(chance, chance.choice(lines)), mutated(chance, chance.choice(lines)), lines[0], MARK + lines[0],
        b' ' + chance.choice(lines), chance.choice(lines) + b' #', chance.choice(lines).replace(b' ', b'  ', 1)))


# All lines of such forms, one of each.
def every_other_line():
    yield from OTHER_LINES
    yield from (letter + date for letter in (b'R ', b'E ') for date in OTHER_DATES)
    yield from (b'M %s 3 2 1' % code for code in OTHER_IDS)
    yield from (b'M AXA 3 2 ' + price for price in OTHER_PRICES + PRICES)
    yield from (line % number for line in (b'M AXA %s 2 1', b'M AXA 3 %s 1') for number in OTHER_NUMBERS + LARGE)


# ---- Texts ----

# The products that can be opened on a date.
def openable(calendar, items, date):
    return [item for item in items if listing.passes_24(calendar, item.kind, date)
            and listing.listing_in_cover(calendar, item.group, item.kind, date)]


# An opening and calls that fit the moments of one product, which it is made on with all.
def history(chance, calendar, items, date, count):
    lines = [day_line('O', date)]
    opening = openable(calendar, items, date)
    if not opening:
        return lines + [day_line(chance.choice('RCE'), date + chance.randint(-9, 40)) for _ in range(count)]
    item = chance.choice(opening)
    book = Book(item.kind, item.group, item.size, calendar, date)
    while len(lines) <= count:
        for call in some_calls_and_measures(chance, book):
            lines.append(line_of(chance, item.id, call))
            book_call(book, *call)
        if chance.random() < 0.2:
            lines.append(some_measure(chance, items))
    return lines


# Lines in some form: other lines that say nothing between them, blanks at their ends, the
# mark, the last one with a line feed or without one.
def dressed(chance, lines):
    plain = chance.random() < 0.3
    text = []
    for line in lines:
        while not plain and chance.random() < 0.15:
            text.append(chance.choice(SAYING_NOTHING))
        text.append(line + (b'' if plain else chance.choice(BLANKS)))
    mark = MARK if chance.random() < 0.2 else b''
    return mark + b'\n'.join(text) + chance.choice((b'', b'\n', b'\n', b'\n\n'))


# Lines with some that are none among them.
def with_others(chance, lines, count):
    lines = list(lines)
    for _ in range(count):
        place = chance.randint(0, len(lines))
        lines[place:place + chance.choice((0, 0, 1))] = [other_line(chance, lines or [b'R 2008-03-21'])]
    return lines


# Texts around the longest, each after an opening: the last byte in a comment, in an empty
# line, in a notice, after a bad line, with the mark.
def longest(opening, roll):
    rest = TEXT_AT_MOST - len(opening) - 1
    head = opening + b'\n'
    fill = roll + b'\n'
    count, left = divmod(rest, len(fill))
    yield from (head + b'#' * length for length in (rest - 1, rest, rest + 1, rest + 70_000))
    yield from (MARK + head + b'#' * length for length in (rest - 3, rest - 2))
    yield from (head + b'#' * (rest - 1) + end for end in (b'\n', b'\n\n', b'\n#', b'\r\n', b'\nx', b'\n' + opening))
    yield from (head + b'\n' * length for length in (rest, rest + 1, rest + 2))
    yield from (b'\n' * length for length in (TEXT_AT_MOST - 1, TEXT_AT_MOST, TEXT_AT_MOST + 1, TEXT_AT_MOST + 2))
    yield from (b'#' * length for length in (TEXT_AT_MOST, TEXT_AT_MOST + 1))
    yield from (head + fill * count + b' ' * length for length in (left, left + 1))
    yield head + fill * (count + 1)
    yield head + b'x\n' + b'#' * TEXT_AT_MOST
    yield b' ' * (TEXT_AT_MOST - len(opening)) + opening
    yield b'\n' * (TEXT_AT_MOST - len(opening)) + opening
    yield b'\n' * (TEXT_AT_MOST - len(opening) + 1) + opening
    yield opening + b' ' * (TEXT_AT_MOST - len(opening))
    yield opening + b' ' * (TEXT_AT_MOST - len(opening) + 1)


# Short texts in which no line says anything, or the opening stands in a wrong place.
SHORT = (b'', b'\n', b'\n\n\n', b' ', b'\r\n', b'#', b'#\n', b'# x\n\n#', MARK, MARK + b'\n', MARK + b'#', MARK + MARK,
         b'\xef\xbb', b'O', b'O 2008-03-20', b'O 2008-03-20\n', b'O 2008-03-20\r\n', MARK + b'O 2008-03-20',
         MARK + MARK + b'O 2008-03-20', b'R 2008-03-21\nO 2008-03-20\n', b'O 2008-03-20\nO 2008-03-20\n',
         b'M AXA 3 2 1\n', b'x\nO 2008-03-20', b'\n\nO 2008-03-20\nx')
