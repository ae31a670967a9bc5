"""The text of a master file (docs/OPERATIONS.md, "The text of a master file"; 02, notes 7, 11 and 14).

python3 -m tests.second.lists compose reads a text from standard input and writes
the master file to standard output, or `NO n`, with where, or `BAD k` to standard error.
python3 -m tests.second.lists decompose reads a master file from standard input
and prints its text, or `NO n`.
"""

import re
import sys
from collections.abc import Iterable
from typing import Any

from tests.second import dates, generated, master, trading, writing
from tests.second.product import SHARE, Product
from tests.second.trading import Calendar

# A line's letter and what follows it; all of a text with their numbers; first year and years.
Entry = tuple[Any, ...]
Lines = list[tuple[int, Entry]]
Cover = tuple[int, int]

# docs/OPERATIONS.md: "no line has more than 63 characters"; "a year, a number of years, a size's
# shares and a tick are at most 65,535, a kind is at most 255, a seed at most
# 4,294,967,295"; "the first 2,048 products are kept".
CHARACTERS_AT_MOST = 63
NUMBER_AT_MOST = 65535
KIND_AT_MOST = 255
SEED_AT_MOST = 4294967295
KEPT_AT_MOST = 2048
MARK = b'\xef\xbb\xbf'
BLANKS = b' \t\r'
RUN = 7

# docs/OPERATIONS.md: "single spaces part the words of a line"; "a number is one or more
# digits"; "an id has 1 to 4 characters, a group and a market 4, a currency 3, any
# but spaces and line feeds"; a size is "a number, perhaps with a point and four digits
# after it".
COVER = re.compile(rb'Y ([0-9]+) ([0-9]+)')
SEED = re.compile(rb'S ([0-9]+) ([0-9]+) ([0-9]+)')
DAY = re.compile(rb'([CX]) ([0-9]{4})-([0-9]{2})-([0-9]{2})')
SIZE = rb'([0-9]+)(?:\.([0-9]{4}))?'
PRODUCT = re.compile(rb'P ([^ ]{1,4}) ([^ ]{4}) ([^ ]{4}) ([0-9]+) ' + SIZE + rb' ([0-9]+) ([^ ]{3})', re.DOTALL)


# ---- From a text to a file ----

# docs/OPERATIONS.md: "a line ends with a line feed or with the text"; "Spaces, tabs and carriage
# returns at a line's end play no part, nor does one byte order mark before the first
# line"; "A line that is then empty, or whose first byte is `#`, says nothing": the
# lines that say something, with their numbers.
def lines_of(text: bytes) -> list[tuple[int, bytes]]:
    lines = text.removeprefix(MARK).split(b'\n')
    bare = ((number, line.rstrip(BLANKS)) for number, line in enumerate(lines, 1))
    return [(number, line) for number, line in bare if line and not line.startswith(b'#')]


# A line as a tuple: its letter and what follows it; None for another line.
def entry_of(line: bytes) -> Entry | None:
    if len(line) > CHARACTERS_AT_MOST:
        return None
    return cover_entry(line) or seed_entry(line) or day_entry(line) or product_entry(line)


def cover_entry(line: bytes) -> Entry | None:
    match = COVER.fullmatch(line)
    if not match or max(map(int, match.groups())) > NUMBER_AT_MOST:
        return None
    return ('Y', *map(int, match.groups()))


def seed_entry(line: bytes) -> Entry | None:
    match = SEED.fullmatch(line)
    if not match:
        return None
    seed, first, years = map(int, match.groups())
    if seed > SEED_AT_MOST or max(first, years) > NUMBER_AT_MOST:
        return None
    return 'S', seed, first, years


def day_entry(line: bytes) -> Entry | None:
    match = DAY.fullmatch(line)
    if not match:
        return None
    number, day = dates.date_to_day(*map(int, match.groups()[1:]))
    return None if number else (match.group(1).decode(), day)


def product_entry(line: bytes) -> Entry | None:
    match = PRODUCT.fullmatch(line)
    if not match:
        return None
    code, group, market, kind, shares, part, tick, currency = match.groups(b'0000')
    if int(kind) > KIND_AT_MOST or max(int(shares), int(tick)) > NUMBER_AT_MOST:
        return None
    size = SHARE * int(shares) + int(part)
    return 'P', Product(code.ljust(4), group, market, int(kind), size, int(tick), currency)


# docs/OPERATIONS.md: the days of a cover's years, those of them that there are.
def is_in_cover(first: int, years: int, day: int) -> bool:
    return first <= dates.date_of(day)[0] < first + years


# docs/OPERATIONS.md: "The first line that says something is a `Y` or an `S`, and no other line
# is. After an `S` no line is a `C` or an `X`"; "the day of a `C` or `X` is in the
# cover". Whether an entry may stand after a first line with this letter.
def may_stand(entry: Entry | None, first_letter: str, cover: Cover) -> bool:
    if entry is None:
        return False
    if entry[0] in 'YS' or not first_letter:
        return entry[0] in 'YS' and not first_letter
    return entry[0] == 'P' or first_letter == 'Y' and is_in_cover(*cover, entry[1])


# The cover and the closed days that a first line says. 02, note 14, of a seed: "any
# other cover gets 4 and a calendar of zeros".
def first_said(entry: Entry) -> tuple[Cover, set[int]]:
    if entry[0] == 'Y':
        return (entry[1], entry[2]), set()
    _, calendar = generated.make(*entry[1:])
    return (calendar.first_year, calendar.years), set(calendar.closed)


# What a text says: the number of its first line that is none, 0 where each is one;
# the cover, the closed days, those on which payments run, the products; and each
# line's number and entry.
def read(text: bytes) -> tuple[int, Cover, set[int], set[int], list[Product], Lines]:
    first_letter, cover = '', (0, 0)
    closed: set[int] = set()
    exchange: set[int] = set()
    products: list[Product] = []
    said: Lines = []
    for number, line in lines_of(text):
        entry = entry_of(line)
        if entry is None or not may_stand(entry, first_letter, cover):
            return number, cover, closed, exchange, products, said
        said.append((number, entry))
        if not first_letter:
            first_letter, (cover, closed) = entry[0], first_said(entry)
        elif entry[0] == 'P':
            products.append(entry[1])
        else:
            closed.add(entry[1])
            exchange |= {entry[1]} if entry[0] == 'X' else set()
    return 0, cover, closed, exchange, products, said


# 02, note 7, of what a text says: (number, file). A calendar has no maps for the
# days of a 17th year, and 4 comes before 5.
def write(cover: Cover, closed: set[int], exchange: set[int], products: list[Product]) -> tuple[int, bytes]:
    if cover[1] > trading.YEARS_AT_MOST:
        closed, exchange = set(), set()
    calendar = Calendar(*cover, frozenset(closed), frozenset(exchange))
    number, length, buffer = writing.write(writing.draft_of(calendar, products), bytes(master.FILE_AT_MOST))
    return number, buffer[:length]


# docs/OPERATIONS.md: "with 5 the first `C` or `X` whose day is a Saturday or a Sunday, with 7 the
# first product that is not as stated, with 8 the first whose id is not greater than
# that of the product before it": its number and the product's id.
def line_at_fault(number: int, said: Lines) -> bytes:
    before = b''
    for line, entry in said:
        if entry[0] in 'CX' and number == 5 and not dates.is_weekday(entry[1]):
            return b' line %d' % line
        if entry[0] != 'P':
            continue
        code = entry[1].id
        if number == 7 and not master.record_is_right(master.record_of(entry[1])) or number == 8 and code <= before:
            return b' line %d %s' % (line, code.rstrip(b' '))
        before = code
    raise ValueError(number)


# docs/OPERATIONS.md: "with 6 the first day of the first run of seven days in the cover without a
# trading day".
def first_idle_day(cover: Cover, closed: set[int]) -> bytes:
    calendar = Calendar(*cover, frozenset(closed), frozenset())
    for day in range(trading.first_day(calendar), trading.last_day(calendar) - RUN + 2):
        if not any(trading.is_trading_day(calendar, day + k) for k in range(RUN)):
            return b' from %04d-%02d-%02d' % dates.date_of(day)
    raise ValueError(cover)


# docs/OPERATIONS.md: what `NO n` says of the place.
def place_of(number: int, cover: Cover, closed: set[int], said: Lines) -> bytes:
    if number == 6:
        return first_idle_day(cover, closed)
    return line_at_fault(number, said) if number in (5, 7, 8) else b''


# docs/OPERATIONS.md: "the file on standard output, or one line on standard error": both.
def compose(text: bytes) -> tuple[bytes, bytes]:
    bad, cover, closed, exchange, products, said = read(text)
    if bad:
        return b'', b'BAD %d\n' % bad
    number, file = write(cover, closed, exchange, products[:KEPT_AT_MOST])
    return file, b'NO %d%s\n' % (number, place_of(number, cover, closed, said)) if number else b''


# ---- From a file to a text ----

def day_line(letter: bytes, day: int) -> bytes:
    return b'%s %04d-%02d-%02d\n' % (letter, *dates.date_of(day))


# docs/OPERATIONS.md: "A size has a point and four digits where it is not a whole number of shares."
def size_word(size: int) -> bytes:
    shares, part = divmod(size, SHARE)
    return b'%d.%04d' % (shares, part) if part else b'%d' % shares


def product_line(item: Product) -> bytes:
    return b' '.join([b'P', item.id.rstrip(b' '), item.group, item.market, b'%d' % item.kind,
                      size_word(item.size), b'%d' % item.tick, item.currency]) + b'\n'


# docs/OPERATIONS.md: "the cover, the closed days by date, the products in the file's order".
def text_of(calendar: Calendar, products: Iterable[Product]) -> bytes:
    days = [day_line(b'X' if day in calendar.exchange else b'C', day) for day in sorted(calendar.closed)]
    return b''.join([b'Y %d %d\n' % (calendar.first_year, calendar.years), *days,
                     *map(product_line, products)])


# docs/OPERATIONS.md: the text of an accepted file, or `NO n`.
def decompose(file: bytes) -> bytes:
    number = master.file_refusal(file)
    if number:
        return b'NO %d\n' % number
    return text_of(master.read_calendar(file), master.read_products(file))


def main(arguments: list[str]) -> None:
    data = sys.stdin.buffer.read()
    if arguments == ['compose']:
        file, message = compose(data)
        sys.stdout.buffer.write(file)
        sys.stderr.buffer.write(message)
    elif arguments == ['decompose']:
        sys.stdout.buffer.write(decompose(data))
    else:
        sys.exit(__doc__)


if __name__ == '__main__':
    main(sys.argv[1:])
