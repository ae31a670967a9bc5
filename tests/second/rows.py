"""The rows that `reconcile` reads.

A row has three fields, `product,maturity,last_trading_day`, or the five of `deliver`; both
may be mixed. Fields are parted by a comma, a semicolon or a tab; each may stand in double
quotes, with no quote or separator inside. Line ends and the mark are those of words.py.
Empty lines are passed over, and so is the first line that is not empty where its first
field is `product`. The two numbers are digits and at most 65,535. Bad: any other line; a
date that is none; an id that is none; a maturity of the form that its product's kind does
not have (of an id that is not in the file both are taken); more than 255 bytes. More than
65,536 good rows: the first one too many is told as bad, and reading ends.
"""

import re
from dataclasses import dataclass

from tests.second import product, words

SEPARATORS = re.compile(rb'[,;\t]')
ID = re.compile(words.ID)
NUMBER = re.compile(words.NUMBER)
LINE_AT_MOST = 255
ROWS_AT_MOST = 65536
NUMBER_AT_MOST = 65535
TITLES = (b'product', b'"product"')


# A good row: the four bytes of its id; the maturity's month or Friday, None of an id that
# is not in the file; the day; and the two numbers, None where it has three fields.
@dataclass(frozen=True)
class Row:
    code: bytes
    key: int | None
    day: int
    number: int | None = None
    back: int | None = None


# What was read: the good rows, the numbers of the bad lines, and whether there was a row
# too many.
@dataclass(frozen=True)
class Rows:
    good: list[Row]
    bad: list[int]
    too_many: bool


# A field without its quotes; None where it has another quote.
def field_of(part: bytes) -> bytes | None:
    if len(part) >= 2 and part[:1] == part[-1:] == b'"':
        part = part[1:-1]
    return None if b'"' in part else part


# The fields of a line; None where one of them is none.
def fields_of(line: bytes) -> list[bytes] | None:
    fields = [field_of(part) for part in SEPARATORS.split(line)]
    found = [field for field in fields if field is not None]
    return found if len(found) == len(fields) else None


# "the first line that is not empty where its first field is `product`": what stands in
# the other fields, and how many there are, plays no part.
def is_heading(line: bytes) -> bool:
    return SEPARATORS.split(line, maxsplit=1)[0] in TITLES


# A number of five fields; None for another word and for a larger one.
def number_of(word: bytes) -> int | None:
    if not NUMBER.fullmatch(word) or words.number_of(word) > NUMBER_AT_MOST:
        return None
    return words.number_of(word)


# The month or Friday of a maturity, by the kind of its product.
def key_of(kind: int, word: bytes) -> int | None:
    return words.day_of(word) if product.is_weekly(kind) else words.month_of(word)


# Whether a word is a month or a date.
def is_maturity(word: bytes) -> bool:
    return words.month_of(word) is not None or words.day_of(word) is not None


# A row of three fields; None where one is wrong. `kinds` has the kinds of the file's
# products by their ids.
def short_row(name: bytes, maturity: bytes, last: bytes, kinds: dict[bytes, int]) -> Row | None:
    day = words.day_of(last)
    if not ID.fullmatch(name) or day is None:
        return None
    code = words.id_of(name)
    if code not in kinds:
        return Row(code, None, day) if is_maturity(maturity) else None
    key = key_of(kinds[code], maturity)
    return None if key is None else Row(code, key, day)


# A row of five fields; None where one is wrong.
def long_row(name: bytes, number: bytes, maturity: bytes, last: bytes, back: bytes,
             kinds: dict[bytes, int]) -> Row | None:
    row = short_row(name, maturity, last, kinds)
    numbers = number_of(number), number_of(back)
    return None if row is None or None in numbers else Row(row.code, row.key, row.day, *numbers)


# The row of a line; None where the line is bad.
def row_of(line: bytes, kinds: dict[bytes, int]) -> Row | None:
    fields = fields_of(line) if len(line) <= LINE_AT_MOST else None
    if fields is None or len(fields) not in (3, 5):
        return None
    if len(fields) == 3:
        name, maturity, last = fields
        return short_row(name, maturity, last, kinds)
    name, number, maturity, last, back = fields
    return long_row(name, number, maturity, last, back, kinds)


# The lines that are neither empty nor a heading, with their numbers from 1.
def lines_to_judge(text: bytes) -> list[tuple[int, bytes]]:
    lines = [(place, line) for place, line in enumerate(words.lines_of(text), 1) if line]
    return lines[1:] if lines and is_heading(lines[0][1]) else lines


# What a text holds.
def read(text: bytes, kinds: dict[bytes, int]) -> Rows:
    good: list[Row] = []
    bad: list[int] = []
    for place, line in lines_to_judge(text):
        row = row_of(line, kinds)
        if row is None:
            bad.append(place)
        elif len(good) == ROWS_AT_MOST:
            return Rows(good, [*bad, place], True)
        else:
            good.append(row)
    return Rows(good, bad, False)
