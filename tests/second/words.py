"""Lines and words of the texts that `deliver`, `reconcile` and `query` read: notices,
rows and questions.

A line ends with a line feed or with the text. Spaces, tabs and carriage returns at its
end play no part, nor does one byte order mark before the first line. Dates and ids are
those of `terms` (01). A number is one or more digits of any length, zeros in front
allowed. A price is a number, perhaps with a point and exactly four digits.
"""

import re

from tests.second import dates, terms

MARK = b'\xef\xbb\xbf'
BLANKS = b' \t\r'

ID = rb'([A-Z0-9]{1,4})'
DATE = rb'([0-9]{4}-[0-9]{2}-[0-9]{2})'
MONTH = rb'([0-9]{4}-[0-9]{2})'
NUMBER = rb'([0-9]+)'
PRICE = rb'([0-9]+(?:\.[0-9]{4})?)'

# No call takes a number of more digits than this has, so that every longer one may stand
# for it: the same question refuses both.
LARGE = 10 ** 20

# The parts of a currency unit in a price (01: "Prices are in 1/10,000").
PARTS = 10_000


# The lines of a text, each without its line feed and the blanks at its end. A final line
# feed starts no further line.
def lines_of(text: bytes) -> list[bytes]:
    return [line.rstrip(BLANKS) for line in terms.lines_of(text.removeprefix(MARK))]


# A line that is empty or "whose first byte is `#`" says nothing.
def says_nothing(line: bytes) -> bool:
    return line[:1] in (b'', b'#')


# The four bytes of a record's id.
def id_of(word: bytes) -> bytes:
    return word.ljust(4)


# An id as it is written, without the spaces after it.
def id_word(code: bytes) -> bytes:
    return code.rstrip(b' ')


# The day number of a date; None for another word and for one "that 23 refuses".
def day_of(word: bytes) -> int | None:
    if not re.fullmatch(DATE, word):
        return None
    number, day = dates.date_to_day(*map(int, word.split(b'-')))
    return None if number else day


# The month number of a year and a month; None for another word, and where 23 refuses
# the month's first day.
def month_of(word: bytes) -> int | None:
    if not re.fullmatch(MONTH, word):
        return None
    day = day_of(word + b'-01')
    return None if day is None else dates.month_of(day)


# The value of digits, or LARGE.
def number_of(digits: bytes) -> int:
    digits = digits.lstrip(b'0')
    return int(digits or b'0') if len(digits) <= 20 else LARGE


# A price in 1/10,000 of the currency.
def price_of(word: bytes) -> int:
    whole, _, parts = word.partition(b'.')
    return PARTS * number_of(whole) + int(parts or b'0')
